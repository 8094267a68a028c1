//! Lists of links, groups and orientations: our own handed out, a partner's examined.
use dokphalun::{
    Buffers, List, Lists, Mesh, Objection, OwnLinks, Place, Refusal, Side, Triangle, triangles,
};
use models::{Corner, Faces, flat};

/// What is asked of faces here.
trait Asked {
    /// Our own lists.
    fn own(&self) -> OwnLinks;
    /// What is found of lists.
    fn examine(&self, lists: &OwnLinks) -> Result<(), Objection>;

    /// What is objected to our own lists after they were edited.
    fn edited(&self, edit: impl FnOnce(&mut OwnLinks)) -> Objection {
        let mut lists = self.own();
        edit(&mut lists);
        self.examine(&lists).unwrap_err()
    }
}

impl Asked for Faces {
    fn own(&self) -> OwnLinks {
        Buffers::new().links(self.mesh()).expect("it is refused")
    }

    fn examine(&self, lists: &OwnLinks) -> Result<(), Objection> {
        Buffers::new().examine(self.mesh(), lists.lists())
    }
}

/// A corner in a plane with texture coordinates of its own.
fn apart([x, y]: [f32; 2], texture: [f32; 2]) -> Corner {
    let (position, normal, _) = flat([x, y]);
    (position, normal, texture)
}

const A: Corner = flat([0.0, 0.0]);
const B: Corner = flat([1.0, 0.0]);
const C: Corner = flat([0.0, 1.0]);
const D: Corner = flat([1.0, 1.0]);

/// Two triangles that share the side from B to C: row 1 of the first, row 3 of the second.
fn pair() -> Faces {
    Faces::of([[A, B, C], [C, B, D]])
}

/// The side of a row of `pair`, whose faces are triangles.
fn side(row: usize) -> Side {
    Side {
        row,
        face: row / 3,
        from: row % 3,
        to: (row + 1) % 3,
    }
}

#[test]
fn our_own_lists_are_handed_out_and_accepted() {
    let own = pair().own();
    assert_eq!(own.links, [0, 4, 0, 2, 0, 0]);
    assert_eq!(own.groups, [1, 2, 3, 3, 2, 4]);
    assert_eq!(own.orientations, [1, 1]);
    assert_eq!(pair().examine(&own), Ok(()));
    let none = Faces::default();
    assert_eq!(none.own(), OwnLinks::default());
    assert_eq!(none.examine(&none.own()), Ok(()));
}

#[test]
fn group_numbers_are_the_partner_s() {
    let mut lists = pair().own();
    lists.groups = [9, u32::MAX, 7, 7, u32::MAX, 1].into();
    assert_eq!(pair().examine(&lists), Ok(()));
}

#[test]
fn where_three_sides_meet_two_pairings_are_accepted() {
    let three = Faces::of([[A, B, C], [A, B, D], [B, A, flat([0.5, -1.0])]]);
    let mut lists = three.own();
    assert_eq!(lists.links, [7, 0, 0, 0, 0, 0, 1, 0, 0]);
    assert_eq!(three.examine(&lists), Ok(()));
    // the third triangle is linked to the second in place of the first, and grouped with it
    lists.links = [0, 0, 0, 7, 0, 0, 4, 0, 0].into();
    lists.groups = [1, 2, 3, 4, 5, 6, 5, 4, 7].into();
    assert_eq!(three.examine(&lists), Ok(()));
}

#[test]
fn a_list_of_another_length() {
    let length = |list, words, wanted| Objection::Length {
        list,
        words,
        wanted,
    };
    let cut = pair().edited(|lists| lists.links.truncate(5));
    assert_eq!(cut, length(List::Links, 5, 6));
    let long = pair().edited(|lists| lists.groups.push(0));
    assert_eq!(long, length(List::Groups, 7, 6));
    let cut = pair().edited(|lists| lists.orientations.truncate(1));
    assert_eq!(cut, length(List::Orientations, 1, 2));
    assert_eq!(cut.list(), Some(List::Orientations));
    assert_eq!((cut.number(), cut.face()), (1, None));
    assert_eq!(
        cut.to_string(),
        "objection 1: the orientations are 1 words, and the sound triangles of the mesh call for 2"
    );
}

#[test]
fn links_that_are_not_accepted() {
    let past = pair().edited(|lists| lists.links[5] = 7);
    assert_eq!(past, Objection::PastTheEnd(side(5)));
    let wrong = pair().edited(|lists| lists.links[0] = 4);
    assert_eq!(wrong, Objection::NotOpposite(side(0)));
    let one = pair().edited(|lists| lists.links[3] = 0);
    assert_eq!(one, Objection::NotMutual(side(1)));
    let neither = pair().edited(|lists| lists.links.fill(0));
    assert_eq!(neither, Objection::LeftOver(side(1)));
    let numbers = [past, wrong, one, neither].map(|objection| objection.number());
    assert_eq!(numbers, [2, 3, 4, 5]);
    assert_eq!((past.list(), past.face()), (Some(List::Links), Some(1)));
    assert_eq!(
        past.to_string(),
        "objection 2: face 1, side 2 to 0 (row 5): it is linked to a row that is not there"
    );
}

#[test]
fn orientations_that_are_not_accepted() {
    let second = Triangle {
        number: 1,
        face: 1,
        corners: [0, 1, 2],
    };
    let two = pair().edited(|lists| lists.orientations[1] = 2);
    assert_eq!(two, Objection::NoOrientation(second));
    let turned = pair().edited(|lists| lists.orientations[1] = 0);
    assert_eq!(turned, Objection::Turned(second));
    assert_eq!((two.number(), turned.number()), (6, 7));
    assert_eq!(two.list(), Some(List::Orientations));
    assert_eq!(turned.face(), Some(1));
    assert_eq!(
        two.to_string(),
        "objection 6: face 1, corners 0 1 2 (triangle 1): its orientation is neither 0 nor 1"
    );
}

#[test]
fn groups_that_are_not_accepted() {
    let none = pair().edited(|lists| lists.groups[4] = 0);
    assert_eq!(none, Objection::Ungrouped(side(4)));
    let other = pair().edited(|lists| lists.groups[5] = 1);
    assert_eq!(other, Objection::OtherCorner(side(5)));
    let parted = pair().edited(|lists| lists.groups[4] = 9);
    assert_eq!(parted, Objection::Parted(side(1)));
    // the second triangle is mirrored
    let mirrored = Faces::of([[A, B, C], [C, B, apart([1.0, 1.0], [0.25, 0.25])]]);
    assert_eq!(mirrored.own().orientations, [1, 0]);
    let way = mirrored.edited(|lists| lists.groups[4] = lists.groups[1]);
    assert_eq!(way, Objection::OtherOrientation(side(4)));
    // two triangles that share a corner and no side
    let bow = Faces::of([[A, B, C], [flat([-1.0, 0.0]), flat([0.0, -1.0]), A]]);
    let severed = bow.edited(|lists| lists.groups[5] = lists.groups[0]);
    assert_eq!(severed, Objection::Severed(side(5)));
    let numbers = [none, other, way, parted, severed].map(|objection| objection.number());
    assert_eq!(numbers, [8, 9, 10, 11, 12]);
    assert_eq!(
        (severed.list(), severed.face()),
        (Some(List::Groups), Some(1))
    );
    assert_eq!(
        severed.to_string(),
        "objection 12: face 1, side 2 to 0 (row 5): the corner where it starts is in a group with a lower row \
         from which no chain of linked sides that end there leads to it"
    );
}

#[test]
fn no_two_lists_are_exchanged() {
    let own = pair().own();
    let mut buffers = Buffers::new();
    let (links, groups) = (&own.groups[..], &own.links[..]);
    let lists = Lists {
        links,
        groups,
        ..own.lists()
    };
    let objection = buffers.examine(pair().mesh(), lists).unwrap_err();
    assert_eq!(objection, Objection::NotOpposite(side(0)));
}

#[test]
fn refusals_come_first() {
    let mut faces = pair();
    let own = faces.own();
    faces.normals[4] = [f32::NAN; 3];
    let refusal = Refusal::NotFinite(Place { face: 1, corner: 1 });
    assert_eq!(Buffers::new().links(faces.mesh()), Err(refusal));
    let objection = faces.examine(&own).unwrap_err();
    assert_eq!(objection, Objection::Refused(refusal));
    assert_eq!((objection.number(), objection.list()), (0, None));
    assert_eq!(
        objection.to_string(),
        "refusal 4: face 1, corner 1 holds a NaN or an infinity"
    );
    faces.normals[4] = [0.0, -0.0, f32::MIN_POSITIVE];
    let refusal = Refusal::NoNormal(Place { face: 1, corner: 1 });
    assert_eq!(Buffers::new().links(faces.mesh()), Err(refusal));
    let objection = faces.examine(&own).unwrap_err();
    assert_eq!(objection, Objection::Refused(refusal));
    assert_eq!(
        objection.to_string(),
        "refusal 7: face 1, corner 1 has no normal: its three numbers count as zero"
    );
    let sizes = vec![0; 65_537];
    let many = Mesh {
        sizes: &sizes,
        positions: &[],
        normals: &[],
        texture: &[],
    };
    let refusal = Refusal::TooManyFaces { faces: 65_537 };
    assert_eq!(Buffers::new().links(many), Err(refusal));
    let objection = Buffers::new().examine(many, own.lists()).unwrap_err();
    assert_eq!(objection, Objection::Refused(refusal));
}

#[test]
fn the_sides_of_quads_have_their_own_corners() {
    let square: [Corner; 4] = [A, B, D, C];
    // the diagonal from 1 to 3 is shorter; a face of five and one of a single place stand before it
    let bent = [A, B, flat([3.0, 3.0]), C];
    let faces = Faces::of([&[A; 5][..], &square, &[B; 4], &bent]);
    let corners: Vec<(usize, [usize; 3])> = triangles(faces.mesh())
        .into_iter()
        .map(|triangle| (triangle.face, triangle.corners))
        .collect();
    let kept = [[0, 1, 2], [0, 2, 3], [0, 1, 3], [1, 2, 3]];
    assert_eq!(
        corners,
        [(1, kept[0]), (1, kept[1]), (3, kept[2]), (3, kept[3])]
    );
    let objection = faces.edited(|lists| lists.links[10] = 99);
    let side = Side {
        row: 10,
        face: 3,
        from: 2,
        to: 3,
    };
    assert_eq!(objection, Objection::PastTheEnd(side));
    let objection = faces.edited(|lists| lists.orientations[2] = 9);
    let triangle = Triangle {
        number: 2,
        face: 3,
        corners: kept[2],
    };
    assert_eq!(objection, Objection::NoOrientation(triangle));
}

/// A whole number below 4 or so, from a seed: few of them, so that corners, diagonals and positions are often equal.
fn few(seed: &mut u64) -> f32 {
    *seed = seed
        .wrapping_mul(6_364_136_223_846_793_005)
        .wrapping_add(1_442_695_040_888_963_407);
    [0.0, -0.0, 1.0, 2.0, 3.5, 1e-30, 2e30][(*seed >> 33) as usize % 7]
}

#[test]
fn triangles_are_those_of_the_archive() {
    let (mut seed, mut linked, mut dropped) = (20_261_116, [0; 4], 0);
    for _ in 0..20_000 {
        let mut two = || [few(&mut seed), few(&mut seed)];
        let mut corner = || apart(two(), two());
        let quad = [corner(), corner(), corner(), corner()];
        let faces = Faces::of([&quad[..], &quad[..2], &quad[1..]]);
        let (all, own) = (triangles(faces.mesh()), faces.own());
        assert_eq!(own.orientations.len(), all.len(), "{quad:?}");
        dropped += 3 - all.len();
        // each link joins two sides whose corners are the same, run opposite ways: so the cut is the archive's
        let sides: Vec<Side> = all
            .iter()
            .flat_map(|t| [0, 1, 2].map(|i| t.side(i)))
            .collect();
        for (side, beyond) in sides.iter().zip(&own.links) {
            let Some(beyond) = beyond.checked_sub(1).map(|row| sides[row as usize]) else {
                continue;
            };
            let at = |face: usize, corner: usize| quad[if face == 0 { corner } else { corner + 1 }];
            let bits = |(p, _, t): Corner| [p[0], p[1], t[0], t[1]].map(f32::to_bits);
            let ends = |side: &Side| [side.from, side.to].map(|corner| bits(at(side.face, corner)));
            let [from, to] = ends(side);
            assert_eq!(ends(&beyond), [to, from], "{quad:?}");
            linked[side.from] += 1;
        }
    }
    assert!(linked.iter().all(|&count| count > 1000), "{linked:?}");
    assert!(dropped > 1000, "{dropped}");
}
