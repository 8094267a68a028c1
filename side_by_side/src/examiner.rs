//! The calls for a partner's lists beside what they have to leave: a plain examiner, written from request E10, and a plain steps 5 and 6.
use crate::mesh::{Corner, Mesh};
use crate::ours::fresh_work;
use crate::plain_steps::{Model, cut, end, model};
use crate::refusals::{or_nine, without_frames};
use dokphalun_sys::{self as archive, Examined, Handed};
use models::lent::answered;

/// The words a face that lists for our own links are lent: links, groups, orientations.
pub const ENTRIES: [usize; 3] = [6, 6, 2];

/// Links, groups and orientations.
#[derive(Clone, Debug, Default, PartialEq)]
pub struct Lists {
    pub links: Vec<u32>,
    pub groups: Vec<u32>,
    pub orientations: Vec<u32>,
}

impl Lists {
    /// Lists of these lengths, none of whose words is what a call leaves.
    pub fn fresh(lengths: [usize; 3]) -> Lists {
        let [links, groups, orientations] = [0, 1, 2]
            .map(|list| (0x3C00_0000 + ((list as u32) << 24)..).take(lengths[list]))
            .map(Iterator::collect);
        Lists {
            links,
            groups,
            orientations,
        }
    }

    /// How long each is.
    pub fn lengths(&self) -> [usize; 3] {
        [&self.links, &self.groups, &self.orientations].map(Vec::len)
    }

    /// Leaves the words of so many triangles.
    pub fn cut(&mut self, sound: usize) {
        self.links.truncate(3 * sound);
        self.groups.truncate(3 * sound);
        self.orientations.truncate(sound);
    }

    /// What the plain steps 5 and 6 make.
    pub fn of(m: &Model) -> Lists {
        let sound = m.triangles[..m.sound].iter();
        Lists {
            links: m.links.clone(),
            groups: m.group.clone(),
            orientations: sound.map(|t| u32::from(t.orientation)).collect(),
        }
    }
}

/// What the call for our own links leaves: what it says, its lists, and the work list.
#[derive(Clone, Debug, PartialEq)]
pub struct Own {
    pub handed: Handed,
    pub lists: Lists,
    pub work: Vec<u32>,
}

/// All that both calls leave.
#[derive(Clone, Debug, PartialEq)]
pub struct Left {
    pub examined: Examined,
    pub work: Vec<u32>,
    pub lists: Lists,
    pub own: Own,
}

/// What the call for our own links leaves of fresh lists of these lengths.
pub fn own_left(mesh: &Mesh, lengths: [usize; 3]) -> Own {
    let (mut lists, mut work) = (Lists::fresh(lengths), fresh_work(mesh.work));
    let (links, groups) = (&mut lists.links, &mut lists.groups);
    let ways = &mut lists.orientations;
    let handed = answered(archive::links(
        mesh.handed(),
        links,
        groups,
        ways,
        &mut work,
    ));
    Own {
        handed,
        lists,
        work,
    }
}

/// What it has to leave of them: as the plain steps 5 and 6 have it.
pub fn own_expected(mesh: &Mesh, lengths: [usize; 3]) -> Own {
    let short = (0..3).any(|list| lengths[list] < ENTRIES[list] * mesh.sizes.len());
    let (number, place) = or_nine(without_frames(mesh), short);
    let handed = Handed {
        number,
        place,
        sound: 0,
    };
    let mut own = Own {
        handed,
        lists: Lists::fresh(lengths),
        work: fresh_work(mesh.work),
    };
    if number == 0 {
        let m = model(&mesh.sizes, &numbers(mesh));
        let plain = Lists::of(&m);
        own.handed.sound = m.sound as u32;
        own.lists.links[..3 * m.sound].copy_from_slice(&plain.links);
        own.lists.groups[..3 * m.sound].copy_from_slice(&plain.groups);
        own.lists.orientations[..m.sound].copy_from_slice(&plain.orientations);
        own.work[..mesh.needed_work()].fill(0);
    }
    own
}

/// What both calls leave of fresh lists; those for our own links have these lengths.
pub fn left(mesh: &Mesh, lists: &Lists, lengths: [usize; 3]) -> Left {
    let (lists, mut work) = (lists.clone(), fresh_work(mesh.work));
    let (links, groups, ways) = (&lists.links, &lists.groups, &lists.orientations);
    Left {
        examined: answered(archive::examine(
            mesh.handed(),
            links,
            groups,
            ways,
            &mut work,
        )),
        own: own_left(mesh, lengths),
        work,
        lists,
    }
}

/// What they have to leave.
pub fn expected(mesh: &Mesh, lists: &Lists, lengths: [usize; 3]) -> Left {
    let mut left = Left {
        examined: plain_examined(mesh, lists),
        work: fresh_work(mesh.work),
        lists: lists.clone(),
        own: own_expected(mesh, lengths),
    };
    if left.examined.refusal == 0 {
        left.work[..mesh.needed_work()].fill(0);
    }
    left
}

/// Positions, normals and texture as numbers.
pub fn numbers(mesh: &Mesh) -> [Vec<f32>; 3] {
    [&mesh.positions, &mesh.normals, &mesh.texture]
        .map(|list| list.iter().map(|bits| f32::from_bits(*bits)).collect())
}

/// What the examiner has to say: the desk's refusal, else the first objection that applies, at its lowest place.
fn plain_examined(mesh: &Mesh, lists: &Lists) -> Examined {
    if let Some((refusal, place)) = without_frames(mesh) {
        return Examined {
            refusal,
            objection: 0,
            place,
        };
    }
    let given = Given::of(mesh, lists);
    let mut found = OBJECTIONS.iter().zip(1..);
    let first = found.find_map(|(objection, number)| Some((number, objection(&given)?)));
    let (objection, place) = first.unwrap_or((0, 0));
    Examined {
        refusal: 0,
        objection,
        place: place as u32,
    }
}

/// The objections from 1 to 12: each says at which place it applies, the lowest one.
const OBJECTIONS: [fn(&Given) -> Option<usize>; 12] = [
    Given::of_another_length,
    Given::past_the_end,
    Given::not_opposite,
    Given::not_mutual,
    Given::left_over,
    Given::no_orientation,
    Given::turned,
    Given::ungrouped,
    Given::of_another_corner,
    Given::of_another_orientation,
    Given::parted,
    Given::severed,
];

/// The row before a row in the same triangle: where the side starts that ends in its corner.
fn before(r: usize) -> usize {
    end(end(r))
}

/// The row of the side beyond, if a side is linked.
fn beyond(links: &[u32], r: usize) -> Option<usize> {
    links[r].checked_sub(1).map(|row| row as usize)
}

/// The same corner beyond each of the two sides that end in a corner, where they are linked.
fn steps(links: &[u32], r: usize) -> impl Iterator<Item = usize> {
    let after = beyond(links, r).map(end);
    after.into_iter().chain(beyond(links, before(r)))
}

/// For each row the lowest one from which a chain leads to it, over mutual links and from row to row as `joined` allows.
pub fn chains(links: &[u32], joined: impl Fn(usize, usize) -> bool) -> Vec<usize> {
    let mut lowest: Vec<usize> = (0..links.len()).collect();
    let mut changed = true;
    while changed {
        changed = false;
        for r in 0..links.len() {
            for s in steps(links, r).filter(|&s| joined(r, s)) {
                let least = lowest[r].min(lowest[s]);
                changed |= lowest[r] != lowest[s];
                (lowest[r], lowest[s]) = (least, least);
            }
        }
    }
    lowest
}

/// A mesh's sound triangles and a partner's lists.
struct Given {
    lists: Lists,
    /// The corner of each row, as bits.
    corners: Vec<Corner>,
    /// Of each triangle: whether it is `group_with_any`, and step 3's orientation.
    any: Vec<bool>,
    orientation: Vec<u32>,
}

impl Given {
    /// Steps 1 to 3 of a mesh that is accepted, and the lists.
    fn of(mesh: &Mesh, lists: &Lists) -> Given {
        let m = cut(&mesh.sizes, &numbers(mesh));
        let sound = &m.triangles[..m.sound];
        Given {
            lists: lists.clone(),
            corners: sound
                .iter()
                .flat_map(|t| t.corners.map(|corner| corner.bits()))
                .collect(),
            any: sound.iter().map(|t| t.any).collect(),
            orientation: sound.iter().map(|t| u32::from(t.orientation)).collect(),
        }
    }

    /// The lowest row of which something is true.
    fn row(&self, is: impl Fn(usize) -> bool) -> Option<usize> {
        (0..self.corners.len()).find(|&r| is(r))
    }

    /// The lowest triangle of which something is true.
    fn triangle(&self, is: impl Fn(usize) -> bool) -> Option<usize> {
        (0..self.any.len()).find(|&t| is(t))
    }

    /// The lowest row that is linked to one, where something is true of both.
    fn linked(&self, is: impl Fn(usize, usize) -> bool) -> Option<usize> {
        self.row(|r| beyond(&self.lists.links, r).is_some_and(|q| is(r, q)))
    }

    /// The lowest row with a lower one in its group, where something is true of the lower one and it.
    fn fellow(&self, is: impl Fn(usize, usize) -> bool) -> Option<usize> {
        let groups = &self.lists.groups;
        self.row(|r| groups[r] != 0 && (0..r).any(|e| groups[e] == groups[r] && is(e, r)))
    }

    /// Whether two sides have the same two welded ends, run opposite ways.
    fn opposite(&self, r: usize, q: usize) -> bool {
        self.corners[r] == self.corners[end(q)] && self.corners[end(r)] == self.corners[q]
    }

    /// 1: a list has another length than the sound triangles call for.
    fn of_another_length(&self) -> Option<usize> {
        let wanted = [self.corners.len(), self.corners.len(), self.any.len()];
        (0..3).find(|&list| self.lists.lengths()[list] != wanted[list])
    }

    /// 2: a link to a row that is not there.
    fn past_the_end(&self) -> Option<usize> {
        self.linked(|_, q| q >= self.corners.len())
    }

    /// 3: a link joins sides with the same two welded ends, run opposite ways.
    fn not_opposite(&self) -> Option<usize> {
        self.linked(|r, q| !self.opposite(r, q))
    }

    /// 4: each link is mutual.
    fn not_mutual(&self) -> Option<usize> {
        self.linked(|r, q| beyond(&self.lists.links, q) != Some(r))
    }

    /// 5: no two such unlinked sides are left over.
    fn left_over(&self) -> Option<usize> {
        let free = |r: usize| self.lists.links[r] == 0;
        self.row(|r| free(r) && (0..self.corners.len()).any(|q| free(q) && self.opposite(r, q)))
    }

    /// 6: an orientation is 0 or 1.
    fn no_orientation(&self) -> Option<usize> {
        self.triangle(|t| self.lists.orientations[t] > 1)
    }

    /// 7: triangles that are not `group_with_any` keep the orientation of step 3.
    fn turned(&self) -> Option<usize> {
        self.triangle(|t| !self.any[t] && self.lists.orientations[t] != self.orientation[t])
    }

    /// 8: each corner of such a triangle is in a group.
    fn ungrouped(&self) -> Option<usize> {
        self.row(|r| !self.any[r / 3] && self.lists.groups[r] == 0)
    }

    /// 9: all members of a group share one welded corner.
    fn of_another_corner(&self) -> Option<usize> {
        self.fellow(|e, r| self.corners[e] != self.corners[r])
    }

    /// 10: they share one orientation.
    fn of_another_orientation(&self) -> Option<usize> {
        let way = &self.lists.orientations;
        self.fellow(|e, r| way[e / 3] != way[r / 3])
    }

    /// 11: two triangles that are not `group_with_any`, of one orientation and with a linked side, have each end of that side in one group.
    fn parted(&self) -> Option<usize> {
        let (way, groups) = (&self.lists.orientations, &self.lists.groups);
        self.linked(|r, q| {
            let bound = !self.any[r / 3] && !self.any[q / 3] && way[r / 3] == way[q / 3];
            bound && (groups[r] != groups[end(q)] || groups[end(r)] != groups[q])
        })
    }

    /// 12: every group is connected over linked sides that end in its corner.
    fn severed(&self) -> Option<usize> {
        let groups = &self.lists.groups;
        let lowest = chains(&self.lists.links, |x, y| groups[x] == groups[y]);
        self.fellow(|e, r| lowest[e] != lowest[r])
    }
}
