//! Frames, refusals and buffers through the archive.
use dokphalun::{Buffers, Frame, Mesh, Origin, Place, Reading, Refusal};
use std::fs;
use std::path::Path;

/// Document 01's sample 1, in numbers: one triangle.
const POSITIONS: [[f32; 3]; 3] = [[0.0, 0.0, 0.0], [1.0, 0.0, 0.0], [0.0, 1.0, 0.0]];
const NORMALS: [[f32; 3]; 3] = [[0.0, 0.0, 1.0]; 3];
const TEXTURE: [[f32; 2]; 3] = [[0.0, 0.0], [1.0, 0.0], [0.0, 1.0]];
const SAMPLE: Mesh = Mesh {
    sizes: &[3],
    positions: &POSITIONS,
    normals: &NORMALS,
    texture: &TEXTURE,
};

/// What sample 1 says of each corner.
const FRAME: Frame = Frame {
    tangent: [1.0, 0.0, 0.0],
    bitangent: [0.0, 1.0, 0.0],
    mag_s: 1.0,
    mag_t: 1.0,
    preserving: true,
    origin: Origin::Single,
    behind: Some(1),
};

/// The readings of a mesh, without their places.
fn readings(buffers: &mut Buffers, mesh: Mesh) -> Vec<Reading> {
    let answer = buffers.frames(mesh, -1.0).expect("it is refused");
    answer.readings().map(|(_, reading)| reading).collect()
}

#[test]
fn samples_1_to_3() {
    let mut buffers = Buffers::new();
    assert_eq!(readings(&mut buffers, SAMPLE), [Reading::Present(FRAME); 3]);
    let texture = &[[0.0, 0.0], [-1.0, 0.0], [0.0, 1.0]];
    let mirrored = Frame {
        tangent: [-1.0, 0.0, 0.0],
        preserving: false,
        ..FRAME
    };
    let second = Mesh { texture, ..SAMPLE };
    assert_eq!(
        readings(&mut buffers, second),
        [Reading::Present(mirrored); 3]
    );
    let texture = &[[0.0, 0.0]; 3];
    let third = Mesh { texture, ..SAMPLE };
    assert_eq!(readings(&mut buffers, third), [Reading::Absent; 3]);
    assert_eq!(readings(&mut buffers, SAMPLE), [Reading::Present(FRAME); 3]);
}

#[test]
fn faces_without_a_slot_are_passed_over() {
    let sizes = [2, 3, 0];
    let (mut positions, mut normals, mut texture) = (vec![[9.0; 3]; 2], vec![], vec![]);
    positions.extend(POSITIONS);
    normals.extend([[9.0; 3]; 2].into_iter().chain(NORMALS));
    texture.extend([[9.0; 2]; 2].into_iter().chain(TEXTURE));
    let mesh = Mesh {
        sizes: &sizes,
        positions: &positions,
        normals: &normals,
        texture: &texture,
    };
    let mut buffers = Buffers::new();
    let answer = buffers.frames(mesh, -1.0).unwrap();
    let places: Vec<Place> = answer.readings().map(|(place, _)| place).collect();
    assert_eq!(places, [0, 1, 2].map(|corner| Place { face: 1, corner }));
    assert_eq!((answer.total(), answer.absent().count()), (3, 0));
}

#[test]
fn refusals_say_number_place_and_why() {
    let refused = |mesh, threshold| Buffers::new().frames(mesh, threshold).unwrap_err();
    let normals = &NORMALS[1..];
    assert_eq!(
        refused(Mesh { normals, ..SAMPLE }, -1.0),
        Refusal::UnequalLists
    );
    assert_eq!(refused(SAMPLE, f32::NAN), Refusal::Threshold);
    let texture = &[[0.0, 0.0], [1.0, 0.0], [0.0, f32::INFINITY]];
    let refusal = refused(Mesh { texture, ..SAMPLE }, -1.0);
    assert_eq!(refusal, Refusal::NotFinite(Place { face: 0, corner: 2 }));
    assert_eq!(refusal.number(), 4);
    assert_eq!(
        refusal.to_string(),
        "refusal 4: face 0, corner 2 holds a NaN or an infinity"
    );
    let normals = &[NORMALS[0], [0.0, -0.0, 0.0], [0.0; 3]];
    let refusal = refused(Mesh { normals, ..SAMPLE }, -1.0);
    assert_eq!(refusal, Refusal::NoNormal(Place { face: 0, corner: 1 }));
    assert_eq!(
        (refusal.number(), refusal.place()),
        (7, Some(Place { face: 0, corner: 1 }))
    );
    assert_eq!(
        refusal.to_string(),
        "refusal 7: face 0, corner 1 has no normal: its three numbers count as zero"
    );
    assert!(
        refusal
            .remedy()
            .starts_with("the scanner gave no normal here: scan that place again")
    );
    assert!(refusal.remedy().ends_with("never put another normal there"));
}

/// Sample 1 with this normal at each corner, behind a face of five without normals.
fn behind_five(normal: [f32; 3]) -> Result<u32, Refusal> {
    let (mut positions, mut normals, mut texture) =
        (vec![[9.0; 3]; 5], vec![[0.0; 3]; 5], vec![[9.0; 2]; 5]);
    positions.extend(POSITIONS);
    normals.extend([normal; 3]);
    texture.extend(TEXTURE);
    let mesh = Mesh {
        sizes: &[5, 3],
        positions: &positions,
        normals: &normals,
        texture: &texture,
    };
    let mut buffers = Buffers::new();
    buffers.frames(mesh, -1.0).map(|answer| answer.total())
}

#[test]
fn a_normal_is_there_where_one_of_its_numbers_counts() {
    let [zero, edge, next] = [0x8000_0000, 0x0080_0000, 0x0080_0001].map(f32::from_bits);
    let refused = Err(Refusal::NoNormal(Place { face: 1, corner: 0 }));
    for normal in [
        [0.0; 3],
        [zero; 3],
        [edge; 3],
        [-edge, edge, zero],
        [f32::from_bits(1); 3],
    ] {
        assert_eq!(behind_five(normal), refused, "{normal:?}");
    }
    for place in 0..3 {
        for number in [next, -next, 1e-30, -1.0, f32::MAX] {
            let mut normal = [edge, zero, -edge];
            normal[place] = number;
            assert_eq!(behind_five(normal), Ok(3), "{normal:?}");
        }
    }
}

#[test]
fn a_number_that_is_not_finite_comes_before_a_normal_that_is_zero() {
    let refused = |mesh, threshold| Buffers::new().frames(mesh, threshold).unwrap_err();
    let normals = &[[0.0; 3], NORMALS[1], NORMALS[2]];
    let texture = &[[0.0, 0.0], [1.0, 0.0], [0.0, f32::NAN]];
    let bare = Mesh { normals, ..SAMPLE };
    let both = Mesh { texture, ..bare };
    assert_eq!(
        refused(both, -1.0),
        Refusal::NotFinite(Place { face: 0, corner: 2 })
    );
    assert_eq!(refused(bare, f32::NAN), Refusal::Threshold);
    let normals = &[[f32::NAN, 0.0, 0.0], [0.0; 3], NORMALS[2]];
    assert_eq!(
        refused(Mesh { normals, ..SAMPLE }, -1.0),
        Refusal::NotFinite(Place { face: 0, corner: 0 })
    );
}

#[test]
fn the_page_s_table_has_the_numbers_and_names_of_all_refusals() {
    let page = Path::new(env!("CARGO_MANIFEST_DIR")).join("../../docs/PROGRAMMERS.md");
    let page = fs::read_to_string(page).unwrap();
    let place = Place { face: 0, corner: 0 };
    let mut before = 0;
    for refusal in [
        Refusal::TooManyFaces { faces: 0 },
        Refusal::UnequalLists,
        Refusal::Threshold,
        Refusal::NotFinite(place),
        Refusal::NoNormal(place),
        Refusal::AnswerTooShort,
        Refusal::WorkTooShort,
        Refusal::OwnTooShort,
    ] {
        let (number, shown) = (refusal.number(), format!("{refusal:?}"));
        let name = shown.split([' ', '(']).next().unwrap();
        let row = format!("\n| {number} | `{name}");
        // in the table's order, which is the one in which they are checked
        let at = page.find(&row).unwrap_or_else(|| panic!("{row}"));
        assert!(before < at, "{row}");
        before = at;
        assert!(
            refusal
                .to_string()
                .starts_with(&format!("refusal {number}: "))
        );
    }
}
