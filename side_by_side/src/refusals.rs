//! The refusals of document 01's table with request E4's row, in its order, and number 9 of requests E9 and E10.
use crate::mesh::{Corner, Mesh, framed};

/// The greatest number of faces that is accepted, written out once more, so that the bindings' is held against something else.
pub const MOST_FACES: usize = 65_536;

/// The number and the place of a refusal.
pub type Refusal = (u32, u32);

/// A row of the table: a number, and the place at which it applies, if it does.
type Row = (u32, fn(&Mesh) -> Option<usize>);

/// Document 01's table; request E4's row is checked right after 4.
const TABLE: [Row; 7] = [
    (1, |mesh| (mesh.sizes.len() > MOST_FACES).then_some(0)),
    (2, |mesh| unequal(mesh).then_some(0)),
    (3, |mesh| unfit(mesh.threshold).then_some(0)),
    (4, |mesh| {
        lowest(mesh, |corner| corner.into_iter().any(unfit))
    }),
    (7, |mesh| lowest(mesh, bare)),
    (5, |mesh| (mesh.answer < mesh.needed_answer()).then_some(0)),
    (6, |mesh| (mesh.work < mesh.needed_work()).then_some(0)),
];

/// The first refusal of the table that applies to a call for frames.
pub fn refusal(mesh: &Mesh) -> Option<Refusal> {
    let mut rows = TABLE.iter();
    rows.find_map(|(number, place)| Some((*number, place(mesh)? as u32)))
}

/// The same of a call that has no threshold and no answer list.
pub fn without_frames(mesh: &Mesh) -> Option<Refusal> {
    refusal(&Mesh {
        threshold: 0,
        answer: mesh.needed_answer(),
        ..mesh.clone()
    })
}

/// The refusal, else 9 where a list that the call takes besides is too short, else zeros.
pub fn or_nine(refusal: Option<Refusal>, short: bool) -> Refusal {
    refusal.unwrap_or((if short { 9 } else { 0 }, 0))
}

/// True where the lists are not one for each corner.
fn unequal(mesh: &Mesh) -> bool {
    let corners = mesh.corners();
    let lengths = [mesh.positions.len(), mesh.normals.len(), mesh.texture.len()];
    lengths != [3 * corners, 3 * corners, 2 * corners]
}

/// True for the bits of a NaN or an infinity.
pub fn unfit(bits: u32) -> bool {
    bits & 0x7F80_0000 == 0x7F80_0000
}

/// The greatest size of a number that counts as zero (sample 6).
const COUNTS_AS_ZERO: u32 = 0x0080_0000;

/// True for a corner without a normal: its three numbers count as zero.
pub fn bare(corner: Corner) -> bool {
    corner[3..6]
        .iter()
        .all(|bits| bits & 0x7FFF_FFFF <= COUNTS_AS_ZERO)
}

/// The lowest corner of a face of 3 or 4 that is such a one, for lists of the right lengths.
fn lowest(mesh: &Mesh, such: fn(Corner) -> bool) -> Option<usize> {
    let mut first = 0;
    mesh.sizes.iter().find_map(|&size| {
        let mut corners = first..first + usize::from(size);
        first = corners.end;
        corners.find(|&i| framed(size) && such(mesh.corner(i)))
    })
}
