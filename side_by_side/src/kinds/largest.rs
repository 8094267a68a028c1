//! `largest`: meshes about the limit, and the bench's shapes at it; `fans`: the two at which the crate takes minutes.
use super::limits;
use crate::mesh::Case;
use crate::random::Random;
use crate::refusals::MOST_FACES;
use crate::shapes::Shape::{self, Fan, QuadFan, Sheet, Tube};

/// Shapes, thresholds and faces. Of fans fewer: the crate takes a time of the square of a group.
const SHAPES: [(Shape, f32, usize); 7] = [
    (Tube, -1.0, MOST_FACES),
    (Tube, 0.5, MOST_FACES),
    (Sheet, -1.0, MOST_FACES),
    (Sheet, 0.5, MOST_FACES),
    (Fan, -1.0, 8192),
    (Fan, 0.5, 8192),
    (QuadFan, -1.0, 8192),
];
/// Fans at the limit.
const FANS: [Shape; 2] = [Fan, QuadFan];

/// How many cases there are.
pub const ALL: u64 = SHAPES.len() as u64 + limits::ALL_ABOUT;
pub const ALL_FANS: u64 = FANS.len() as u64;

/// Case number `i`.
pub fn make(_: &mut Random, i: u64) -> Case {
    match SHAPES.get(i as usize) {
        Some(&(shape, threshold, faces)) => accepted(shape, threshold, faces),
        None => limits::about(i - SHAPES.len() as u64),
    }
}

/// Fan number `i`.
pub fn fan(_: &mut Random, i: u64) -> Case {
    accepted(FANS[i as usize], -1.0, MOST_FACES)
}

/// A shape of just so many faces, made to be accepted.
fn accepted(shape: Shape, threshold: f32, faces: usize) -> Case {
    let mesh = shape.mesh(faces, threshold);
    assert!(mesh.sizes.len() == faces, "not so many faces");
    Case {
        mesh,
        owners: vec![],
        foreseen: Some((0, 0)),
    }
}
