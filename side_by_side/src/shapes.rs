//! The shapes that times are measured on.
use crate::mesh::Mesh;
use crate::refusals::MOST_FACES;
use models::shapes;

/// A shape.
#[derive(Clone, Copy, PartialEq)]
pub enum Shape {
    /// Quads round a tube; texture runs from 0 to 1 round it, so that the seam is not welded.
    Tube,
    /// Triangles round one corner.
    Fan,
    /// A gently bulging sheet of quads, texture from above.
    Sheet,
    /// One sound triangle starts a group, and quads cut through the hub follow.
    QuadFan,
    /// A fan whose texture turns twice as fast: between thresholds 0 and 1 every member has a subgroup of its own.
    TurningFan,
}

/// All of them.
pub const SHAPES: [Shape; 5] = [
    Shape::Tube,
    Shape::Fan,
    Shape::Sheet,
    Shape::QuadFan,
    Shape::TurningFan,
];

impl Shape {
    /// The shape's name.
    pub fn name(self) -> &'static str {
        match self {
            Shape::Tube => "tube",
            Shape::Fan => "fan",
            Shape::Sheet => "sheet",
            Shape::QuadFan => "quadfan",
            Shape::TurningFan => "rotfan",
        }
    }

    /// True where one group has a member in every face.
    pub fn is_fan(self) -> bool {
        !matches!(self, Shape::Tube | Shape::Sheet)
    }

    /// The most faces on which ours, and then the crate, is measured: minutes a call are not waited for.
    pub fn measured_to(self) -> [usize; 2] {
        match self {
            Shape::Tube | Shape::Sheet => [MOST_FACES; 2],
            Shape::Fan | Shape::QuadFan => [MOST_FACES, 16_384],
            Shape::TurningFan => [4096; 2],
        }
    }

    /// The shape in at most so many faces; a tube or a sheet of 2^k faces has just that many.
    pub fn mesh(self, count: usize, threshold: f32) -> Mesh {
        let faces = match self {
            Shape::Tube => shapes::tube(count),
            Shape::Sheet => shapes::sheet(count),
            Shape::Fan => shapes::fan(count),
            Shape::TurningFan => shapes::turning_fan(count),
            Shape::QuadFan => shapes::quad_fan(count),
        };
        Mesh::from_faces(&faces, threshold.to_bits())
    }
}
