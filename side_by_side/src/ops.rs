//! Document 01's root and document 02's angle, as the crate asks for them.
use bevy_mikktspace::Ops;
use models::leaves::{angle, root};

/// The root of document 01 and the angle of document 02.
pub struct Document;

impl Ops for Document {
    fn sqrt(x: f32) -> f32 {
        root(x)
    }

    fn acos(x: f32) -> f32 {
        angle(x)
    }
}

impl mikktspace_altered::Ops for Document {
    fn sqrt(x: f32) -> f32 {
        root(x)
    }

    fn acos(x: f32) -> f32 {
        angle(x)
    }
}
