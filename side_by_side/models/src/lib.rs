//! What the comparisons and the tests share, each once: document 01's root and document 02's angle, packed frames and the verdict on a slot,
//! written plainly; meshes, files of one, and the oracle's; numbers that look random; lent lists; options; threads of a known stack.
pub mod faces;
pub mod files;
pub mod leaves;
pub mod lent;
pub mod options;
pub mod oracle;
pub mod packed;
pub mod random;
pub mod shapes;
pub mod stack;
pub mod worth;

pub use faces::{Corner, Faces, flat};
