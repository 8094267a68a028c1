//! The proved frames beside those of the Rust crate, word for word, and their times.

// build.rs leaves both where they are found by name
extern crate bevy_mikktspace;
extern crate mikktspace_altered;

pub mod compare;
pub mod examiner;
pub mod islands;
pub mod kinds;
pub mod many;
pub mod mesh;
pub mod ops;
pub mod ours;
pub mod partner;
pub mod plain_reasons;
pub mod plain_steps;
pub mod reasons;
pub mod refusals;
pub mod runner;
pub mod shapes;
pub mod shrink;
pub mod spoil;
pub mod svg;
pub mod tally;
pub mod text;
pub mod theirs;
pub mod timing;

pub use models::{random, stack};
