//! The calls of the proved archive libdokphalun.a, each declared once and handed Rust's own lists.
//!
//! The archive takes any numbers whatever, so every call here is safe: a list passes with its own length, and one that is
//! altered is borrowed for that alone. The first call asks the archive what it is ([`archive`]); where that is not what these
//! declarations were written for, every call panics and says so. docs/PROGRAMMERS.md says what the calls do, and
//! include/dokphalun.h what each number means.
#![deny(missing_docs)]
mod calls;
mod edition;
#[cfg(feature = "exports")]
pub mod exports;
mod said;

pub use calls::*;
pub use edition::{Edition, INTERFACE, OtherArchive, SLOT_WORDS, archive};
pub use said::*;

/// The folder of the archive that is linked, for programs that are built beside it.
pub const FOLDER: &str = env!("DOKPHALUN_FOLDER");

/// The greatest number of faces that is accepted.
pub const MOST_FACES: usize = 65_536;

/// The words of work that a face needs.
pub const WORK_WORDS: usize = 128;

/// The words of a record of an old card, from before request E7. A record of any other card has [`SLOT_WORDS`].
pub const OLD_SLOT_WORDS: usize = 10;

/// The bytes of a card's block.
pub const BLOCK_BYTES: usize = 512;

/// The records that a block of a card holds.
pub const BLOCK_RECORDS: usize = 10;

/// The records that a block of an old card holds.
pub const OLD_BLOCK_RECORDS: usize = 12;

/// What a face is given that is in no island.
pub const NO_ISLAND: u32 = u32::MAX;

/// The entries a face of the lists that [`frames_by_islands`] works in: labels, order, sizes, numbers and frames.
pub const ISLAND_ENTRIES: [usize; 5] = [1, 4, 1, 32, 4 * SLOT_WORDS];

/// The words a face of the lists that [`links`] writes: links, groups and orientations.
pub const LINK_ENTRIES: [usize; 3] = [6, 6, 2];

/// The verdicts of [`judge`]: what a slot is worth.
pub mod verdict {
    /// Word 0 is 0: there is no frame.
    pub const ABSENT: u8 = 0;
    /// A frame of two directions that can be packed; that they differ is not said.
    pub const GOOD: u8 = 1;
    /// Word 0 is neither 0 nor 1: what stood there is lost.
    pub const LOST: u8 = 2;
    /// Word 0 is 1, but the orientation is not one, or the tangent or the bi-tangent is not a direction.
    pub const BLANK: u8 = 3;
    /// Both are directions, but a component is beyond 3F800008: it is packed as absent.
    pub const LONG: u8 = 4;
    /// Both are directions, and none is beyond, but the tangent or the bi-tangent is packed as three zeros.
    pub const SHORT: u8 = 5;
}

/// The bytes of [`reasons`]: why a slot is absent.
pub mod reason {
    /// The slot is not absent.
    pub const NONE: u8 = 0;
    /// Its corner is one of a degenerate triangle whose face is no marked quad, and no sound corner is welded to it.
    pub const UNWELDED: u8 = 1;
    /// It copies a corner that is absent itself.
    pub const COPIES_ABSENT: u8 = 2;
    /// It belongs to sound triangles, all of them `group_with_any`, and no group reached it.
    pub const UNREACHED: u8 = 3;
}
