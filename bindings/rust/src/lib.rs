//! Tangent frames for scanned steel: safe calls of the proved archive libdokphalun.a.
//!
//! A mesh goes in, and for each corner of a face of 3 or 4 comes out a [`Reading`]: a frame, or the plain word that there
//! is none, or none of use. An absent reading is not a good reading, so it is a case of its own and never a row of zeros. Which
//! case a corner is, is the proved archive's verdict.
//! docs/PROGRAMMERS.md has whole programs.
//!
//! The first call asks the archive what it is. Where it is of another edition than these bindings, every call panics and says so.
#![forbid(unsafe_code)]
#![deny(missing_docs)]
mod buffers;
mod card;
mod islands;
mod lists;
mod mesh;
mod objection;
mod packed;
mod reading;
mod reason;
mod refusal;
mod triangles;
mod verdicts;

pub use buffers::{Answer, Buffers};
pub use card::{
    BLOCK_BYTES, Card, Kind, Next, append_blocks, append_blocks_as, next_block, next_block_as,
    write_card, write_card_as,
};
pub use dokphalun_sys::{Edition, OtherArchive, archive};
pub use islands::Islands;
pub use lists::{Lists, OwnLinks};
pub use mesh::{MOST_FACES, MOST_SLOTS, Mesh, Place, corners, slots, takes_slots};
pub use objection::{List, Objection};
pub use packed::{PACKED_NUMBERS, Packed, pack, unpack};
pub use reading::{Flawed, Frame, Origin, Reading, Record};
pub use reason::{Explained, Reason};
pub use refusal::{CardRefusal, PackRefusal, Refusal};
pub use triangles::{Side, Triangle, triangles};

/// The programs of docs/PROGRAMMERS.md, compiled and run.
#[cfg(doctest)]
#[doc = include_str!("../../../docs/PROGRAMMERS.md")]
struct Programs;
