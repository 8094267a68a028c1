//! What the calls say, as they return it. The names and the order are those of include/dokphalun.h.

/// What [`crate::frames`], [`crate::frames_by_islands`] and [`crate::reasons`] say.
#[repr(C)]
#[derive(Clone, Copy, Debug, PartialEq, Eq)]
pub struct Outcome {
    /// The number of a refusal, or 0.
    pub number: u32,
    /// The place of refusals 4 and 7, else 0.
    pub place: u32,
    /// How many slots were written.
    pub slots: u32,
}

/// What [`crate::judge`] says.
#[repr(C)]
#[derive(Clone, Copy, Debug, PartialEq, Eq)]
pub struct Judged {
    /// The number of a refusal, or 0.
    pub number: u32,
    /// How many slots are good.
    pub good: u32,
    /// The lowest slot that is not, or the number of slots where all are.
    pub first: usize,
}

/// What [`crate::part`] says.
#[repr(C)]
#[derive(Clone, Copy, Debug, PartialEq, Eq)]
pub struct Span {
    /// The place of the first number in its list.
    pub from: usize,
    /// How many numbers there are.
    pub count: usize,
}

/// What [`crate::labels`] says.
#[repr(C)]
#[derive(Clone, Copy, Debug, PartialEq, Eq)]
pub struct Labelled {
    /// The number of a refusal, or 0.
    pub number: u32,
    /// The place of refusals 4 and 7, else 0.
    pub place: u32,
    /// How many islands there are.
    pub islands: u32,
}

/// What [`crate::examine`] says.
#[repr(C)]
#[derive(Clone, Copy, Debug, PartialEq, Eq)]
pub struct Examined {
    /// The number of a refusal, or 0.
    pub refusal: u32,
    /// The number of an objection, or 0.
    pub objection: u32,
    /// The place of either.
    pub place: u32,
}

/// What [`crate::links`] says.
#[repr(C)]
#[derive(Clone, Copy, Debug, PartialEq, Eq)]
pub struct Handed {
    /// The number of a refusal, or 0.
    pub number: u32,
    /// The place of refusals 4 and 7, else 0.
    pub place: u32,
    /// How many triangles are sound.
    pub sound: u32,
}

/// What [`crate::card_write`] and [`crate::old_card_write`] say.
#[repr(C)]
#[derive(Clone, Copy, Debug, PartialEq, Eq)]
pub struct Written {
    /// The number of a refusal, or 0.
    pub number: u32,
    /// How many bytes were written.
    pub bytes: usize,
}

/// What [`crate::card_read`] and [`crate::old_card_read`] say.
#[repr(C)]
#[derive(Clone, Copy, Debug, PartialEq, Eq)]
pub struct Found {
    /// The number of a refusal, or 0.
    pub number: u32,
    /// How many bytes stand past the last whole block that the total calls for.
    pub past: usize,
}

/// What [`crate::card_next`] and [`crate::old_card_next`] say.
#[repr(C)]
#[derive(Clone, Copy, Debug, PartialEq, Eq)]
pub struct Next {
    /// The number of a refusal, or 0.
    pub number: u32,
    /// How many records the next block takes.
    pub records: u32,
    /// The byte of the file at which it goes.
    pub at: usize,
}

/// What [`crate::card_append`] and [`crate::old_card_append`] say.
#[repr(C)]
#[derive(Clone, Copy, Debug, PartialEq, Eq)]
pub struct Appended {
    /// The number of a refusal, or 0.
    pub number: u32,
    /// How many blocks were made.
    pub blocks: u32,
    /// The byte of the file at which they go.
    pub at: usize,
}

/// What [`crate::pack`] says.
#[repr(C)]
#[derive(Clone, Copy, Debug, PartialEq, Eq)]
pub struct Packed {
    /// The number of a refusal, or 0.
    pub number: u32,
    /// How many numbers were written.
    pub count: usize,
}

/// What [`crate::unpack`] says.
#[repr(C)]
#[derive(Clone, Copy, Debug, PartialEq, Eq)]
pub struct Unpacked {
    /// The number of a refusal, or 0.
    pub number: u32,
    /// The slot of refusal 3, else 0.
    pub place: usize,
}
