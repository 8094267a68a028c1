//! What comes back for a corner: a frame, or the plain word that there is none, or none of use. The archive's judge says which.
use dokphalun_sys::{OLD_SLOT_WORDS, verdict};

/// Where a frame comes from.
#[derive(Clone, Copy, Debug, PartialEq, Eq)]
pub enum Origin {
    /// One subgroup brought it.
    Single,
    /// The two triangles of a quad brought one each, and they were combined.
    Combined,
    /// It was copied to a corner of a degenerate triangle, from a sound corner with the same numbers.
    Copied,
    /// It was copied within a quad of which one triangle is degenerate, to the corner that the other one lacks.
    Filled,
    /// The record does not say: it is of an old card, or stands on a card with another word than those of the four. No frame that was made
    /// and not read from a card is of it.
    NotRecorded,
}

impl Origin {
    /// The origin that word 10 of a slot tells, if there is such a word.
    fn of(word: Option<u32>) -> Origin {
        match word {
            Some(1) => Origin::Single,
            Some(2) => Origin::Combined,
            Some(3) => Origin::Copied,
            Some(4) => Origin::Filled,
            _ => Origin::NotRecorded,
        }
    }

    /// The origin that the words after a slot's first ten tell, and how many triangles stand behind it: no number where there is no origin.
    fn and_behind(more: &[u32]) -> (Origin, Option<u32>) {
        let origin = Origin::of(more.first().copied());
        let told = origin != Origin::NotRecorded;
        (origin, more.get(1).copied().filter(|_| told))
    }

    /// Its word for a reader.
    pub fn word(self) -> &'static str {
        match self {
            Origin::Single => "single",
            Origin::Combined => "combined",
            Origin::Copied => "copied",
            Origin::Filled => "filled",
            Origin::NotRecorded => "not recorded",
        }
    }
}

/// The tangent frame of a corner. Who gets one from a [`Reading`] or a [`Record`] has one that the archive's judge calls good.
#[derive(Clone, Copy, Debug, PartialEq)]
pub struct Frame {
    /// The direction in which the first texture coordinate grows.
    pub tangent: [f32; 3],
    /// The direction in which the second texture coordinate grows.
    pub bitangent: [f32; 3],
    /// How far the corner moves for a unit of the first texture coordinate.
    pub mag_s: f32,
    /// How far the corner moves for a unit of the second texture coordinate.
    pub mag_t: f32,
    /// Whether the texture runs round the face as the corners do; it is mirrored where not.
    pub preserving: bool,
    /// Where it comes from.
    pub origin: Origin,
    /// How many triangles that are not `group_with_any` stood in the subgroups behind it: of both where two were combined, and of the one
    /// that was copied. None where the origin is not recorded: then no number is known to be one of these.
    pub behind: Option<u32>,
}

impl Frame {
    /// The frame of a slot's first ten words, and of those after them: a record of an old card has none.
    fn of(words: &[u32; OLD_SLOT_WORDS], more: &[u32]) -> Frame {
        let [_, numbers @ .., orientation] = *words;
        let [a, b, c, d, e, f, mag_s, mag_t] = numbers.map(f32::from_bits);
        let (origin, behind) = Origin::and_behind(more);
        Frame {
            tangent: [a, b, c],
            bitangent: [d, e, f],
            mag_s,
            mag_t,
            preserving: orientation == 1,
            origin,
            behind,
        }
    }
}

/// A frame that is there and of no use. It is no [`Frame`], and its numbers are handed out as bits alone: to be shown to somebody who looks
/// for the fault, and not to be computed with.
#[derive(Clone, Copy, Debug, PartialEq, Eq)]
pub struct Flawed {
    bits: [u32; 9],
    origin: Origin,
    behind: Option<u32>,
}

impl Flawed {
    /// That of a slot's first ten words, and of those after them.
    fn of(words: &[u32; OLD_SLOT_WORDS], more: &[u32]) -> Flawed {
        let [_, bits @ ..] = *words;
        let (origin, behind) = Origin::and_behind(more);
        Flawed {
            bits,
            origin,
            behind,
        }
    }

    /// Words 1 to 9 of the slot: the bits of tangent, bi-tangent and the two magnitudes, and the word for the orientation.
    pub fn bits(&self) -> [u32; 9] {
        self.bits
    }

    /// Where it comes from.
    pub fn origin(&self) -> Origin {
        self.origin
    }

    /// As [`Frame::behind`].
    pub fn behind(&self) -> Option<u32> {
        self.behind
    }
}

/// What is known of a corner, by the archive's verdict on its slot. Only one of these is a reading; absent is no number: it is not zero, not
/// smooth and not clean.
#[derive(Clone, Copy, Debug, PartialEq)]
#[must_use]
pub enum Reading {
    /// The corner has no frame.
    Absent,
    /// The corner's frame: both directions are finite, not zero, and can be packed.
    Present(Frame),
    /// A frame without two directions: one is zero, or no finite number; or without an orientation.
    Blank(Flawed),
    /// A frame in which a number of a direction is beyond 1 by more than its last digits: packed it is absent.
    Long(Flawed),
    /// A frame with a direction so short that it is packed as three zeros.
    Short(Flawed),
}

impl Reading {
    /// The reading of a slot's words and the verdict on them. No slot of an answer is lost; if one were, there would be no frame either.
    pub(crate) fn of(words: &[u32], verdict: u8) -> Reading {
        match Record::of(words, verdict) {
            Record::Absent | Record::Lost => Reading::Absent,
            Record::Present(frame) => Reading::Present(frame),
            Record::Blank(flawed) => Reading::Blank(flawed),
            Record::Long(flawed) => Reading::Long(flawed),
            Record::Short(flawed) => Reading::Short(flawed),
        }
    }
}

/// What a card has of a corner, by the archive's verdict on its record. Lost is not absent, and neither is a number.
#[derive(Clone, Copy, Debug, PartialEq)]
#[must_use]
pub enum Record {
    /// The card's block is not there, or not as it was written: nothing is known.
    Lost,
    /// It was written that the corner has no frame.
    Absent,
    /// The corner's frame, as [`Reading::Present`].
    Present(Frame),
    /// As [`Reading::Blank`].
    Blank(Flawed),
    /// As [`Reading::Long`].
    Long(Flawed),
    /// As [`Reading::Short`].
    Short(Flawed),
}

impl Record {
    /// The record of its words as they were read, ten or twelve, and the verdict on them. Of a verdict that is not known nothing is known.
    pub(crate) fn of(words: &[u32], verdict: u8) -> Record {
        let Some((first, more)) = words.split_first_chunk() else {
            return Record::Lost;
        };
        match verdict {
            verdict::ABSENT => Record::Absent,
            verdict::GOOD => Record::Present(Frame::of(first, more)),
            verdict::BLANK => Record::Blank(Flawed::of(first, more)),
            verdict::LONG => Record::Long(Flawed::of(first, more)),
            verdict::SHORT => Record::Short(Flawed::of(first, more)),
            _ => Record::Lost,
        }
    }
}

impl From<Reading> for Record {
    fn from(reading: Reading) -> Record {
        match reading {
            Reading::Absent => Record::Absent,
            Reading::Present(frame) => Record::Present(frame),
            Reading::Blank(flawed) => Record::Blank(flawed),
            Reading::Long(flawed) => Record::Long(flawed),
            Reading::Short(flawed) => Record::Short(flawed),
        }
    }
}
