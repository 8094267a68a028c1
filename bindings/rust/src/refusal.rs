//! Why a call was not done.
use crate::mesh::{MOST_FACES, Place, corners};
use std::error::Error;
use std::fmt;

/// What to do about a refusal, by its number.
const REMEDIES: [(u32, &str); 8] = [
    (
        1,
        "cut the mesh along the seams of its texture into parts that share no corner, and hand them in one by one",
    ),
    (
        2,
        "hand in one position, one normal and one pair of texture coordinates for each corner of each face",
    ),
    (3, "take a cosine from -1 (180 degrees: no limit) to 1"),
    (
        4,
        "scan that place again, or leave the face out and treat it as absent; never put a zero there",
    ),
    (
        7,
        "the scanner gave no normal here: scan that place again, or leave the face out and treat it as absent; never put \
         another normal there",
    ),
    (5, "lend twelve words for each corner of a face of 3 or 4"),
    (6, "lend 128 words for each face"),
    (
        9,
        "lend the lists that the call takes besides at the lengths of docs/PROGRAMMERS.md",
    ),
];

/// Why a mesh was refused. Nothing was altered, and no corner of it has a reading.
#[derive(Clone, Copy, Debug, PartialEq, Eq)]
#[non_exhaustive]
pub enum Refusal {
    /// 1: more faces than are accepted.
    TooManyFaces {
        /// How many there are.
        faces: usize,
    },
    /// 2: positions, normals and texture coordinates are not one for each corner.
    UnequalLists,
    /// 3: the threshold is NaN or infinite.
    Threshold,
    /// 4: a corner of a face of 3 or 4 holds a NaN or infinity.
    NotFinite(Place),
    /// 7, checked after 4: a corner of a face of 3 or 4 has no normal, since none of its three numbers is above 2^-126 in size.
    NoNormal(Place),
    /// 5: the answer list is too short.
    AnswerTooShort,
    /// 6: the work list is too short.
    WorkTooShort,
    /// 9: a list that the call takes besides is too short.
    OwnTooShort,
    /// A number that this crate does not know: the archive is newer.
    Unknown {
        /// Its number.
        number: u32,
        /// Its place.
        place: u32,
    },
}

impl Refusal {
    /// The refusal of a mesh with faces of these sizes, if it was one: its number and its place.
    pub(crate) fn of(number: u32, place: u32, sizes: &[u8]) -> Option<Refusal> {
        let unknown = Refusal::Unknown { number, place };
        let at = |refusal: fn(Place) -> Refusal| {
            let corner = corners(sizes).nth(place as usize);
            corner.map_or(unknown, refusal)
        };
        Some(match number {
            0 => return None,
            1 => Refusal::TooManyFaces { faces: sizes.len() },
            2 => Refusal::UnequalLists,
            3 => Refusal::Threshold,
            4 => at(Refusal::NotFinite),
            7 => at(Refusal::NoNormal),
            5 => Refusal::AnswerTooShort,
            6 => Refusal::WorkTooShort,
            9 => Refusal::OwnTooShort,
            _ => unknown,
        })
    }

    /// The number that document 01 gives it, and what it says.
    fn said(&self) -> (u32, String) {
        match self {
            Refusal::TooManyFaces { faces } => {
                let says = format!("{faces} faces; at most {MOST_FACES} are accepted");
                (1, says)
            }
            Refusal::UnequalLists => {
                let lists = "positions, normals and texture coordinates";
                (2, format!("{lists} are not one for each corner"))
            }
            Refusal::Threshold => (3, "the threshold is not a finite number".into()),
            Refusal::NotFinite(place) => (4, format!("{place} holds a NaN or an infinity")),
            Refusal::NoNormal(place) => (
                7,
                format!("{place} has no normal: its three numbers count as zero"),
            ),
            Refusal::AnswerTooShort => (5, "the answer list is too short".into()),
            Refusal::WorkTooShort => (6, "the work list is too short".into()),
            Refusal::OwnTooShort => (9, "a list that the call takes besides is too short".into()),
            Refusal::Unknown { number, place } => {
                (*number, format!("not known here (place {place})"))
            }
        }
    }

    /// The number that document 01 gives it.
    pub fn number(&self) -> u32 {
        self.said().0
    }

    /// The corner that it is about, if it is about one.
    pub fn place(&self) -> Option<Place> {
        match self {
            Refusal::NotFinite(place) | Refusal::NoNormal(place) => Some(*place),
            _ => None,
        }
    }

    /// What to do about it.
    pub fn remedy(&self) -> &'static str {
        let known = !matches!(self, Refusal::Unknown { .. });
        let mut rows = REMEDIES.iter().filter(|_| known);
        let found = rows.find(|(number, _)| *number == self.number());
        found.map_or("use the bindings that came with this archive", |row| row.1)
    }
}

impl fmt::Display for Refusal {
    fn fmt(&self, f: &mut fmt::Formatter) -> fmt::Result {
        let (number, says) = self.said();
        write!(f, "refusal {number}: {says}")
    }
}

impl Error for Refusal {}

/// Why a card was not written, read or appended to.
#[derive(Clone, Copy, Debug, PartialEq, Eq)]
#[non_exhaustive]
pub enum CardRefusal {
    /// 1: the words are not whole records of the card's kind, fewer than 2^32, each with 0 or 1 in word 0.
    NotRecords,
    /// 2: the lent list is too short.
    TooShort,
    /// 3: the card holds more than the total calls for.
    BeyondTotal,
    /// 4: the records are not those of the next blocks by count.
    NotTheNext,
    /// There is no memory for so many records.
    NoMemory {
        /// How many records.
        records: usize,
    },
    /// A number that this crate does not know: the archive is newer.
    Unknown {
        /// Its number.
        number: u32,
    },
}

impl CardRefusal {
    /// What a number of the archive says.
    pub(crate) fn of(number: u32) -> Result<(), CardRefusal> {
        match number {
            0 => Ok(()),
            1 => Err(CardRefusal::NotRecords),
            2 => Err(CardRefusal::TooShort),
            3 => Err(CardRefusal::BeyondTotal),
            4 => Err(CardRefusal::NotTheNext),
            _ => Err(CardRefusal::Unknown { number }),
        }
    }
}

impl fmt::Display for CardRefusal {
    fn fmt(&self, f: &mut fmt::Formatter) -> fmt::Result {
        let (number, says) = match self {
            CardRefusal::NotRecords => (
                1,
                "the words are not whole records of the card's kind, each with 0 or 1 in word 0",
            ),
            CardRefusal::TooShort => (2, "the lent list is too short"),
            CardRefusal::BeyondTotal => (3, "the card holds more than the total calls for"),
            CardRefusal::NotTheNext => (4, "the records are not those of the next blocks by count"),
            CardRefusal::NoMemory { records } => {
                return write!(f, "no memory for {records} records");
            }
            CardRefusal::Unknown { number } => (*number, "not known here"),
        };
        write!(f, "card refusal {number}: {says}")
    }
}

impl Error for CardRefusal {}

/// Why frames were not packed or read back.
#[derive(Clone, Copy, Debug, PartialEq, Eq)]
#[non_exhaustive]
pub enum PackRefusal {
    /// 1: the list is not in whole slots.
    NotSlots,
    /// 2: the lent list is too short.
    TooShort,
    /// 3: seven numbers that the packer cannot have written, of this slot.
    NotPacked {
        /// The slot.
        slot: usize,
    },
    /// A number that this crate does not know: the archive is newer.
    Unknown {
        /// Its number.
        number: u32,
    },
}

impl PackRefusal {
    /// What a number of the archive, and a place, say.
    pub(crate) fn of(number: u32, place: usize) -> Result<(), PackRefusal> {
        match number {
            0 => Ok(()),
            1 => Err(PackRefusal::NotSlots),
            2 => Err(PackRefusal::TooShort),
            3 => Err(PackRefusal::NotPacked { slot: place }),
            _ => Err(PackRefusal::Unknown { number }),
        }
    }
}

impl fmt::Display for PackRefusal {
    fn fmt(&self, f: &mut fmt::Formatter) -> fmt::Result {
        let (number, says) = match self {
            PackRefusal::NotSlots => (1, "the list is not in whole slots".into()),
            PackRefusal::TooShort => (2, "the lent list is too short".into()),
            PackRefusal::NotPacked { slot } => {
                (3, format!("slot {slot} is not what the packer writes"))
            }
            PackRefusal::Unknown { number } => (*number, "not known here".into()),
        };
        write!(f, "pack refusal {number}: {says}")
    }
}

impl Error for PackRefusal {}
