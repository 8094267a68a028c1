//! Frames packed to 16 bits for a viewer, and back.
use crate::refusal::PackRefusal;
use dokphalun_sys::{self as archive, SLOT_WORDS};

/// The numbers of a packed slot.
pub const PACKED_NUMBERS: usize = 7;
/// The words that the archive writes for a packed slot.
const READ_WORDS: usize = 8;

/// What seven packed numbers hold. Absent is no number here either, and only [`Packed::Present`] is a reading.
#[derive(Clone, Copy, Debug, PartialEq, Eq)]
#[must_use]
pub enum Packed {
    /// The corner has no frame.
    Absent,
    /// Tangent and bi-tangent, each component times 32,767; and whether the texture runs round the face as the corners do.
    Present {
        /// The six components.
        directions: [i16; 6],
        /// Whether the texture is not mirrored.
        preserving: bool,
    },
    /// Tangent or bi-tangent is three zeros, which look smooth and are no direction: what was packed is of no use, a slot that the archive's
    /// judge calls blank or short.
    NoDirection,
}

impl Packed {
    /// The eight words of a slot as the archive reads them.
    fn of(words: &[u32; READ_WORDS]) -> Packed {
        let [mark, numbers @ .., orientation] = *words;
        let [tangent, bitangent] = [&numbers[..3], &numbers[3..]];
        match mark {
            1 if tangent == [0; 3] || bitangent == [0; 3] => Packed::NoDirection,
            1 => Packed::Present {
                directions: numbers.map(|number| number as i16),
                preserving: orientation == 1,
            },
            _ => Packed::Absent,
        }
    }
}

/// Answer words to packed numbers, seven a slot. A refusal leaves the list empty. It does not judge: a blank or a short slot is packed with
/// zeros for a direction, which a viewer shows as smooth. So pack an answer after judging it: where [`crate::Answer::all_good`] holds, or with
/// each slot that is no [`crate::Reading::Present`] made absent, twelve zeros, first.
pub fn pack(words: &[u32], packed: &mut Vec<i16>) -> Result<(), PackRefusal> {
    packed.clear();
    packed.resize(words.len() / SLOT_WORDS * PACKED_NUMBERS, 0);
    let said = archive::pack(words, packed);
    PackRefusal::of(said.number, said.count).inspect_err(|_| packed.clear())
}

/// Packed numbers to what they hold, slot by slot.
pub fn unpack(packed: &[i16]) -> Result<Vec<Packed>, PackRefusal> {
    let mut words = vec![0; packed.len() / PACKED_NUMBERS * READ_WORDS];
    let said = archive::unpack(packed, &mut words);
    PackRefusal::of(said.number, said.place)?;
    Ok(words.as_chunks().0.iter().map(Packed::of).collect())
}
