//! A verdict on every slot, written plainly, from the words of the request, over floats; what request E5 packs of it is as the plain packer
//! has it.
use crate::packed::{self, SLOT};

/// What a slot is worth; the number of each is its place here.
#[derive(Clone, Copy, Debug, PartialEq)]
pub enum Worth {
    /// Word 0 is 0: there is no frame.
    Absent,
    /// A frame of two directions that can be packed; that they differ is not said.
    Good,
    /// Word 0 is neither 0 nor 1: what stood there is lost.
    Lost,
    /// Word 0 is 1, but the orientation is not one, or the tangent or the bi-tangent is not a direction.
    Blank,
    /// Both are directions, but a component is beyond 3F800008.
    Long,
    /// Both are directions, and none is beyond, but the tangent or the bi-tangent is packed as three zeros.
    Short,
}
use Worth::{Absent, Blank, Good, Long, Lost, Short};

/// Every verdict, each at its number.
pub const ALL: [Worth; 6] = [Absent, Good, Lost, Blank, Long, Short];

/// What a call returns: a number, how many slots are good, and the lowest that is not.
pub type Said = (u32, u32, usize);

/// Whether three components are a direction: finite, and one of them above 2^-126 in size.
fn is_direction(three: &[u32]) -> bool {
    let numbers = || three.iter().map(|bits| f32::from_bits(*bits));
    numbers().all(f32::is_finite) && numbers().any(|c| c.abs() > f32::MIN_POSITIVE)
}

/// Three components packed; nothing where one of them is beyond.
fn packed(three: &[u32]) -> Option<Vec<i16>> {
    three.iter().map(|bits| packed::component(*bits)).collect()
}

/// What a slot is worth.
pub fn verdict(slot: &[u32]) -> Worth {
    match slot[0] {
        0 => return Absent,
        1 => {}
        _ => return Lost,
    }
    let directions = [&slot[1..4], &slot[4..7]];
    if slot[9] > 1 || !directions.into_iter().all(is_direction) {
        return Blank;
    }
    match directions.map(packed) {
        [Some(tangent), Some(bi_tangent)] => {
            let shows = |three: &Vec<i16>| three.iter().any(|number| *number != 0);
            match shows(&tangent) && shows(&bi_tangent) {
                true => Good,
                false => Short,
            }
        }
        _ => Long,
    }
}

/// A verdict on every slot of an answer list. There is no list here of more slots than 32 bits count.
pub fn judge(verdict: impl Fn(&[u32]) -> Worth, answer: &[u32], verdicts: &mut [u8]) -> Said {
    let slots = answer.chunks_exact(SLOT);
    if !slots.remainder().is_empty() {
        return (1, 0, 0);
    }
    let Some(verdicts) = verdicts.get_mut(..slots.len()) else {
        return (2, 0, 0);
    };
    let told: Vec<Worth> = slots.map(verdict).collect();
    for (byte, told) in verdicts.iter_mut().zip(&told) {
        *byte = *told as u8;
    }
    let good = told.iter().filter(|told| **told == Good).count();
    let first = told.iter().position(|told| *told != Good);
    (0, good as u32, first.unwrap_or(told.len()))
}

/// The request's two slots that say nothing, and a slot at each edge.
#[test]
fn samples() {
    let of = |way, [x, y, z]: [u32; 3], [bx, by, bz]: [u32; 3]| {
        verdict(&[1, x, y, z, bx, by, bz, 0, 0, way, 1, 1])
    };
    let slot = |tangent, bi_tangent| of(1, tangent, bi_tangent);
    let (one, least) = (0x3F80_0000, 0x0080_0000);
    assert_eq!(slot([0; 3], [0; 3]), Blank);
    assert_eq!(slot([one, 0, 0], [0; 3]), Blank);
    assert_eq!(slot([one, 0, 0], [1 << 31 | least; 3]), Blank);
    assert_eq!(slot([one, 0, 0], [0, least + 1, 0]), Short);
    assert_eq!(slot([one, 0, 0], [0, 0x3780_0100, 0]), Short);
    assert_eq!(slot([one, 0, 0], [0, 0xB780_0101, 0]), Good);
    assert_eq!(slot([one + 8, 0, 0], [0, one, 0]), Good);
    assert_eq!(slot([one + 9, 0, 0], [0, least + 1, 0]), Long);
    assert_eq!(slot([one, 0, 0x7F80_0000], [0, one, 0]), Blank);
    assert_eq!(of(0, [one, 0, 0], [0, one, 0]), Good);
    assert_eq!(of(2, [one, 0, 0], [0, one, 0]), Blank);
    assert_eq!(verdict(&[0; SLOT]), Absent);
    assert_eq!(verdict(&[2; SLOT]), Lost);
    assert_eq!(ALL.map(|worth| worth as u8), [0, 1, 2, 3, 4, 5]);
}
