//! Both packers and both readers on the same lists, every number, also outside what was lent.
use crate::lent::{Left, same};
use crate::plain::Said;
use crate::{ours, plain};

/// An answer list into a lent list of `room` numbers, by both.
pub fn pack(answer: &[u32], room: usize) -> Result<Left<i16, Said>, String> {
    let fill = |i: usize| (i as i16).wrapping_mul(257) ^ 0x2A55;
    let plain = |packed: &mut [i16]| plain::pack(answer, packed);
    let ours = |packed: &mut [i16]| ours::pack(answer, packed);
    same(fill, room, plain, ours).map_err(|what| format!("pack {answer:X?} to {room}: {what}"))
}

/// A packed list into a lent list of `room` words, by both.
pub fn unpack(packed: &[i16], room: usize) -> Result<Left<u32, Said>, String> {
    let fill = |i: usize| 0xA5A5_0000 + i as u32;
    let plain = |answer: &mut [u32]| plain::unpack(packed, answer);
    let ours = |answer: &mut [u32]| ours::unpack(packed, answer);
    same(fill, room, plain, ours).map_err(|what| format!("unpack {packed:?} to {room}: {what}"))
}
