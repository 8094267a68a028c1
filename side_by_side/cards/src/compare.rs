//! Both writers, readers and appenders on the same lists, every byte and word of them, also outside what was lent.
use crate::lent::{Left, same};
use crate::ours;
use crate::plain::{Kind, Placed, Said};

/// The bytes that a lent list holds before a call.
fn byte(i: usize) -> u8 {
    (i.wrapping_mul(37) >> 2) as u8 ^ 0x69
}

/// Answer words to a lent list of `room` bytes, by both.
pub fn write(kind: Kind, answer: &[u32], room: usize) -> Result<Left<u8, Said>, String> {
    let plain = |card: &mut [u8]| kind.write(answer, card);
    let ours = |card: &mut [u8]| ours::write(kind, answer, card);
    same(byte, room, plain, ours).map_err(|what| format!("{} write: {what}", kind.name))
}

/// A card into a lent list of `room` words, by both.
pub fn read(kind: Kind, card: &[u8], total: u32, room: usize) -> Result<Left<u32, Said>, String> {
    let fill = |i: usize| 0xA5A5_0000 + i as u32;
    let plain = |answer: &mut [u32]| kind.read(card, total, answer);
    let ours = |answer: &mut [u32]| ours::read(kind, card, total, answer);
    same(fill, room, plain, ours).map_err(|what| format!("{} read: {what}", kind.name))
}

/// What comes next on a card of so many bytes, by both.
pub fn next(kind: Kind, long: usize, total: u32) -> Result<(), String> {
    let plain = |_: &mut [u8]| kind.next(long, total);
    let ours = |_: &mut [u8]| ours::next(kind, long, total);
    let found = same(byte, 0, plain, ours);
    let of = |what| {
        format!(
            "{} next: of {long} bytes and {total} records: {what}",
            kind.name
        )
    };
    found.map(drop).map_err(of)
}

/// The next records for a card of so many bytes, into a lent list of `room` bytes, by both.
pub fn append(
    kind: Kind,
    long: usize,
    total: u32,
    records: &[u32],
    room: usize,
) -> Result<Left<u8, Placed>, String> {
    let plain = |blocks: &mut [u8]| kind.append(long, total, records, blocks);
    let ours = |blocks: &mut [u8]| ours::append(kind, long, total, records, blocks);
    same(byte, room, plain, ours).map_err(|what| format!("{} append: {what}", kind.name))
}
