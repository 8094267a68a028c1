//! The process that writes a card, and is killed: it appends block by block, byte by byte.
use crate::lent::asked;
use crate::plain::{BLOCK, Kind};
use crate::random::Random;
use crate::{ours, runs};
use std::fs::{File, OpenOptions};
use std::io;
use std::os::unix::fs::FileExt;
use std::path::Path;

/// The records of a walk.
pub fn records(kind: Kind, seed: u64, count: usize) -> Vec<u32> {
    runs::records(&mut Random::of(seed, "walk", count as u64), kind, count)
}

/// Puts a block in its place, byte by byte.
fn put(card: &File, at: usize, block: &[u8; BLOCK]) -> io::Result<()> {
    for (i, byte) in block.iter().enumerate() {
        card.write_all_at(&[*byte], (at + i) as u64)?;
    }
    Ok(())
}

/// Appends to the file until the card is whole.
pub fn write(kind: Kind, file: &Path, seed: u64, count: usize) -> io::Result<()> {
    let list = records(kind, seed, count);
    let card = OpenOptions::new().write(true).open(file)?;
    // one time more than there are blocks
    for _ in 0..=count.div_ceil(kind.held) {
        let long = card.metadata()?.len() as usize;
        let next = asked(1, || ours::next(kind, long, count as u32));
        let (number, wanted, at) = next.map_err(io::Error::other)?;
        if number != 0 {
            return Err(io::Error::other(format!("next says {number}")));
        }
        if wanted == 0 {
            return Ok(());
        }
        let from = at / BLOCK * kind.held * kind.width;
        let part = &list[from..from + wanted as usize * kind.width];
        let mut block = [0; BLOCK];
        let added = asked(1, || {
            ours::append(kind, long, count as u32, part, &mut block)
        });
        let added = added.map_err(io::Error::other)?;
        if added != (0, 1, at) {
            return Err(io::Error::other(format!("append says {added:?}")));
        }
        put(&card, at, &block)?;
    }
    Err(io::Error::other("next always wants more"))
}
