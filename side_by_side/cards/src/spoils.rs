//! The comparisons put to the test: each word that is spoiled has to be noticed.
use crate::compare;
use crate::plain::{BLOCK, Kind};
use crate::random::Random;
use crate::runs::records;
use models::lent::each_noticed;

/// Writing, also where it is refused, reading, next and appending, each with every word spoiled; how many words.
pub fn all_noticed(random: &mut Random, kind: Kind) -> Result<usize, String> {
    let total = 2 * kind.held + 5;
    let list = records(random, kind, total);
    let (_, card) = compare::write(kind, &list, 3 * BLOCK)?;
    let (rest, total) = (&list[2 * kind.held * kind.width..], total as u32);
    let counts = [
        each_noticed("write", || compare::write(kind, &list, 3 * BLOCK).map(drop)),
        each_noticed("refused", || compare::write(kind, &list, BLOCK).map(drop)),
        each_noticed("read", || {
            compare::read(kind, &card, total, list.len()).map(drop)
        }),
        each_noticed("next", || compare::next(kind, 1030, total)),
        each_noticed("append", || {
            compare::append(kind, 1030, total, rest, BLOCK).map(drop)
        }),
    ];
    counts.into_iter().sum()
}
