//! The comparisons put to the test: each word that is spoiled has to be noticed.
use crate::plain::{READ, SEVEN, SLOT};
use crate::{compare, patterns};
use models::lent::each_noticed;

/// Packing, also where it is refused, reading, and one pattern, each with every word spoiled; how many words.
pub fn all_noticed() -> Result<usize, String> {
    let slot = [1, 0x3F00_0000, 0, 0, 0, 0xBF80_0000, 0, 7, 8, 1, 2, 4];
    let answer = [slot, [0; SLOT], slot].concat();
    let (_, packed) = compare::pack(&answer, 3 * SEVEN)?;
    let counts = [
        each_noticed("pack", || compare::pack(&answer, 3 * SEVEN).map(drop)),
        each_noticed("refused", || compare::pack(&answer, SEVEN).map(drop)),
        each_noticed("unpack", || compare::unpack(&packed, 3 * READ).map(drop)),
        patterns::each_noticed(),
    ];
    counts.into_iter().sum()
}
