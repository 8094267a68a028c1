//! The calls of the proved archive for both kinds of cards, each counted as answered by it.
use crate::lent::answered;
use crate::plain::{Kind, OLD, Placed, Said};
use dokphalun_sys as archive;

/// The calls for a kind of cards.
macro_rules! call {
    ($kind:expr, $old:ident, $new:ident, $($word:expr),*) => {
        answered(match $kind == OLD {
            true => archive::$old($($word),*),
            false => archive::$new($($word),*),
        })
    };
}

/// Answer words to a card.
pub fn write(kind: Kind, answer: &[u32], card: &mut [u8]) -> Said {
    let said = call!(kind, old_card_write, card_write, answer, card);
    (said.number, said.bytes)
}

/// The records of a card.
pub fn read(kind: Kind, card: &[u8], total: u32, answer: &mut [u32]) -> Said {
    let said = call!(kind, old_card_read, card_read, card, total, answer);
    (said.number, said.past)
}

/// What comes next on a card of so many bytes.
pub fn next(kind: Kind, long: usize, total: u32) -> Placed {
    let said = call!(kind, old_card_next, card_next, long, total);
    (said.number, said.records, said.at)
}

/// The blocks of the next records for a card of so many bytes.
pub fn append(kind: Kind, long: usize, total: u32, records: &[u32], lent: &mut [u8]) -> Placed {
    let said = call!(
        kind,
        old_card_append,
        card_append,
        long,
        total,
        records,
        lent
    );
    (said.number, said.blocks, said.at)
}
