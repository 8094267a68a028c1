//! Answers to a card and back. Cards are of two kinds; what is said of no kind is said of the new one.
use crate::reading::Record;
use crate::refusal::CardRefusal;
use dokphalun_sys::{self as archive, OLD_SLOT_WORDS, SLOT_WORDS, verdict};

pub use archive::BLOCK_BYTES;

/// The kind of a card: how many words its records have. To a reader of one kind each block of the other is lost.
#[derive(Clone, Copy, Debug, Default, PartialEq, Eq)]
pub enum Kind {
    /// Ten words a record, from before request E7: where a frame comes from is not recorded.
    Old,
    /// Twelve words a record, those of a slot.
    #[default]
    New,
}

impl Kind {
    /// The words of a record.
    pub const fn record_words(self) -> usize {
        match self {
            Kind::Old => OLD_SLOT_WORDS,
            Kind::New => SLOT_WORDS,
        }
    }

    /// The records that a block holds.
    pub const fn block_records(self) -> usize {
        match self {
            Kind::Old => archive::OLD_BLOCK_RECORDS,
            Kind::New => archive::BLOCK_RECORDS,
        }
    }

    /// The other kind.
    pub const fn other(self) -> Kind {
        match self {
            Kind::Old => Kind::New,
            Kind::New => Kind::Old,
        }
    }
}

/// Makes a list of bytes as long as the blocks of these records.
fn make_room(kind: Kind, records: &[u32], bytes: &mut Vec<u8>) {
    let count = records.len() / kind.record_words();
    bytes.clear();
    bytes.resize(count.div_ceil(kind.block_records()) * BLOCK_BYTES, 0);
}

/// Answer words to the bytes of a card. A refusal leaves the list of bytes empty.
pub fn write_card(words: &[u32], card: &mut Vec<u8>) -> Result<(), CardRefusal> {
    write_card_as(Kind::New, words, card)
}

/// Records of a kind to the bytes of a card of it. A refusal leaves the list of bytes empty.
pub fn write_card_as(kind: Kind, records: &[u32], card: &mut Vec<u8>) -> Result<(), CardRefusal> {
    make_room(kind, records, card);
    let said = match kind {
        Kind::Old => archive::old_card_write(records, card),
        Kind::New => archive::card_write(records, card),
    };
    CardRefusal::of(said.number).inspect_err(|_| card.clear())
}

/// What comes next on a card that is appended to.
#[derive(Clone, Copy, Debug, PartialEq, Eq)]
pub struct Next {
    /// How many records the next block takes; none where the card is whole.
    pub records: usize,
    /// The byte of the file at which the block goes: a torn block is written over.
    pub at: usize,
}

/// What comes next on a card of so many bytes, torn or whole.
pub fn next_block(long: usize, total: u32) -> Result<Next, CardRefusal> {
    next_block_as(Kind::New, long, total)
}

/// What comes next on a card of a kind, of so many bytes.
pub fn next_block_as(kind: Kind, long: usize, total: u32) -> Result<Next, CardRefusal> {
    let said = match kind {
        Kind::Old => archive::old_card_next(long, total),
        Kind::New => archive::card_next(long, total),
    };
    CardRefusal::of(said.number)?;
    Ok(Next {
        records: said.records as usize,
        at: said.at,
    })
}

/// The bytes of the next block or blocks of a card of so many bytes, and where they go. A refusal leaves the list of bytes empty.
pub fn append_blocks(
    long: usize,
    total: u32,
    words: &[u32],
    blocks: &mut Vec<u8>,
) -> Result<usize, CardRefusal> {
    append_blocks_as(Kind::New, long, total, words, blocks)
}

/// The bytes of the next block or blocks of a card of a kind, from its records, in the same way. That the blocks already there are of
/// that kind is the caller's to see to.
pub fn append_blocks_as(
    kind: Kind,
    long: usize,
    total: u32,
    records: &[u32],
    blocks: &mut Vec<u8>,
) -> Result<usize, CardRefusal> {
    make_room(kind, records, blocks);
    let said = match kind {
        Kind::Old => archive::old_card_append(long, total, records, blocks),
        Kind::New => archive::card_append(long, total, records, blocks),
    };
    CardRefusal::of(said.number).inspect_err(|_| blocks.clear())?;
    Ok(said.at)
}

/// What was read from a card.
#[derive(Clone, Copy, Debug)]
pub struct Card<'a> {
    words: &'a [u32],
    verdicts: &'a [u8],
    good: usize,
    /// The kind that it was read as.
    pub kind: Kind,
    /// How many bytes stand past the last whole block that the total calls for.
    pub torn: usize,
    /// How many records stand on it in blocks of the other kind, each at its place. They are not among the records here.
    pub of_other_kind: usize,
}

impl<'a> Card<'a> {
    /// Each record, in the order of the slots.
    pub fn records(&self) -> impl ExactSizeIterator<Item = Record> + Clone + use<'a> {
        let words = self.words.chunks_exact(self.kind.record_words());
        let judged = words.zip(self.verdicts);
        judged.map(|(words, &verdict)| Record::of(words, verdict))
    }

    /// How many records are found: all but the lost ones.
    pub fn found(&self) -> usize {
        let lost = |byte: &&u8| **byte == verdict::LOST;
        self.verdicts.len() - self.verdicts.iter().filter(lost).count()
    }

    /// How many records are good, as the archive counts them.
    pub fn good(&self) -> usize {
        self.good
    }

    /// Whether there is a record, the archive counts every one as good, no byte is torn, and no block is of the other kind. That a record
    /// of the new kind has an origin is not asked: [`crate::Frame::origin`] says it.
    pub fn all_good(&self) -> bool {
        let whole = self.torn == 0 && self.of_other_kind == 0;
        whole && self.good > 0 && self.good == self.verdicts.len()
    }

    /// The card of a list of words as the archive left it, and judged it.
    pub(crate) fn of(
        words: &'a [u32],
        verdicts: &'a [u8],
        good: usize,
        kind: Kind,
        torn: usize,
        of_other_kind: usize,
    ) -> Card<'a> {
        Card {
            words,
            verdicts,
            good,
            kind,
            torn,
            of_other_kind,
        }
    }
}

/// The reader of a kind: so many records into a list of words. The bytes past the last whole block that the total calls for.
pub(crate) fn read_as(
    kind: Kind,
    card: &[u8],
    total: u32,
    words: &mut Vec<u32>,
) -> Result<usize, CardRefusal> {
    let records = total as usize;
    let no_memory = CardRefusal::NoMemory { records };
    let count = records.checked_mul(kind.record_words()).ok_or(no_memory)?;
    words.clear();
    words.try_reserve_exact(count).map_err(|_| no_memory)?;
    words.resize(count, 0);
    let said = match kind {
        Kind::Old => archive::old_card_read(card, total, words),
        Kind::New => archive::card_read(card, total, words),
    };
    CardRefusal::of(said.number)?;
    Ok(said.past)
}
