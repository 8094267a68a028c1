//! The cards of requests E1, E7 and E14, plainly; the numbers 3 and 4 and their order are those of docs/DECISIONS.md.

/// The bytes of a block.
pub const BLOCK: usize = 512;
/// The words of a block.
const WORDS: usize = BLOCK / 4;
/// The words before the records.
pub const AHEAD: usize = 7;

/// A kind of card.
#[derive(Clone, Copy, Debug, PartialEq)]
pub struct Kind {
    pub name: &'static str,
    /// The words of a record.
    pub width: usize,
    /// The records that a block holds.
    pub held: usize,
    /// Word 3 of a block.
    pub mark: u32,
}

/// Request E1's kind.
pub const OLD: Kind = Kind {
    name: "old",
    width: 10,
    held: 12,
    mark: 0,
};
/// Request E7's kind.
pub const NEW: Kind = Kind {
    name: "new",
    width: 12,
    held: 10,
    mark: 2,
};
/// Both.
pub const KINDS: [Kind; 2] = [OLD, NEW];

/// What a call returns: the number of a refusal and 0, or 0 and a number of bytes.
pub type Said = (u32, usize);
/// What appending says: a number, how many records or blocks, and a place.
pub type Placed = (u32, u32, usize);

/// The complement of the sum of all words but the last.
pub fn check_word(words: &[u32; WORDS]) -> u32 {
    !words[..WORDS - 1]
        .iter()
        .fold(0u32, |sum, word| sum.wrapping_add(*word))
}

/// The words of a block of bytes.
pub fn words_of(block: &[u8]) -> [u32; WORDS] {
    let mut words = [0; WORDS];
    for (word, bytes) in words.iter_mut().zip(block.chunks_exact(4)) {
        *word = u32::from_le_bytes(bytes.try_into().unwrap());
    }
    words
}

/// Words into a block of bytes.
pub fn put_words(block: &mut [u8], words: &[u32; WORDS]) {
    for (bytes, word) in block.chunks_exact_mut(4).zip(words) {
        bytes.copy_from_slice(&word.to_le_bytes());
    }
}

impl Kind {
    /// The other one.
    pub fn other(self) -> Kind {
        if self == OLD { NEW } else { OLD }
    }

    /// The bytes of a card of so many records.
    pub fn bytes(self, records: usize) -> usize {
        records.div_ceil(self.held) * BLOCK
    }

    /// Whether a list can be written: whole records, fewer than 2^32, each with 0 or 1 in its word 0.
    fn writable(self, answer: &[u32]) -> bool {
        let records = answer.chunks_exact(self.width);
        records.remainder().is_empty()
            && records.len() <= u32::MAX as usize
            && records.into_iter().all(|record| record[0] <= 1)
    }

    /// Answer words to a card.
    pub fn write(self, answer: &[u32], card: &mut [u8]) -> Said {
        if !self.writable(answer) {
            return (1, 0);
        }
        let total = answer.len() / self.width;
        let bytes = self.bytes(total);
        let Some(card) = card.get_mut(..bytes) else {
            return (2, 0);
        };
        self.put_blocks(card, 0, total as u32, answer);
        (0, bytes)
    }

    /// The blocks from number `first` on that hold these records.
    fn put_blocks(self, card: &mut [u8], first: usize, total: u32, records: &[u32]) {
        let parts = records.chunks(self.held * self.width);
        for (i, (part, block)) in parts.zip(card.chunks_exact_mut(BLOCK)).enumerate() {
            let mut words = [0; WORDS];
            words[0] = (first + i) as u32;
            words[1] = (part.len() / self.width) as u32;
            words[2] = total;
            words[3] = self.mark;
            words[AHEAD..AHEAD + part.len()].copy_from_slice(part);
            words[WORDS - 1] = check_word(&words);
            put_words(block, &words);
        }
    }

    /// How many records block `b` takes.
    fn wanted(self, total: u32, b: usize) -> usize {
        let before = b * self.held;
        (total as usize).saturating_sub(before).min(self.held)
    }

    /// What comes next on a card of so many bytes: a number, how many records, and where the block goes.
    pub fn next(self, long: usize, total: u32) -> Placed {
        let block = long / BLOCK;
        match long > self.bytes(total as usize) {
            true => (3, 0, 0),
            false => (0, self.wanted(total, block) as u32, block * BLOCK),
        }
    }

    /// The blocks of the next records for a card of so many bytes: a number, how many blocks, and where they go.
    pub fn append(self, long: usize, total: u32, records: &[u32], lent: &mut [u8]) -> Placed {
        if !self.writable(records) {
            return (1, 0, 0);
        }
        let count = records.len() / self.width;
        let made = count.div_ceil(self.held);
        if lent.len() < made * BLOCK {
            return (2, 0, 0);
        }
        if self.next(long, total).0 == 3 {
            return (3, 0, 0);
        }
        let first = long / BLOCK;
        let blocks = first..first + made;
        let whole: usize = blocks.map(|b| self.wanted(total, b)).sum();
        if count == 0 || whole != count {
            return (4, 0, 0);
        }
        self.put_blocks(lent, first, total, records);
        (0, made as u32, first * BLOCK)
    }

    /// Whether the words of a block are what its place calls for: so many records of the total.
    fn sound(self, words: &[u32; WORDS], number: usize, used: usize, total: u32) -> bool {
        let (records, rest) = words[AHEAD..WORDS - 1].split_at(used * self.width);
        words[0] as usize == number
            && words[1] as usize == used
            && words[2] == total
            && words[3] == self.mark
            && words[4..AHEAD].iter().all(|word| *word == 0)
            && records
                .chunks_exact(self.width)
                .all(|record| record[0] <= 1)
            && rest.iter().all(|word| *word == 0)
            && words[WORDS - 1] == check_word(words)
    }

    /// The records of a card.
    pub fn read(self, card: &[u8], total: u32, answer: &mut [u32]) -> Said {
        let Some(answer) = answer.get_mut(..total as usize * self.width) else {
            return (2, 0);
        };
        let mut past = card.len();
        let mut blocks = card.chunks_exact(BLOCK);
        for (number, part) in answer.chunks_mut(self.held * self.width).enumerate() {
            let words = blocks.next().map(words_of);
            past -= if words.is_some() { BLOCK } else { 0 };
            match words.filter(|words| self.sound(words, number, part.len() / self.width, total)) {
                Some(words) => part.copy_from_slice(&words[AHEAD..AHEAD + part.len()]),
                None => self.lose(part),
            }
        }
        (0, past)
    }

    /// Lost records: word 0 is 2, the rest zero.
    fn lose(self, records: &mut [u32]) {
        for (i, word) in records.iter_mut().enumerate() {
            *word = if i % self.width == 0 { 2 } else { 0 };
        }
    }
}
