//! What is run: random cards, and every misfortune of a card of three blocks.
use crate::compare;
use crate::damage::{block, call_itself, damage, double, swap};
use crate::lent::room;
use crate::plain::{BLOCK, KINDS, Kind, put_words, words_of};
use crate::random::Random;

/// How much longer than needed a lent list is at the most.
pub const MORE: usize = 700;

/// So many random records; the words 0 are 0 or 1.
pub fn records(random: &mut Random, kind: Kind, count: usize) -> Vec<u32> {
    (0..count * kind.width)
        .map(|i| match i % kind.width {
            0 => random.below(2) as u32,
            _ => random.word(),
        })
        .collect()
}

/// A list to write: whole records most of the time.
pub fn answer(random: &mut Random, kind: Kind) -> Vec<u32> {
    let (few, many, full) = (random.below(60), random.below(200), kind.held);
    let count = random.pick(&[0, 1, full - 1, full, full + 1, 2 * full, few, few, many]);
    let mut list = records(random, kind, count);
    if random.chance(1, 16) {
        list.truncate(random.below(list.len() + 1));
    }
    if random.chance(1, 16) && !list.is_empty() {
        let at = kind.width * random.below(list.len().div_ceil(kind.width));
        list[at] = random.pick(&[2, 3, 256, 65_536, 1 << 24, 1 << 31, u32::MAX]);
    }
    list
}

/// One random card of either kind: written, damaged, read.
pub fn random_card(random: &mut Random) -> Result<(), String> {
    let kind = random.pick(&KINDS);
    let list = answer(random, kind);
    let lent = room(random, kind.bytes(list.len() / kind.width), MORE);
    let ((number, bytes), mut card) = compare::write(kind, &list, lent)?;
    if number == 0 {
        card.truncate(bytes);
    }
    let total = (list.len() / kind.width) as u32;
    if number == 0 {
        let (said, back) = compare::read(kind, &card, total, list.len())?;
        if said != (0, 0) || back != list {
            return Err("what was written does not read back".into());
        }
    }
    for _ in 0..random.below(4) {
        damage(random, kind, &mut card);
    }
    let any = random.below(300) as u32;
    let total = random.pick(&[total, total, total, total + 1, total.saturating_sub(1), any]);
    let reader = random.pick(&[kind, kind, kind, kind.other()]);
    let lent = room(random, total as usize * reader.width, MORE);
    compare::read(reader, &card, total, lent).map(|_| ())
}

/// A card and its records, of three blocks, the last one part full.
struct Three {
    kind: Kind,
    list: Vec<u32>,
    card: Vec<u8>,
}

impl Three {
    fn new(random: &mut Random, kind: Kind, count: usize) -> Result<Three, String> {
        let list = records(random, kind, count);
        let (_, card) = compare::write(kind, &list, 3 * BLOCK)?;
        Ok(Three { kind, list, card })
    }

    /// Reads a card and compares it with the records, of which some blocks are lost.
    fn read(&self, card: &[u8], lost: impl Fn(usize) -> bool, past: usize) -> Result<(), String> {
        let Kind { width, held, .. } = self.kind;
        let total = (self.list.len() / width) as u32;
        let (said, back) = compare::read(self.kind, card, total, self.list.len())?;
        let meant: Vec<u32> = (0..self.list.len())
            .map(|i| match (lost(i / width / held), i % width) {
                (false, _) => self.list[i],
                (true, 0) => 2,
                (true, _) => 0,
            })
            .collect();
        if said != (0, past) || back != meant {
            return Err(format!(
                "read {said:?}, meant {past} bytes past, or other records"
            ));
        }
        Ok(())
    }
}

/// Other words than this one: each bit turned, 32 random ones, 0, 1 and the complement.
fn others(random: &mut Random, word: u32) -> Vec<u32> {
    let bits = (0..32).map(|bit| word ^ 1 << bit);
    let any = (0..32).map(|_| random.word());
    bits.chain(any)
        .chain([0, 1, !word])
        .filter(|other| *other != word)
        .collect()
}

/// Word `at` of the card changed to others, one after the other; how many.
fn single_word(random: &mut Random, three: &Three, at: usize) -> Result<u64, String> {
    let (b, i) = (at * 4 / BLOCK, at % (BLOCK / 4));
    let block = b * BLOCK..(b + 1) * BLOCK;
    let mut words = words_of(&three.card[block.clone()]);
    let mut card = three.card.clone();
    let others = others(random, words[i]);
    for other in &others {
        words[i] = *other;
        put_words(&mut card[block.clone()], &words);
        three.read(&card, |k| k == b, 0)?;
    }
    Ok(others.len() as u64)
}

/// Each word of a card of three blocks changed: each bit turned, and some other words.
pub fn single_words(random: &mut Random, kind: Kind) -> Result<u64, String> {
    let three = Three::new(random, kind, 2 * kind.held + 5)?;
    (0..3 * BLOCK / 4)
        .map(|at| single_word(random, &three, at))
        .sum()
}

/// Every two blocks exchanged, also a block with itself; how many cards.
fn exchanged(three: &Three) -> Result<u64, String> {
    for (a, b) in (0..9).map(|pair| (pair / 3, pair % 3)) {
        let mut card = three.card.clone();
        swap(&mut card, a, b);
        three.read(&card, |k| a != b && (k == a || k == b), 0)?;
    }
    Ok(9)
}

/// Each block doubled, and each dropped; how many cards.
fn doubled_and_dropped(three: &Three) -> Result<u64, String> {
    for b in 0..3 {
        let mut card = three.card.clone();
        double(&mut card, b);
        three.read(&card, |k| b < k, BLOCK)?;
        let mut card = three.card.clone();
        card.drain(b * BLOCK..(b + 1) * BLOCK);
        three.read(&card, |k| b <= k, 0)?;
    }
    Ok(6)
}

/// The card cut at every length, and with every number of zero bytes up to a block past it; how many cards.
fn cut(three: &Three) -> Result<u64, String> {
    let lengths = 0..4 * BLOCK + 1;
    for length in lengths.clone() {
        let mut card = three.card.clone();
        card.resize(length, 0);
        let whole = (length / BLOCK).min(3);
        three.read(&card, |k| whole <= k, length - whole * BLOCK)?;
    }
    Ok(lengths.len() as u64)
}

/// Blocks exchanged, doubled, dropped; the card cut at every length, and every number of bytes up to a block past it.
pub fn moved_blocks(random: &mut Random, kind: Kind) -> Result<u64, String> {
    let mut count = 0;
    let full = kind.held;
    for records in [2 * full + 1, 2 * full + 5, 3 * full - 1, 3 * full] {
        let three = Three::new(random, kind, records)?;
        count += exchanged(&three)? + doubled_and_dropped(&three)? + cut(&three)?;
    }
    Ok(count)
}

/// Cards of a kind of every number of records up to five blocks, read as the other kind: each record is lost; how many cards.
pub fn read_as_other(random: &mut Random, kind: Kind) -> Result<u64, String> {
    let other = kind.other();
    let counts = 0..=5 * kind.held;
    for count in counts.clone() {
        let list = records(random, kind, count);
        let (_, card) = compare::write(kind, &list, kind.bytes(count))?;
        let ((number, _), found) = compare::read(other, &card, count as u32, count * other.width)?;
        let lost = |record: &[u32]| record[0] == 2 && record[1..].iter().all(|word| *word == 0);
        if number != 0 || !found.chunks(other.width).all(lost) {
            return Err(format!(
                "{count} records of an {} card are not lost",
                kind.name
            ));
        }
    }
    Ok(counts.count() as u64)
}

/// A card of three blocks, of which some are of the other kind: those that the other kind's writer puts there, and those that call
/// themselves so. They are lost, and no other; how many cards.
pub fn blocks_of_other(random: &mut Random, kind: Kind) -> Result<u64, String> {
    let three = Three::new(random, kind, 2 * kind.held + 5)?;
    let total = three.list.len() / kind.width;
    let list = records(random, kind.other(), total);
    let (_, mut others) = compare::write(kind.other(), &list, kind.other().bytes(total))?;
    for which in 0..8 {
        let lost = |b: usize| which >> b & 1 == 1;
        let (mut foreign, mut renamed) = (three.card.clone(), three.card.clone());
        for b in (0..3).filter(|b| lost(*b)) {
            block(&mut foreign, b).copy_from_slice(block(&mut others, b));
            call_itself(kind.other(), block(&mut renamed, b));
        }
        three.read(&foreign, lost, 0)?;
        three.read(&renamed, lost, 0)?;
    }
    Ok(16)
}
