//! What can happen to a card.
use crate::plain::{AHEAD, BLOCK, Kind, check_word, put_words, words_of};
use crate::random::Random;

/// One misfortune of the bytes of a card of a kind.
pub fn damage(random: &mut Random, kind: Kind, card: &mut Vec<u8>) {
    let blocks = card.len() / BLOCK;
    if blocks == 0 {
        return tail(random, card);
    }
    let b = random.below(blocks);
    match random.below(10) {
        0 => flip_bit(random, card),
        1 => one_word(random, kind, block(card, b), false),
        2 | 3 => one_word(random, kind, block(card, b), true),
        4 => swap(card, b, random.below(blocks)),
        5 => double(card, b),
        6 => drop(card.drain(b * BLOCK..(b + 1) * BLOCK)),
        7 => call_itself(kind.other(), block(card, b)),
        8 => card.truncate(random.below(card.len() + 1)),
        _ => tail(random, card),
    }
}

/// Block b of a card.
pub fn block(card: &mut [u8], b: usize) -> &mut [u8] {
    &mut card[b * BLOCK..(b + 1) * BLOCK]
}

/// One bit turned.
fn flip_bit(random: &mut Random, card: &mut [u8]) {
    let at = random.below(card.len());
    card[at] ^= 1 << random.below(8);
}

/// One word changed, the early ones more often; where `mend`, with the sum set right again, so that the other rules are put to the test.
fn one_word(random: &mut Random, kind: Kind, block: &mut [u8], mend: bool) {
    let mut words = words_of(block);
    let record = AHEAD + kind.width * random.below(kind.held);
    let any = random.below(128);
    let at = random.pick(&[0, 1, 2, 3, 4, 5, 6, 7, any, record, 126]);
    let (old, other) = (words[at], random.word());
    let near = [old.wrapping_add(1), old.wrapping_sub(1)];
    words[at] = random.pick(&[0, 1, 2, 3, 10, 11, 12, 13, near[0], near[1], other]);
    if mend {
        words[127] = check_word(&words);
    }
    put_words(block, &words);
}

/// A block that calls itself one of a kind, its sum set right.
pub fn call_itself(kind: Kind, block: &mut [u8]) {
    let mut words = words_of(block);
    words[3] = kind.mark;
    words[127] = check_word(&words);
    put_words(block, &words);
}

/// Two blocks exchanged.
pub fn swap(card: &mut [u8], a: usize, b: usize) {
    for i in 0..BLOCK {
        card.swap(a * BLOCK + i, b * BLOCK + i);
    }
}

/// A block written twice, the later ones moved on.
pub fn double(card: &mut Vec<u8>, b: usize) {
    let twice = block(card, b).to_vec();
    card.splice(b * BLOCK..b * BLOCK, twice);
}

/// Bytes past the end.
fn tail(random: &mut Random, card: &mut Vec<u8>) {
    let any = random.below(1500);
    let count = random.pick(&[1, 3, 511, 512, 513, 1024, any]);
    card.extend((0..count).map(|_| random.word() as u8));
}
