//! What is run: random slots with damage, lists of every length, every number at every place of a seven.
use crate::compare;
use crate::lent::room;
use crate::plain::{self, NOTHING, READ, SEVEN, SLOT};
use crate::random::Random;

/// A component: mostly of [-1, 1], else near an edge, or any bits.
fn bits(random: &mut Random) -> u32 {
    let edges = [
        0,
        1,
        0x0080_0000,
        0x3700_0000,
        0x377F_FFFF,
        0x3F00_0000,
        0x3F7F_FFFF,
        0x3F80_0000,
        0x3F80_0001,
        0x3F80_0008,
    ];
    let sign = (random.below(2) as u32) << 31;
    match random.below(8) {
        0 => sign | random.pick(&edges),
        1 => sign | random.below(0x3F80_0009) as u32,
        _ => random.signed().to_bits(),
    }
}

/// A slot; one of three has something that keeps it from being packed.
fn slot(random: &mut Random) -> [u32; SLOT] {
    let mut slot = [0; SLOT];
    slot.fill_with(|| bits(random));
    slot[0] = 1;
    slot[9] = random.below(2) as u32;
    let any = random.word();
    let beyond = random.pick(&[
        0x3F80_0009,
        0xBF80_0009,
        0x7F80_0000,
        0xFF80_0000,
        0x7FC0_0000,
        0xFFFF_FFFF,
        any,
    ]);
    match random.below(9) {
        0 => slot[0] = random.pick(&[0, 2, 3, 0x0001_0001, any]),
        1 => slot[9] = random.pick(&[2, 3, 0x0001_0000, 0xFFFF_FFFF, any]),
        2 => slot[random.from_to(1, 6)] = beyond,
        _ => slot[random.pick(&[7, 8])] = beyond,
    }
    slot
}

/// A random answer list: packed, read back, damaged and read again.
pub fn random_list(random: &mut Random) -> Result<(), String> {
    let most = random.pick(&[1, 2, 3, 20, 100]);
    let count = random.below(most);
    let mut answer: Vec<u32> = (0..count).flat_map(|_| slot(random)).collect();
    if random.chance(1, 8) {
        answer.truncate(random.below(answer.len() + 1));
    }
    let need = answer.len() / SLOT * SEVEN;
    let lent = room(random, need, 40);
    let (said, _) = compare::pack(&answer, lent)?;
    let whole = answer.len().is_multiple_of(SLOT);
    let meant = match (whole, need <= lent) {
        (false, _) => (1, 0),
        (true, false) => (2, 0),
        (true, true) => (0, need),
    };
    if said != meant {
        return Err(format!("packing says {said:?}, meant {meant:?}"));
    }
    answer.truncate(answer.len() / SLOT * SLOT);
    let (_, mut packed) = compare::pack(&answer, need)?;
    let (said, words) = compare::unpack(&packed, need / SEVEN * READ)?;
    if said != (0, 0) {
        return Err(format!("what was packed reads as {said:?}"));
    }
    back(&answer, &words)?;
    for _ in 0..random.below(4) {
        damage(random, &mut packed);
    }
    let lent = room(random, packed.len() / SEVEN * READ, 40);
    compare::unpack(&packed, lent).map(drop)
}

/// What was read, against the slots that were packed: each number, and the orientation.
fn back(answer: &[u32], words: &[u32]) -> Result<(), String> {
    for (slot, read) in answer.chunks_exact(SLOT).zip(words.chunks_exact(READ)) {
        let numbers: Option<Vec<i16>> = slot[1..=6]
            .iter()
            .map(|bits| plain::component(*bits))
            .collect();
        let meant = match numbers {
            Some(numbers) if slot[0] == 1 && slot[9] <= 1 => {
                let numbers = numbers.iter().map(|number| i32::from(*number) as u32);
                [1].into_iter().chain(numbers).chain([slot[9]]).collect()
            }
            _ => [[0].as_slice(), &[0xFFFF_8000; SEVEN]].concat(),
        };
        if read != meant {
            return Err(format!("{slot:X?} reads as {read:X?}, meant {meant:X?}"));
        }
    }
    Ok(())
}

/// One misfortune of a packed list.
fn damage(random: &mut Random, packed: &mut Vec<i16>) {
    if packed.is_empty() || random.chance(1, 6) {
        return packed.resize(random.below(packed.len() + 9), 1);
    }
    let at = random.below(packed.len());
    let last = at / SEVEN * SEVEN + 6;
    let any = random.word() as i16;
    match random.below(3) {
        0 if last < packed.len() => {
            packed[last] = random.pick(&[0, 1, -1, 2, -2, 257, NOTHING, any])
        }
        1 => packed[at] ^= 1 << random.below(16),
        _ => packed[at] = random.pick(&[NOTHING, NOTHING, 0, 1, -1, 32_767, any]),
    }
}

/// Every number of 16 bits at every place of several sevens, in the middle of three slots.
pub fn every_number() -> Result<u64, String> {
    let grounds = [
        [0, 1, -1, 32_767, -32_767, 5, 1],
        [-32_767, 4, 3, 2, 1, 0, -1],
        [NOTHING; SEVEN],
    ];
    let mut count = 0;
    for ground in grounds {
        for place in 0..SEVEN {
            for number in i16::MIN..=i16::MAX {
                let mut list = [grounds[0], ground, grounds[2]].concat();
                list[SEVEN + place] = number;
                let (said, _) = compare::unpack(&list, 3 * READ)?;
                let absent = ground[6] == NOTHING;
                let fits = match (absent, place) {
                    (true, _) => number == NOTHING,
                    (false, 6) => number == 1 || number == -1,
                    (false, _) => number != NOTHING,
                };
                let meant = if fits { (0, 0) } else { (3, 1) };
                if said != meant {
                    return Err(format!("{list:?} reads as {said:?}, meant {meant:?}"));
                }
                count += 1;
            }
        }
    }
    Ok(count)
}

/// Lists of every length up to some slots, into lent lists of every length up to some more.
pub fn every_length(random: &mut Random) -> Result<u64, String> {
    let mut count = 0;
    let answer: Vec<u32> = (0..5).flat_map(|_| slot(random)).collect();
    for length in 0..=answer.len() {
        for lent in 0..=5 * SEVEN + 2 {
            compare::pack(&answer[..length], lent)?;
            count += 1;
        }
    }
    let (_, packed) = compare::pack(&answer, 5 * SEVEN)?;
    for length in 0..=packed.len() {
        for lent in 0..=5 * READ + 2 {
            compare::unpack(&packed[..length], lent)?;
            count += 1;
        }
    }
    Ok(count)
}
