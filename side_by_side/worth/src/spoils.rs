//! The comparison put to the test: each word of ours that is spoiled, and each slip in the plain verdict, has to be noticed.
use crate::compare::{Seen, both};
use crate::runs::random_list;
use models::lent::each_noticed;
use models::packed::SLOT;
use models::random::Random;
use models::worth::Worth::{self, Absent, Blank, Good, Long, Lost, Short};
use models::worth::verdict;

/// In how many random lists a slip is looked for.
const TRIED: u64 = 2_000;

/// A verdict with a slip in it.
type Slip = Box<dyn Fn(&[u32]) -> Worth>;

/// The verdict on a slot that is altered first.
fn altered(alter: impl Fn(&mut [u32]) + 'static) -> Slip {
    Box::new(move |slot| {
        let mut slot = slot.to_vec();
        alter(&mut slot);
        verdict(&slot)
    })
}

/// Components for which such bits without the sign are taken to be others.
fn taken(such: impl Fn(u32) -> bool + 'static, to: u32) -> Slip {
    altered(move |slot| {
        let six = slot[1..=6].iter_mut();
        six.filter(|bits| such(**bits << 1 >> 1))
            .for_each(|bits| *bits = to);
    })
}

/// A component of this size is taken for one of another.
fn edge(from: u32, to: u32) -> Slip {
    taken(move |size| size == from, to)
}

/// A word of the slot that is taken for a 1 where it is such a one.
fn passing(at: usize, such: impl Fn(u32) -> bool + 'static) -> Slip {
    altered(move |slot| slot[at] = if such(slot[at]) { 1 } else { slot[at] })
}

/// One verdict told for another.
fn told(from: Worth, to: Worth) -> Slip {
    Box::new(move |slot| match verdict(slot) {
        told if told == from => to,
        told => told,
    })
}

/// Zeros of either sign in the place of both directions are good.
fn zeros_good(slot: &[u32]) -> Worth {
    let zeros = slot[1..=6].iter().all(|bits| bits << 1 == 0);
    if slot[0] == 1 && zeros {
        Good
    } else {
        verdict(slot)
    }
}

/// The slips: what is altered, and the verdict altered so.
fn slips() -> Vec<(&'static str, Slip)> {
    let minus_zero = altered(|slot| {
        let zeros = slot[1..=6].iter_mut().filter(|bits| **bits == 1 << 31);
        zeros.for_each(|bits| *bits = 0x8080_0001);
    });
    vec![
        ("-0.0 is told apart from 0.0", minus_zero),
        (
            "a NaN is good",
            taken(|size| size > 0x7F80_0000, 0x3F00_0000),
        ),
        ("zeros are good", Box::new(zeros_good)),
        ("lost is absent", told(Lost, Absent)),
        ("absent is lost", told(Absent, Lost)),
        ("blank is absent", told(Blank, Absent)),
        ("long is good", told(Long, Good)),
        ("short is good", told(Short, Good)),
        ("infinity is a number", edge(0x7F80_0000, 0x7F7F_FFFF)),
        ("7F7FFFFF is no number", edge(0x7F7F_FFFF, 0x7F80_0000)),
        ("2^-126 counts", edge(0x0080_0000, 0x0080_0001)),
        ("00800001 does not count", edge(0x0080_0001, 0x0080_0000)),
        ("3F800008 is beyond", edge(0x3F80_0008, 0x3F80_0009)),
        ("3F800009 is not beyond", edge(0x3F80_0009, 0x3F80_0008)),
        ("37800100 is packed as 1", edge(0x3780_0100, 0x3780_0101)),
        ("37800101 is packed as 0", edge(0x3780_0101, 0x3780_0100)),
        ("no orientation is too great", passing(9, |word| word > 1)),
        ("an orientation of 2 passes", passing(9, |word| word == 2)),
        ("a 2 in word 0 is a 1", passing(0, |word| word == 2)),
        (
            "the bi-tangent is not looked at",
            altered(|slot| slot.copy_within(1..4, 4)),
        ),
        (
            "the tangent is not looked at",
            altered(|slot| slot.copy_within(4..7, 1)),
        ),
    ]
}

/// Judging, also where it is refused, with every word spoiled; how many words.
pub fn words_noticed() -> Result<usize, String> {
    let slot = [1, 0x3F00_0000, 0, 0, 0, 0xBF80_0000, 0, 7, 8, 1, 2, 4];
    let answer = [slot, [0; SLOT], slot].concat();
    let judged = |long: usize, room| both(verdict, &answer[..long], room).map(drop);
    let counts = [
        each_noticed("judge", || judged(3 * SLOT, 3)),
        each_noticed("too short", || judged(3 * SLOT, 2)),
        each_noticed("not whole", || judged(3 * SLOT - 1, 3)),
    ];
    counts.into_iter().sum()
}

/// Each slip in some random lists of a seed; how many slips.
pub fn slips_noticed(seed: u64) -> Result<usize, String> {
    let slips = slips();
    for (what, slip) in &slips {
        let differs = |case| {
            let random = &mut Random::of(seed, "lists", case);
            random_list(slip, random, &mut Seen::default()).is_err()
        };
        if !(0..TRIED).any(differs) {
            return Err(format!("a slip is not noticed: {what}"));
        }
    }
    Ok(slips.len())
}
