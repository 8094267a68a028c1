//! Patterns of one component, through long lists: by the proved packer, by the plain one, and by an exact product of f64.
use crate::lent::asked;
use crate::plain::{NOTHING, SEVEN, SLOT};
use crate::{ours, plain};

/// How many slots are packed by one call.
const SLOTS: usize = 1 << 14;

/// What was seen of many patterns.
pub struct Seen {
    pub patterns: u64,
    pub absent: u64,
    /// Whether a number was written, by its 16 bits.
    numbers: Vec<bool>,
}

impl Seen {
    /// Nothing yet.
    fn new() -> Seen {
        Seen {
            patterns: 0,
            absent: 0,
            numbers: vec![false; 1 << 16],
        }
    }

    /// How many numbers were written for a component.
    pub fn numbers(&self) -> usize {
        self.numbers.iter().filter(|seen| **seen).count()
    }
}

/// The number of a component by f64: 32,767c has at most 39 digits there, so that the product is exact.
fn by_product(bits: u32) -> i16 {
    let c = f64::from(f32::from_bits(bits)).clamp(-1.0, 1.0);
    (32_767.0 * c).round_ties_even() as i16
}

/// Packs slots whose component number `at`, from 1 to 6, has these patterns, and compares every number.
pub fn compare(at: usize, patterns: impl Iterator<Item = u32>) -> Result<Seen, String> {
    let mut seen = Seen::new();
    let mut patterns = patterns.fuse().peekable();
    let mut answer = [1, 0, 0, 0, 0, 0, 0, 0, 0, 1, 1, 1].repeat(SLOTS);
    let mut packed = vec![0; SLOTS * SEVEN];
    while patterns.peek().is_some() {
        let mut count = 0;
        for (slot, bits) in answer.chunks_exact_mut(SLOT).zip(&mut patterns) {
            slot[at] = bits;
            count += 1;
            if count == SLOTS {
                break;
            }
        }
        let answer = &answer[..count * SLOT];
        let said = asked(1, || ours::pack(answer, &mut packed))?;
        if said != (0, count * SEVEN) {
            return Err(format!("{count} slots: ours says {said:?}"));
        }
        for (slot, seven) in answer.chunks_exact(SLOT).zip(packed.chunks_exact(SEVEN)) {
            one(&mut seen, at, slot[at], seven)?;
        }
    }
    Ok(seen)
}

/// Each of the seven numbers of a pattern spoiled has to be noticed; how many.
pub fn each_noticed() -> Result<usize, String> {
    let right = [32_767, 0, 0, 0, 0, 0, 1];
    let compare = |seven: [i16; SEVEN]| one(&mut Seen::new(), 1, 0x3F80_0000, &seven);
    compare(right)?;
    for place in 0..SEVEN {
        let mut seven = right;
        seven[place] ^= 2;
        if compare(seven).is_ok() {
            return Err(format!("patterns: {seven:?} for {right:?} is not noticed"));
        }
    }
    Ok(SEVEN)
}

/// One pattern and the seven numbers that were written for it.
fn one(seen: &mut Seen, at: usize, bits: u32, seven: &[i16]) -> Result<(), String> {
    seen.patterns += 1;
    let mut meant = [NOTHING; SEVEN];
    match plain::component(bits) {
        None => seen.absent += 1,
        Some(number) => {
            if number != by_product(bits) {
                return Err(format!(
                    "{bits:08X}: plain {number}, by f64 {}",
                    by_product(bits)
                ));
            }
            seen.numbers[usize::from(number as u16)] = true;
            meant = [0, 0, 0, 0, 0, 0, 1];
            meant[at - 1] = number;
        }
    }
    if seven != meant {
        return Err(format!("{bits:08X}: plain {meant:?}, ours {seven:?}"));
    }
    Ok(())
}

/// Some patterns: all of some step, and those near an edge: of an exponent, of 1, of 3F800008, of a step from one number to the next.
pub fn sample() -> Vec<u32> {
    let edges = (0..=0xFF).map(|exponent| exponent << 23);
    let cuts = (0x3F7F_FF00..0x3F80_0100).chain([0x7F80_0000, 0x7FC0_0000, 0x7FFF_FFFF]);
    let steps = (0..32_768)
        .map(|k| ((f64::from(k) + 0.5) / 32_767.0) as f32)
        .map(f32::to_bits);
    let near = edges
        .chain(steps)
        .flat_map(|bits| (0..9).map(move |d| bits.wrapping_add(d).wrapping_sub(4)));
    let sizes = near.chain(cuts).chain((0..1 << 31).step_by(1_021));
    sizes
        .flat_map(|bits| [bits & 0x7FFF_FFFF, bits | 1 << 31])
        .collect()
}
