//! The speed of both, in one run: an answer list of 100,000 slots, packed and read.
use crate::plain::{READ, SEVEN, SLOT, Said};
use crate::random::Random;
use crate::{ours, plain};
use std::hint::black_box;
use std::time::Instant;

const SLOTS: usize = 100_000;
const ROUNDS: usize = 200;

/// The best of so many rounds, in millions of slots a second.
fn best(mut call: impl FnMut() -> Said) -> f64 {
    let seconds = (0..ROUNDS).map(|_| {
        let start = Instant::now();
        black_box(call());
        start.elapsed().as_secs_f64()
    });
    SLOTS as f64 / 1e6 / seconds.fold(f64::INFINITY, f64::min)
}

/// A slot of random directions; one of sixteen is absent.
fn slot(random: &mut Random) -> [u32; SLOT] {
    let mut slot = [0; SLOT];
    slot[1..9].fill_with(|| random.signed().to_bits());
    slot[0] = u32::from(!random.chance(1, 16));
    slot[9] = random.below(2) as u32;
    slot
}

/// Packs and reads by both, and prints.
pub fn bench(random: &mut Random) {
    let answer: Vec<u32> = (0..SLOTS).flat_map(|_| slot(random)).collect();
    let (mut packed, mut read) = (vec![0; SLOTS * SEVEN], vec![0; SLOTS * READ]);
    let pack = [
        best(|| plain::pack(&answer, &mut packed)),
        best(|| ours::pack(&answer, &mut packed)),
    ];
    let unpack = [
        best(|| plain::unpack(&packed, &mut read)),
        best(|| ours::unpack(&packed, &mut read)),
    ];
    println!("{SLOTS} slots, best of {ROUNDS} rounds, million slots a second:");
    for (what, [plain, ours]) in [("pack", pack), ("unpack", unpack)] {
        println!(
            "{what}: Rust {plain:.1}, ours {ours:.1}, ours to Rust {:.2}",
            ours / plain
        );
    }
}
