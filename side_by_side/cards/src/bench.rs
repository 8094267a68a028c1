//! The speed of both, in one run: a card of 100,000 records, written and read, of each kind.
use crate::ours;
use crate::plain::{Kind, Said};
use crate::random::Random;
use crate::runs::records;
use std::hint::black_box;
use std::time::Instant;

const RECORDS: usize = 100_000;
const ROUNDS: usize = 200;

/// The best of so many rounds, in MB of card a second.
fn best(bytes: usize, mut call: impl FnMut() -> Said) -> f64 {
    let seconds = (0..ROUNDS)
        .map(|_| {
            let start = Instant::now();
            black_box(call());
            start.elapsed().as_secs_f64()
        })
        .fold(f64::INFINITY, f64::min);
    bytes as f64 / 1e6 / seconds
}

/// Writes and reads by both, and prints.
pub fn bench(random: &mut Random, kind: Kind) {
    let list = records(random, kind, RECORDS);
    let bytes = kind.bytes(RECORDS);
    let (mut card, mut back) = (vec![0; bytes], vec![0; list.len()]);
    let written = [
        best(bytes, || kind.write(&list, &mut card)),
        best(bytes, || ours::write(kind, &list, &mut card)),
    ];
    let total = RECORDS as u32;
    let read = [
        best(bytes, || kind.read(&card, total, &mut back)),
        best(bytes, || ours::read(kind, &card, total, &mut back)),
    ];
    assert!(back == list);
    println!(
        "{} cards: {RECORDS} records, {bytes} bytes, best of {ROUNDS} rounds, MB a second:",
        kind.name
    );
    for (what, [plain, ours]) in [("write", written), ("read", read)] {
        println!(
            "{what}: Rust {plain:.0}, ours {ours:.0}, ours to Rust {:.2}",
            ours / plain
        );
    }
}
