//! Many cases of mixed kinds on every processor, and words that are spoiled on purpose.
use crate::kinds::{Kind, named};
use crate::random::Random;
use std::sync::atomic::{AtomicU64, Ordering::Relaxed};
use std::thread::{available_parallelism, scope};

/// The kinds of meshes, each with so many shares of all cases, for calls on any mesh.
pub const SHARES: [(&str, u64); 8] = [
    ("mesh", 40),
    ("shuffle", 25),
    ("one", 10),
    ("zeros", 8),
    ("magnitudes", 7),
    ("extreme", 5),
    ("refused", 4),
    ("needle", 1),
];

/// In how many cases a spoiled word is looked for.
const SPOILT: u64 = 200;

/// A word that is altered on purpose, by name, in what calls left.
pub type Spoil<Left> = (&'static str, fn(&mut Left));

/// The kind of a case's number, where each kind has so many shares of all cases.
pub fn kind_of(shares: &[(&str, u64)], i: u64) -> &'static Kind {
    let all = shares.iter().map(|(_, share)| share).sum::<u64>();
    let owners = shares
        .iter()
        .flat_map(|(name, share)| (0..*share).map(move |_| name));
    let name = owners.into_iter().nth((i % all) as usize).expect("a share");
    named(name)
}

/// Lengths of lent lists of so many entries a face: just enough, more, or, one time of so many, one of them one short.
pub fn lengths<const N: usize>(
    r: &mut Random,
    entries: [usize; N],
    faces: usize,
    times: usize,
) -> [usize; N] {
    let more = if r.chance(1, 3) { r.from_to(1, 9) } else { 0 };
    let mut lengths = entries.map(|entries| entries * faces + more);
    if r.chance(1, times) {
        let list = r.below(N);
        lengths[list] = (entries[list] * faces).saturating_sub(1);
    }
    lengths
}

/// Runs so many cases on every processor.
pub fn each(count: u64, one: impl Fn(u64) + Sync) {
    let next = AtomicU64::new(0);
    let take = || Some(next.fetch_add(1, Relaxed)).filter(|i| *i < count);
    let work = || std::iter::from_fn(take).for_each(&one);
    scope(|scope| {
        for _ in 0..available_parallelism().map_or(1, usize::from) {
            scope.spawn(work);
        }
    });
}

/// Counts a case that differed; the first is printed.
pub fn differed(count: &AtomicU64, seed: u64, i: u64, kind: &str, what: &str) {
    if count.fetch_add(1, Relaxed) == 0 {
        let short: String = what.chars().take(4000).collect();
        println!("case {i} of seed {seed} ({kind}): {short}");
    }
}

/// Turns the lowest bit of a list's last word.
pub fn flip(list: &mut [u32]) {
    list.iter_mut().rev().take(1).for_each(|word| *word ^= 1);
}

/// True if each spoiled word is noticed in one of some cases.
pub fn every_spoil_caught<Left>(
    spoils: &[Spoil<Left>],
    noticed: impl Fn(u64, fn(&mut Left)) -> bool,
) -> bool {
    every_one_caught("spoiled words", spoils, SPOILT, |i, spoil| {
        noticed(i, *spoil)
    })
}

/// True if each of some things that are wrong on purpose is noticed in one of so many cases.
pub fn every_one_caught<T>(
    what: &str,
    all: &[(&str, T)],
    cases: u64,
    noticed: impl Fn(u64, &T) -> bool,
) -> bool {
    let missed = all
        .iter()
        .filter(|(_, wrong)| !(0..cases).any(|i| noticed(i, wrong)));
    let missed: Vec<&str> = missed.map(|(name, _)| *name).collect();
    let (count, caught) = (all.len(), all.len() - missed.len());
    println!("{what}: {caught} of {count} caught; missed: {missed:?}");
    missed.is_empty()
}
