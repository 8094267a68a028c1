//! Frames and reasons beside the call for frames and a plain model of why a slot is absent: every word, every byte. See README.md.
use models::options::{Named, meshes, numbers};
use models::oracle::Words;
use side_by_side::kinds::named;
use side_by_side::many::{
    SHARES, Spoil, differed, each, every_one_caught, every_spoil_caught, flip, kind_of, lengths,
};
use side_by_side::mesh::Mesh;
use side_by_side::ours::GUARD;
use side_by_side::plain_reasons::{PLAIN, Plain, SLIPS};
use side_by_side::random::Random;
use side_by_side::reasons::{Left, compared};
use side_by_side::stack::{MODEL, within};
use std::process::exit;
use std::sync::atomic::{AtomicU64, Ordering::Relaxed};
use std::time::Instant;

const USAGE: &str = "usage: reasons [--seed N] [--count N] [--gate], or reasons meshes FILE..";

/// How many meshes the gate compares, and how many there are if no other number is asked for.
const GATE: u64 = 10_000;
const USUAL: u64 = 100_000;

/// The kinds of large meshes that are compared besides, and how many of each; and the gate's.
const LARGE: &[(&str, u64)] = &[("big", 60), ("largest", 67)];
const GATE_LARGE: &[(&str, u64)] = &[("big", 10)];

/// In how many meshes a slip is looked for.
const TRIED: u64 = 10_000;

/// Each alters one word of what the call left, to show that the comparison notices it.
const SPOILS: [Spoil<Left>; 9] = [
    ("number", |left| left.outcome.number ^= 1),
    ("place", |left| left.outcome.place ^= 1),
    ("slots", |left| left.outcome.slots ^= 1),
    ("answer", |left| flip(&mut left.answer)),
    ("work", |left| flip(&mut left.work)),
    ("before the reasons", |left| left.reasons[GUARD - 1] ^= 1),
    ("the first reason", |left| left.reasons[GUARD] ^= 1),
    ("the last reason", |left| {
        let last = left.reasons.len() - GUARD - 1;
        left.reasons[last] ^= 1;
    }),
    ("past the reasons", |left| {
        let past = left.reasons.len() - GUARD;
        left.reasons[past] ^= 1;
    }),
];

/// What was seen.
#[derive(Default)]
struct Seen {
    compared: AtomicU64,
    differed: AtomicU64,
    accepted: AtomicU64,
    nine: AtomicU64,
    /// Slots that are there, and absent ones by their reason.
    reasons: [AtomicU64; 4],
}

impl Seen {
    /// Compares a mesh and counts what was seen; so many bytes are lent for the reasons.
    fn compare(&self, seed: u64, i: u64, kind: &str, mesh: &Mesh, lent: usize) {
        self.compared.fetch_add(1, Relaxed);
        match compared(mesh, lent, &PLAIN, None) {
            Err(what) => differed(&self.differed, seed, i, kind, &what),
            Ok(left) if left.outcome.number == 0 => {
                self.accepted.fetch_add(1, Relaxed);
                for reason in &left.reasons[GUARD..GUARD + mesh.slots()] {
                    self.reasons[usize::from(*reason)].fetch_add(1, Relaxed);
                }
            }
            Ok(left) => {
                let nine = u64::from(left.outcome.number == 9);
                self.nine.fetch_add(nine, Relaxed);
            }
        }
    }

    /// Prints what was seen; true if nothing differed.
    fn report(&self, what: &str, start: Instant) -> bool {
        let number = |count: &AtomicU64| count.load(Relaxed);
        println!(
            "{what}: {} compared, {} differed; {} accepted, {} refused with 9; slots that are there, and absent by reasons 1 to 3: {:?}; {:.1} s",
            number(&self.compared),
            number(&self.differed),
            number(&self.accepted),
            number(&self.nine),
            self.reasons.each_ref().map(number),
            start.elapsed().as_secs_f64()
        );
        number(&self.differed) == 0 && number(&self.compared) > 0
    }

    /// True if each reason came up.
    fn whole(&self) -> bool {
        let never = self.reasons.iter().position(|n| n.load(Relaxed) == 0);
        if let Some(never) = never {
            println!("reason {never} never came up");
        }
        never.is_none()
    }
}

fn main() {
    if let Some(files) = meshes() {
        let files = files.expect("the oracle's meshes");
        exit(i32::from(!compare_files(&files)));
    }
    let Some(([seed, count], gate)) = numbers(["--seed", "--count"]) else {
        eprintln!("{USAGE}");
        exit(2);
    };
    let (usual, large) = if gate {
        (GATE, GATE_LARGE)
    } else {
        (USUAL, LARGE)
    };
    let (seed, count) = (seed.unwrap_or(1), count.unwrap_or(usual));
    let noticed = |i: u64, spoil| {
        let (_, mesh, lent) = case(seed, i);
        compared(&mesh, lent, &PLAIN, Some(spoil)).is_err()
    };
    let slipped = |i: u64, plain: &Plain| {
        let (_, mesh, _) = case(seed, i);
        compared(&mesh, mesh.slots(), plain, None).is_err()
    };
    let right = compare_all(seed, count)
        & compare_large(seed, large)
        & every_spoil_caught(&SPOILS, noticed)
        & every_one_caught("slips in the plain model", &SLIPS, TRIED, slipped);
    exit(i32::from(!right));
}

/// How many bytes are lent for the reasons of a mesh: just enough, more, or one less.
fn lent(seed: u64, i: u64, mesh: &Mesh) -> usize {
    let r = &mut Random::of(seed, "reasons", i);
    let [lent] = lengths(r, [1], mesh.slots(), 4);
    lent
}

/// The mesh of a number, and how many bytes are lent for the reasons.
fn case(seed: u64, i: u64) -> (&'static str, Mesh, usize) {
    let kind = kind_of(&SHARES, i);
    let mesh = kind.case(seed, i).mesh;
    let lent = lent(seed, i, &mesh);
    (kind.name, mesh, lent)
}

/// Compares so many cases on every processor; true if nothing differed and each reason came up.
fn compare_all(seed: u64, count: u64) -> bool {
    let (start, seen) = (Instant::now(), Seen::default());
    each(count, |i| {
        let (kind, mesh, lent) = case(seed, i);
        seen.compare(seed, i, kind, &mesh, lent);
    });
    seen.report("reasons", start) & seen.whole()
}

/// The same of large meshes, where the model has much stack, since its walk calls itself; true if nothing differed.
fn compare_large(seed: u64, large: &[(&str, u64)]) -> bool {
    let (start, seen) = (Instant::now(), Seen::default());
    within(MODEL, || {
        for &(kind, count) in large {
            for i in 0..count {
                let mesh = named(kind).case(seed, i).mesh;
                seen.compare(seed, i, kind, &mesh, mesh.slots());
            }
        }
    });
    seen.report("large meshes", start)
}

/// The same of the meshes of the oracle's files; true if besides each reason came up in one of them.
fn compare_files(files: &[Named]) -> bool {
    let all = Seen::default();
    let mut right = true;
    for (name, file) in files {
        let (start, seen) = (Instant::now(), Seen::default());
        within(MODEL, || {
            let mut words = Words(file);
            let calls = std::iter::from_fn(|| words.next_call());
            for (mesh, i) in calls.map(Mesh::from).zip(0..) {
                seen.compare(0, i, name, &mesh, lent(0, i, &mesh));
            }
        });
        right &= seen.report(name, start);
        for (sum, more) in all.reasons.iter().zip(&seen.reasons) {
            sum.fetch_add(more.load(Relaxed), Relaxed);
        }
    }
    right & all.whole()
}
