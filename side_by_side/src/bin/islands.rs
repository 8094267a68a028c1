//! Frames by islands beside one call for frames, and labels beside a plain model: every word of every list. See README.md.
use models::lent::asked;
use models::options::numbers;
use side_by_side::islands::{ENTRIES, Left, expected, left};
use side_by_side::many::{
    SHARES, Spoil, differed, each, every_spoil_caught, flip, kind_of, lengths,
};
use side_by_side::mesh::Mesh;
use side_by_side::random::Random;
use std::process::exit;
use std::sync::atomic::{AtomicU64, Ordering::Relaxed};
use std::time::Instant;

const USAGE: &str = "usage: islands [--seed N] [--count N] [--gate]";

/// How many meshes the gate compares.
const GATE: u64 = 20_000;

/// Each alters one word of what the calls left, to show that the comparison notices it.
const SPOILS: [Spoil<Left>; 12] = [
    ("number", |left| left.outcome.number ^= 1),
    ("answer", |left| flip(&mut left.answer)),
    ("work", |left| flip(&mut left.work)),
    ("labels", |left| flip(&mut left.own.labels)),
    ("order", |left| flip(&mut left.own.order)),
    ("sizes", |left| {
        left.own
            .sizes
            .iter_mut()
            .take(1)
            .for_each(|size| *size ^= 1)
    }),
    ("numbers", |left| flip(&mut left.own.numbers)),
    ("frames", |left| flip(&mut left.own.frames)),
    ("islands", |left| left.labelled.islands += 1),
    ("labels' place", |left| left.labelled.place += 1),
    ("labels alone", |left| flip(&mut left.labels)),
    ("labels' work", |left| flip(&mut left.labels_work)),
];

/// What was seen.
#[derive(Default)]
struct Seen {
    compared: AtomicU64,
    accepted: AtomicU64,
    nine: AtomicU64,
    islands: AtomicU64,
    differed: AtomicU64,
}

fn main() {
    let Some(([seed, count], gate)) = numbers(["--seed", "--count"]) else {
        eprintln!("{USAGE}");
        exit(2);
    };
    let (seed, count) = (seed.unwrap_or(1), count.unwrap_or(100_000));
    let right = compare_all(seed, if gate { GATE } else { count });
    let noticed = |i: u64, spoil| {
        let (_, mesh, lengths) = case(seed, i);
        differs(&mesh, lengths, Some(spoil)).0.is_some()
    };
    exit(i32::from(!(right & every_spoil_caught(&SPOILS, noticed))));
}

/// The mesh of a number, and the lengths of the lists that are lent besides.
fn case(seed: u64, i: u64) -> (&'static str, Mesh, [usize; 5]) {
    let kind = kind_of(&SHARES, i);
    let mesh = kind.case(seed, i).mesh;
    let r = &mut Random::of(seed, "own lists", i);
    let lengths = lengths(r, ENTRIES, mesh.sizes.len(), 4);
    (kind.name, mesh, lengths)
}

/// What differs of a case, and what had to be left; a word of ours may be spoiled first.
fn differs(
    mesh: &Mesh,
    lengths: [usize; 5],
    spoil: Option<fn(&mut Left)>,
) -> (Option<String>, Option<Left>) {
    // two calls of the archive: frames by islands, and labels
    let both = expected(mesh, lengths)
        .and_then(|expected| Ok((expected, asked(2, || left(mesh, lengths))?)));
    let (expected, mut ours) = match both {
        Ok(both) => both,
        Err(what) => return (Some(what), None),
    };
    if let Some(spoil) = spoil {
        spoil(&mut ours);
    }
    let parts = [
        ("what the call says", ours.outcome == expected.outcome),
        ("the answer list", ours.answer == expected.answer),
        ("the work list", ours.work == expected.work),
        ("labels", ours.own.labels == expected.own.labels),
        ("order", ours.own.order == expected.own.order),
        ("own sizes", ours.own.sizes == expected.own.sizes),
        ("own numbers", ours.own.numbers == expected.own.numbers),
        ("own frames", ours.own.frames == expected.own.frames),
        ("what labels says", ours.labelled == expected.labelled),
        ("labels alone", ours.labels == expected.labels),
        (
            "the work list of labels",
            ours.labels_work == expected.labels_work,
        ),
    ];
    let wrong = parts.iter().find(|(_, same)| !same);
    let what = wrong.map(|(what, _)| format!("{what}: {ours:?}, expected {expected:?}"));
    (what, Some(expected))
}

/// Compares so many cases on every processor; true if nothing differed.
fn compare_all(seed: u64, count: u64) -> bool {
    let start = Instant::now();
    let seen = Seen::default();
    each(count, |i| one(seed, i, &seen));
    let number = |count: &AtomicU64| count.load(Relaxed);
    println!(
        "islands: {} compared, {} differed; {} accepted with {} islands, {} refused with 9; {:.1} s",
        number(&seen.compared),
        number(&seen.differed),
        number(&seen.accepted),
        number(&seen.islands),
        number(&seen.nine),
        start.elapsed().as_secs_f64()
    );
    number(&seen.differed) == 0
}

/// Compares a case.
fn one(seed: u64, i: u64, seen: &Seen) {
    let (name, mesh, lengths) = case(seed, i);
    let (what, expected) = differs(&mesh, lengths, None);
    seen.compared.fetch_add(1, Relaxed);
    if let Some(what) = what {
        differed(&seen.differed, seed, i, name, &what);
    }
    let Some(expected) = expected else { return };
    let (number, islands) = (expected.outcome.number, expected.labelled.islands);
    seen.accepted.fetch_add(u64::from(number == 0), Relaxed);
    seen.nine.fetch_add(u64::from(number == 9), Relaxed);
    seen.islands
        .fetch_add(u64::from(number == 0) * u64::from(islands), Relaxed);
}
