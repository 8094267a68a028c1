//! A partner's lists examined beside a plain examiner, and our own lists beside plain steps 5 and 6: what is said, and every word. See README.md.
use models::lent::asked;
use models::options::numbers;
use models::{Faces, shapes};
use side_by_side::examiner::{ENTRIES, Left, Lists, expected, left, own_expected, own_left};
use side_by_side::kinds::named;
use side_by_side::many::{Spoil, differed, each, every_spoil_caught, flip, kind_of, lengths};
use side_by_side::mesh::Mesh;
use side_by_side::partner::lists;
use side_by_side::random::Random;
use side_by_side::refusals::MOST_FACES;
use side_by_side::stack::{MODEL, OURS, within};
use std::process::exit;
use std::sync::atomic::{AtomicU64, Ordering::Relaxed};
use std::time::Instant;

const USAGE: &str = "usage: examine [--seed N] [--count N] [--case N] [--gate]";

/// The kinds of meshes, each with so many shares of the count.
const SHARES: [(&str, u64); 8] = [
    ("mesh", 50),
    ("shuffle", 20),
    ("one", 4),
    ("zeros", 10),
    ("magnitudes", 5),
    ("extreme", 5),
    ("refused", 4),
    ("needle", 2),
];

/// How many lists the gate examines.
const GATE: u64 = 10_000;

/// The kinds of meshes whose own lists are compared besides, and how many of each.
const OWN: [&str; 4] = ["mesh", "zeros", "extreme", "needle"];
const OWN_COUNT: u64 = 20_000;

/// How many large meshes of the kind `big` are compared.
const BIG: u64 = 60;

/// From so many lists on each objection has to occur so often.
const MANY: u64 = 1_000_000;
const OFTEN: u64 = 1_000;

/// Each alters one word of what the calls left, to show that the comparison notices it.
const SPOILS: [Spoil<Left>; 12] = [
    ("refusal", |left| left.examined.refusal ^= 1),
    ("objection", |left| left.examined.objection ^= 1),
    ("place", |left| left.examined.place += 1),
    ("work", |left| flip(&mut left.work)),
    ("a list handed in", |left| flip(&mut left.lists.groups)),
    ("number", |left| left.own.handed.number ^= 1),
    ("links' place", |left| left.own.handed.place += 1),
    ("sound", |left| left.own.handed.sound += 1),
    ("links", |left| flip(&mut left.own.lists.links)),
    ("groups", |left| flip(&mut left.own.lists.groups)),
    ("orientations", |left| {
        flip(&mut left.own.lists.orientations)
    }),
    ("links' work", |left| flip(&mut left.own.work)),
];

/// What was seen.
#[derive(Default)]
struct Seen {
    compared: AtomicU64,
    differed: AtomicU64,
    refused: AtomicU64,
    /// Accepted, and objected to with 1 to 12.
    objections: [AtomicU64; 13],
    /// Accepted, and not our own lists.
    others: AtomicU64,
    nine: AtomicU64,
}

/// A mesh, a partner's lists for it, and the lengths of the lists that are lent for our own.
struct Case {
    kind: &'static str,
    mesh: Mesh,
    lists: Lists,
    lengths: [usize; 3],
}

fn main() {
    let Some(([seed, count, shown], gate)) = numbers(["--seed", "--count", "--case"]) else {
        eprintln!("{USAGE}");
        exit(2);
    };
    let (seed, count) = (seed.unwrap_or(1), count.unwrap_or(100_000));
    if let Some(i) = shown {
        exit(show(seed, i));
    }
    let noticed = |i, spoil| differs(&case(seed, i), Some(spoil)).0.is_some();
    let right = compare_all(seed, if gate { GATE } else { count })
        & compare_own(seed)
        & compare_large(seed)
        & every_spoil_caught(&SPOILS, noticed);
    exit(i32::from(!right));
}

/// The case of a number.
fn case(seed: u64, i: u64) -> Case {
    let kind = kind_of(&SHARES, i);
    let mesh = kind.case(seed, i).mesh;
    let r = &mut Random::of(seed, "partner", i);
    Case {
        kind: kind.name,
        lists: lists(r, &mesh),
        lengths: lengths(r, ENTRIES, mesh.sizes.len(), 8),
        mesh,
    }
}

/// What differs of a case, and what had to be left; a word of ours may be spoiled first.
fn differs(case: &Case, spoil: Option<fn(&mut Left)>) -> (Option<String>, Left) {
    let expected = expected(&case.mesh, &case.lists, case.lengths);
    // two calls of the archive: the examiner, and our own links
    let mut ours = match asked(2, || left(&case.mesh, &case.lists, case.lengths)) {
        Ok(ours) => ours,
        Err(what) => return (Some(what), expected),
    };
    if let Some(spoil) = spoil {
        spoil(&mut ours);
    }
    let (own, wanted) = (&ours.own, &expected.own);
    let parts = [
        ("what the examiner says", ours.examined == expected.examined),
        ("the work list", ours.work == expected.work),
        ("the lists handed in", ours.lists == expected.lists),
        ("what the call for links says", own.handed == wanted.handed),
        ("links, groups or orientations", own.lists == wanted.lists),
        ("the work list of links", own.work == wanted.work),
    ];
    let wrong = parts.iter().find(|(_, same)| !same);
    let what = wrong.map(|(what, _)| {
        let said = |left: &Left| {
            format!(
                "{:?} {:?} {:?}",
                left.examined, left.own.handed, left.own.lists
            )
        };
        format!("{what}: {}, expected {}", said(&ours), said(&expected))
    });
    (what, expected)
}

/// Prints a case and what differs of it; the exit status.
fn show(seed: u64, i: u64) -> i32 {
    let case = case(seed, i);
    let (what, expected) = differs(&case, None);
    println!("case {i} of seed {seed} ({}): {:?}", case.kind, case.mesh);
    println!("{:?}, expected {:?}", case.lists, expected.examined);
    println!("{}", what.as_deref().unwrap_or("nothing differs"));
    i32::from(what.is_some())
}

/// Compares so many cases on every processor; true if nothing differed, and each objection occurred often enough.
fn compare_all(seed: u64, count: u64) -> bool {
    let start = Instant::now();
    let seen = Seen::default();
    each(count, |i| one(seed, i, &seen));
    report(&seen, start);
    let rare = seen.objections[1..].iter().any(|n| number(n) < OFTEN);
    if count >= MANY && rare {
        println!("an objection occurs fewer than {OFTEN} times");
    }
    number(&seen.differed) == 0 && !(count >= MANY && rare)
}

/// The number that was counted.
fn number(count: &AtomicU64) -> u64 {
    count.load(Relaxed)
}

/// Prints what was seen.
fn report(seen: &Seen, start: Instant) {
    let [accepted, objections @ ..] = &seen.objections;
    println!(
        "lists: {} compared, {} differed; {} with a refused mesh, {} accepted, {} of them not ours, objected to with 1 to 12: {:?}; our own refused with 9 {} times; {:.1} s",
        number(&seen.compared),
        number(&seen.differed),
        number(&seen.refused),
        number(accepted),
        number(&seen.others),
        objections.each_ref().map(number),
        number(&seen.nine),
        start.elapsed().as_secs_f64()
    );
}

/// Compares a case.
fn one(seed: u64, i: u64, seen: &Seen) {
    let case = case(seed, i);
    let (what, expected) = differs(&case, None);
    seen.compared.fetch_add(1, Relaxed);
    if let Some(what) = what {
        differed(&seen.differed, seed, i, case.kind, &what);
    }
    let own = &expected.own;
    seen.nine
        .fetch_add(u64::from(own.handed.number == 9), Relaxed);
    if expected.examined.refusal != 0 {
        seen.refused.fetch_add(1, Relaxed);
        return;
    }
    let objection = expected.examined.objection as usize;
    seen.objections[objection].fetch_add(1, Relaxed);
    if objection == 0 && own.handed.number == 0 {
        let mut handed_out = own.lists.clone();
        handed_out.cut(own.handed.sound as usize);
        let same = handed_out == case.lists;
        seen.others.fetch_add(u64::from(!same), Relaxed);
    }
}

/// Our own lists of meshes of four kinds beside the plain steps 5 and 6; true if nothing differed.
fn compare_own(seed: u64) -> bool {
    let (wrong, kinds) = (AtomicU64::new(0), OWN.map(named));
    each(OWN_COUNT * OWN.len() as u64, |i| {
        let (kind, i) = (kinds[i as usize % OWN.len()], i / OWN.len() as u64);
        let mesh = kind.case(seed, i).mesh;
        let lengths = ENTRIES.map(|entries| entries * mesh.sizes.len());
        if asked(1, || own_left(&mesh, lengths)) != Ok(own_expected(&mesh, lengths)) {
            differed(&wrong, seed, i, kind.name, "our own lists");
        }
    });
    let wrong = number(&wrong);
    println!("our own lists of {OWN:?}: {OWN_COUNT} of each compared, {wrong} differed");
    wrong == 0
}

/// The largest meshes of some shapes, and large random ones.
fn large(seed: u64) -> impl Iterator<Item = (&'static str, Mesh)> {
    let shapes: [(&str, Faces); 6] = [
        ("tube", shapes::tube(MOST_FACES)),
        ("sheet", shapes::sheet(MOST_FACES)),
        ("fan", shapes::fan(MOST_FACES)),
        ("quad fan", shapes::quad_fan(MOST_FACES)),
        ("book", shapes::book(MOST_FACES, true)),
        ("deepest walk", shapes::deepest(MOST_FACES)),
    ];
    let shapes = shapes.map(|(name, faces)| (name, Mesh::from_faces(&faces, 0)));
    let random = (0..BIG).map(move |i| ("big", named("big").case(seed, i).mesh));
    shapes.into_iter().chain(random)
}

/// The same of large meshes: ours has little stack, and the model much, since its walk calls itself.
fn compare_large(seed: u64) -> bool {
    let (mut compared, mut rows, mut wrong) = (0, 0, 0);
    for (name, mesh) in large(seed) {
        let lengths = ENTRIES.map(|entries| entries * mesh.sizes.len());
        let ours = within(OURS, || asked(1, || own_left(&mesh, lengths)));
        let expected = within(MODEL, || own_expected(&mesh, lengths));
        compared += 1;
        rows += 3 * u64::from(expected.handed.sound);
        if ours != Ok(expected) {
            println!("large mesh {compared} of seed {seed} ({name}) differs");
            wrong += 1;
        }
    }
    println!("our own lists of large meshes: {compared} compared, {wrong} differed; {rows} rows");
    wrong == 0
}
