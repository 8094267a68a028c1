//! Compares the proved frames with the crate's, every word. See README.md.
use side_by_side::compare::examine;
use side_by_side::kinds::{KINDS, Kind};
use side_by_side::mesh::Case;
use side_by_side::runner::{Plan, run};
use side_by_side::shrink::shrink;
use side_by_side::spoil::{SPOILS, Spoil};
use side_by_side::{stack, text};
use std::process::exit;
use std::time::Instant;

const USAGE: &str = "usage: run [--seed N] [--count N] [--kind K].. [--gate] [--spoil WORD] [--file FILE] [--to FOLDER]
  K is one, mesh, zeros, magnitudes, extreme, needle, refused, limits, largest, fans, big or shuffle; all of them unless one is named
  --gate     a few thousand of each kind, then every spoiled word has to be caught
  --spoil    alters one word of ours: tangent-x to mag-s, orientation, magnitude, origin, single-origin, behind, absent, absent-origin,
             absent-behind, past-answer, work, past-work, number, place, bare-number, bare-place, slots, refused-answer, refused-work, shuffled, before-answer, beside-answer, before-work, beside-work or handed
  --file     compares the one case of a file
  --to       where a case that differed is written";

/// What was asked for.
struct Options {
    seed: u64,
    count: Option<u64>,
    kinds: Vec<String>,
    gate: bool,
    spoil: Option<Spoil>,
    file: Option<String>,
    to: String,
}

fn main() {
    let options = options();
    let right = match &options.file {
        Some(file) => compare_file(file, options.spoil),
        None => compare_kinds(&options),
    };
    exit(i32::from(!right));
}

/// Says how the program is used, and ends.
fn usage(what: &str) -> ! {
    eprintln!("{what}\n{USAGE}");
    exit(2);
}

/// Reads the options.
fn options() -> Options {
    let mut options = Options {
        seed: 1,
        count: None,
        kinds: vec![],
        gate: false,
        spoil: None,
        file: None,
        to: ".".into(),
    };
    let mut words = std::env::args().skip(1);
    while let Some(word) = words.next() {
        let mut value = || {
            words
                .next()
                .unwrap_or_else(|| usage(&format!("{word} wants a value")))
        };
        match word.as_str() {
            "--seed" => options.seed = whole(&value()),
            "--count" => options.count = Some(whole(&value())),
            "--kind" => options.kinds.push(value()),
            "--spoil" => options.spoil = Some(spoil(&value())),
            "--file" => options.file = Some(value()),
            "--to" => options.to = value(),
            "--gate" => options.gate = true,
            _ => usage(&format!("no option {word}")),
        }
    }
    if let Some(name) = options
        .kinds
        .iter()
        .find(|name| KINDS.iter().all(|kind| kind.name != **name))
    {
        usage(&format!("no kind {name}"));
    }
    options
}

/// A whole number.
fn whole(word: &str) -> u64 {
    word.parse()
        .unwrap_or_else(|_| usage(&format!("{word} is no whole number")))
}

/// The spoiled word of a name.
fn spoil(name: &str) -> Spoil {
    let found = SPOILS.iter().find(|(known, _)| *known == name);
    found.map_or_else(
        || usage(&format!("no word {name} to spoil")),
        |(_, spoil)| *spoil,
    )
}

/// Compares every kind that was asked for; true if nothing differed.
fn compare_kinds(options: &Options) -> bool {
    let asked = |kind: &&Kind| {
        options.kinds.is_empty() || options.kinds.iter().any(|name| name == kind.name)
    };
    let mut right = true;
    for kind in KINDS.iter().filter(asked) {
        let usual = if options.gate { kind.gate } else { kind.usual };
        let count = kind.bounded(options.count.unwrap_or(usual));
        if count == 0 {
            continue;
        }
        right &= compare_kind(
            Plan {
                kind,
                seed: options.seed,
                count,
                spoil: options.spoil,
            },
            &options.to,
        );
    }
    if options.gate {
        right & every_spoil_caught(options.seed)
    } else {
        right
    }
}

/// Compares one kind, and cuts down the first case that differed.
fn compare_kind(plan: Plan, to: &str) -> bool {
    let start = Instant::now();
    let ran = run(plan);
    println!(
        "{}: {}; {:.1} s",
        plan.kind.name,
        ran.tally,
        start.elapsed().as_secs_f64()
    );
    let Some(first) = ran.first else {
        return true;
    };
    let file = format!("{to}/differs-{}-{}-{first}.txt", plan.kind.name, plan.seed);
    let case = plan.kind.case(plan.seed, first);
    let cut = stack::within(stack::CRATE, || {
        shrink(&case, &|case| {
            examine(case, plan.spoil).difference.is_some()
        })
    });
    println!(
        "case {first} of seed {}, cut down from {} faces to {}:",
        plan.seed,
        faces(&case),
        faces(&cut)
    );
    let difference = tell(&cut, plan.spoil).unwrap_or_default();
    let remark: String = difference
        .lines()
        .map(|line| format!("# {line}\n"))
        .collect();
    match std::fs::write(&file, remark + &text::write(&cut)) {
        Ok(()) => println!("written to {file}; to see it again: side_by_side/run --file {file}"),
        Err(why) => println!("not written to {file}: {why}"),
    }
    false
}

/// How many faces a case has.
fn faces(case: &Case) -> usize {
    case.mesh.sizes.len()
}

/// Prints a case and what differs in it; what differs.
fn tell(case: &Case, spoil: Option<Spoil>) -> Option<String> {
    let seen = stack::within(stack::CRATE, || examine(case, spoil));
    print!("{}", text::write(case));
    match (&seen.difference, seen.number) {
        (Some(difference), _) => println!("differs: {difference}"),
        (None, 0) => println!("accepted, and every word is the same"),
        (None, number) => println!("refused with {number}, and every word is the same"),
    }
    seen.difference
}

/// Compares the case of a file.
fn compare_file(file: &str, spoil: Option<Spoil>) -> bool {
    let read = std::fs::read_to_string(file).map_err(|why| why.to_string());
    match read.and_then(|text| text::read(&text)) {
        Ok(case) => tell(&case, spoil).is_none(),
        Err(why) => usage(&format!("{file}: {why}")),
    }
}

/// True if a run with each spoiled word differs, and can be cut down to a case of one or two faces.
fn every_spoil_caught(seed: u64) -> bool {
    let mut missed = vec![];
    for (name, spoil) in SPOILS {
        if !caught(seed, spoil) {
            missed.push(name);
        }
    }
    println!(
        "spoiled words: {} of {} caught and cut down; missed: {missed:?}",
        SPOILS.len() - missed.len(),
        SPOILS.len()
    );
    missed.is_empty()
}

/// True if a case in which the word is spoiled is noticed and can be cut down to two faces.
fn caught(seed: u64, spoil: Spoil) -> bool {
    let differs = |case: &Case| examine(case, Some(spoil)).difference.is_some();
    let cases = ["mesh", "refused", "shuffle"]
        .map(|name| KINDS.iter().find(|kind| kind.name == name).expect("a kind"));
    let cases = (0..500).flat_map(|i| cases.map(|kind| kind.case(seed, i)));
    let mut cases = cases.filter(|case| faces(case) < 100);
    stack::within(stack::CRATE, move || {
        cases
            .find(|case| differs(case))
            .is_some_and(|case| faces(&shrink(&case, &differs)) <= 2)
    })
}
