//! Random meshes and records: Rust's types, the C header's and the archive's words agree in every field of every call.
mod by_rust;
mod by_words;
mod case;
#[path = "../cc/mod.rs"]
mod cc;
mod lines;

use case::Case;
use cc::{compiled, root};
use dokphalun::Buffers;
use lines::Lines;
use models::random::Random;
use std::fs::{self, File};
use std::path::{Path, PathBuf};
use std::process::Command;

/// How many cases.
const CASES: u64 = 400;

/// Starts of lines that have to come about.
const CAME_ABOUT: [&str; 28] = [
    "present ",
    "absent\n",
    "lost\n",
    "blank ",
    "long ",
    "short ",
    "reasons 0 ",
    "reasons 3 ",
    "reasons 4 ",
    "reasons 7 ",
    "why 1 1 1",
    "judge 0 0 0\n",
    "judge 0 2 2\n",
    "part 2 6 8\n",
    "frames 3 ",
    "frames 4 ",
    "frames 7 ",
    "by islands 7 ",
    "labels 7 ",
    "links 7 ",
    "examine 0 3 ",
    "examine 0 7 ",
    "examine 0 9 ",
    "next 3 ",
    "old next 3 ",
    "either 0 0 10\n",
    "either 1 0 12\n",
    "unpack 3 ",
];

/// The C program that makes every call.
fn source() -> PathBuf {
    root().join("bindings/rust/tests/agree/every_call.c")
}

/// What the C program says of these cases.
fn by_c(cases: &[Case]) -> String {
    let input = Path::new(env!("CARGO_TARGET_TMPDIR")).join("cases");
    let words = cases.iter().flat_map(Case::input);
    let bytes: Vec<u8> = words.flat_map(u32::to_ne_bytes).collect();
    fs::write(&input, bytes).unwrap();
    let program = compiled(&source(), "every_call");
    let said = Command::new(program)
        .stdin(File::open(input).unwrap())
        .output();
    let said = said.unwrap();
    assert!(said.status.success());
    String::from_utf8(said.stdout).unwrap()
}

/// Sees that two say the same, line by line.
fn same(names: [&str; 2], a: &str, b: &str) {
    let lines = a.lines().zip(b.lines()).enumerate();
    for (i, (x, y)) in lines {
        let [first, second] = names;
        assert!(x == y, "line {i}\n{first}: {x}\n{second}: {y}");
    }
    assert_eq!(a.lines().count(), b.lines().count(), "{names:?}");
}

#[test]
fn rust_c_and_the_archive_s_words_agree_in_every_field() {
    let case = |case| Case::of(&mut Random::of(1, "agree", case));
    let cases: Vec<Case> = (0..CASES).map(case).collect();
    let (mut words, mut rust) = (Lines::default(), Lines::default());
    words.said(
        "archive",
        dokphalun_sys::INTERFACE,
        dokphalun_sys::SLOT_WORDS,
        0,
    );
    rust.said("archive", 3, 12, 0);
    let mut buffers = Buffers::new();
    for case in &cases {
        by_words::case(case, &mut words);
        by_rust::case(case, &mut buffers, &mut rust);
    }
    same(["words", "Rust"], &words.0, &rust.0);
    same(["words", "C"], &words.0, &by_c(&cases));
    for line in CAME_ABOUT {
        assert!(words.0.contains(&format!("\n{line}")), "no line {line}");
    }
    let why = words.0.lines().filter(|line| line.starts_with("why "));
    let given: String = why.map(|line| &line[4..]).collect();
    assert!(['0', '1', '2', '3'].iter().all(|&one| given.contains(one)));
}

#[test]
fn the_c_program_makes_every_call_of_the_header() {
    let header = fs::read_to_string(root().join("include/dokphalun.h")).unwrap();
    let program = fs::read_to_string(source()).unwrap();
    let declared = header
        .lines()
        .filter(|line| line.starts_with("DOKPHALUN_ASK "));
    let mut count = 0;
    for line in declared {
        let words = line.split(['(', ' ']);
        let name = words
            .clone()
            .find(|word| word.starts_with("dokphalun_") && line.contains(&format!("{word}(")));
        let name = name.expect("a call has a name");
        assert!(
            program.contains(&format!("{name}(")),
            "{name} is not called"
        );
        count += 1;
    }
    assert_eq!(count, 24, "the header's calls");
}
