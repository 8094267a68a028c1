//! Archives of other editions are refused at once, by every call, and one that cannot be asked does not link.
use dokphalun_sys::{reason, verdict};
use std::fs;
use std::path::{Path, PathBuf};
use std::process::{Command, Output};

/// Every call; each ends the program in such an archive.
const CALLS: [&str; 18] = [
    "frames",
    "reasons",
    "judge",
    "part",
    "labels",
    "frames_by_islands",
    "examine",
    "links",
    "card_write",
    "card_read",
    "card_next",
    "card_append",
    "old_card_write",
    "old_card_read",
    "old_card_next",
    "old_card_append",
    "pack",
    "unpack",
];

/// An archive that says these numbers of itself, where there are any, in a folder of its own.
fn archive(name: &str, numbers: Option<[u32; 2]>) -> PathBuf {
    let folder = Path::new(env!("CARGO_TARGET_TMPDIR")).join(name);
    fs::create_dir_all(&folder).unwrap();
    let mut text = String::from("#include <stdlib.h>\n");
    for call in CALLS {
        text += &format!("void dokphalun_{call}(void) {{ abort(); }}\n");
    }
    for (said, number) in ["interface", "slot_words"]
        .iter()
        .zip(numbers.iter().flatten())
    {
        text += &format!("unsigned dokphalun_{said}(void) {{ return {number}; }}\n");
    }
    let [source, object, archive] =
        ["fake.c", "fake.o", "libdokphalun.a"].map(|file| folder.join(file));
    fs::write(&source, text).unwrap();
    let _ = fs::remove_file(&archive);
    done(
        Command::new("cc")
            .arg("-c")
            .arg(&source)
            .arg("-o")
            .arg(&object),
    );
    done(Command::new("ar").arg("crs").arg(&archive).arg(&object));
    folder
}

/// Runs a program that has to end well.
fn done(command: &mut Command) {
    let output = command
        .output()
        .expect("no C compiler `cc`, or no `ar`, here");
    assert!(output.status.success(), "{output:?}");
}

/// Builds examples/every_call.rs with an archive, and runs it.
fn every_call(archive: &Path) -> Output {
    Command::new(env!("CARGO"))
        .args(["run", "--quiet", "--offline", "--example", "every_call"])
        .arg("--manifest-path")
        .arg(Path::new(env!("CARGO_MANIFEST_DIR")).join("Cargo.toml"))
        .arg("--target-dir")
        .arg(Path::new(env!("CARGO_TARGET_TMPDIR")).join("other_archive"))
        .env("DOKPHALUN_ARCHIVE", archive)
        .output()
        .expect("no cargo")
}

/// What it printed and what it said of errors.
fn texts(output: &Output) -> [String; 2] {
    [&output.stdout, &output.stderr].map(|bytes| String::from_utf8_lossy(bytes).into_owned())
}

#[test]
fn other_editions_are_refused_by_every_call() {
    for (name, numbers, said) in [
        (
            "edition",
            [2, 12],
            "its interface is edition 2, theirs 3; its slots are 12 words, theirs 12",
        ),
        (
            "slot",
            [3, 10],
            "its interface is edition 3, theirs 3; its slots are 10 words, theirs 12",
        ),
    ] {
        let [printed, errors] = texts(&every_call(&archive(name, Some(numbers))));
        assert_eq!(printed, "18 of 18 refused\n", "{errors}");
        assert_eq!(errors.matches(said).count(), 18, "{errors}");
    }
    // one that says the right numbers is called, and a signal ends the program
    let right = every_call(&archive("right", Some([3, 12])));
    assert_eq!(right.status.code(), None, "{right:?}");
    // one that says nothing does not link
    let [_, errors] = texts(&every_call(&archive("mute", None)));
    assert!(
        errors.contains("undefined") && errors.contains("dokphalun_interface"),
        "{errors}"
    );
}

#[test]
fn the_header_and_the_archive_say_what_is_declared() {
    let header = Path::new(env!("CARGO_MANIFEST_DIR")).join("../../include/dokphalun.h");
    let header = fs::read_to_string(header).unwrap();
    for (name, number) in [
        ("INTERFACE", dokphalun_sys::INTERFACE as usize),
        ("SLOT_WORDS", dokphalun_sys::SLOT_WORDS),
        ("OLD_SLOT_WORDS", dokphalun_sys::OLD_SLOT_WORDS),
        ("BLOCK_BYTES", dokphalun_sys::BLOCK_BYTES),
        ("BLOCK_RECORDS", dokphalun_sys::BLOCK_RECORDS),
        ("OLD_BLOCK_RECORDS", dokphalun_sys::OLD_BLOCK_RECORDS),
        ("MOST_FACES", dokphalun_sys::MOST_FACES),
        ("WORK_WORDS", dokphalun_sys::WORK_WORDS),
        ("ORDER_WORDS", dokphalun_sys::ISLAND_ENTRIES[1]),
        ("OWN_NUMBERS", dokphalun_sys::ISLAND_ENTRIES[3]),
        ("OWN_FRAME_WORDS", dokphalun_sys::ISLAND_ENTRIES[4]),
        ("LINK_WORDS", dokphalun_sys::LINK_ENTRIES[0]),
        ("ORIENTATION_WORDS", dokphalun_sys::LINK_ENTRIES[2]),
    ] {
        let line = format!("#define DOKPHALUN_{name} {number}\n");
        assert!(header.contains(&line), "{line}");
    }
    for (name, number) in [
        ("JUDGED_ABSENT", verdict::ABSENT),
        ("JUDGED_GOOD", verdict::GOOD),
        ("JUDGED_LOST", verdict::LOST),
        ("JUDGED_BLANK", verdict::BLANK),
        ("JUDGED_LONG", verdict::LONG),
        ("JUDGED_SHORT", verdict::SHORT),
        ("NO_REASON", reason::NONE),
        ("UNWELDED", reason::UNWELDED),
        ("COPIES_ABSENT", reason::COPIES_ABSENT),
        ("UNREACHED", reason::UNREACHED),
    ] {
        let line = format!("    DOKPHALUN_{name} = {number}");
        let ends = [',', ' '].map(|end| format!("{line}{end}"));
        assert!(ends.iter().any(|line| header.contains(line)), "{line}");
    }
    assert_eq!(dokphalun_sys::archive(), Ok(()));
}
