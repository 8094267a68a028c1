//! `bench desk` on files of its own.
use std::fs;
use std::path::PathBuf;
use std::process::Command;

/// A mesh of no face, as an ext file has it: counts of faces, of three lists, of answer and work words, and the threshold.
const NO_FACE: [u32; 7] = [0, 0, 0, 0, 0, 0, 0xBF80_0000];
/// The oracle's answer to it: number, place, slots, no answer words, and the hash of no work words.
const ACCEPTED: [u32; 5] = [0, 0, 0, 0, 2_166_136_261];
/// The same mesh refused with 3.
const REFUSED: [u32; 5] = [3, 0, 0, 0, 2_166_136_261];

/// A triangle whose second corner has no normal, behind it three faces of no corner (so that the sizes are a word), and no word lent.
fn bare() -> Vec<u32> {
    const NORMALS: [u32; 9] = [0, 0, 1 << 30, 0, 1 << 31, 1, 0, 0x0080_0000, 0x0080_0001];
    let counts = [4, 9, 9, 6, 0, 0, 0xBF80_0000, 3];
    [&counts[..], &[0; 9], &NORMALS, &[0; 6]].concat()
}

/// The oracle's answer with this number and place, of no words.
fn told(number: u32, place: u32) -> [u32; 5] {
    [number, place, 0, 0, 2_166_136_261]
}

/// Whether the desk and the oracle agree on these words.
fn agree(name: &str, meshes: &[u32], answers: &[u32]) -> bool {
    let folder = PathBuf::from(env!("CARGO_TARGET_TMPDIR"));
    let files = [("meshes", meshes), ("answers", answers)].map(|(kind, words)| {
        let file = folder.join(format!("{name}-{kind}"));
        let bytes: Vec<u8> = words.iter().flat_map(|word| word.to_le_bytes()).collect();
        fs::write(&file, bytes).unwrap();
        file
    });
    let ran = Command::new(env!("CARGO_BIN_EXE_bench"))
        .arg("desk")
        .args(files)
        .output();
    ran.unwrap().status.success()
}

#[test]
fn empty_and_uneven_files_do_not_agree() {
    assert!(agree("right", &NO_FACE, &ACCEPTED));
    assert!(!agree("empty", &[], &[]));
    assert!(!agree("wrong", &NO_FACE, &REFUSED));
    assert!(!agree("no answer", &NO_FACE, &[]));
    assert!(!agree("no mesh", &[], &ACCEPTED));
    assert!(!agree("one more", &NO_FACE, &[ACCEPTED, ACCEPTED].concat()));
}

#[test]
fn an_absent_normal_is_told_with_its_place_and_before_short_lists() {
    assert!(agree("bare", &bare(), &told(7, 1)));
    assert!(!agree("bare, another place", &bare(), &told(7, 0)));
    assert!(!agree("bare, the answer list first", &bare(), &told(5, 0)));
    assert!(!agree("bare, another number", &bare(), &told(4, 1)));
}
