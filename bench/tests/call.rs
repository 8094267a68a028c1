//! `bench call` on files of its own.
use std::fs;
use std::path::PathBuf;
use std::process::Command;

/// The bits of 1, and of -1.
const ONE: u32 = 0x3F80_0000;
const MINUS_ONE: u32 = 0xBF80_0000;

/// Document 01's sample 1, behind it three faces of no corner (so that the sizes are a word), as an ext file has it.
fn sample() -> Vec<u32> {
    let counts = [4, 9, 9, 6, 36, 512, MINUS_ONE, 3];
    let positions = [0, 0, 0, ONE, 0, 0, 0, ONE, 0];
    let texture = [0, 0, ONE, 0, 0, ONE];
    [&counts[..], &positions, &[0, 0, ONE].repeat(3), &texture].concat()
}

/// The oracle's answer to it: number, place, slots, 36 words, and the hash of a work list that is cleared.
fn answer() -> Vec<u32> {
    let slot = [1, ONE, 0, 0, 0, ONE, 0, ONE, ONE, 1, 1, 1];
    let cleared = (0..512).fold(2_166_136_261u32, |hash, _| hash.wrapping_mul(16_777_619));
    [&[0, 0, 3, 36][..], &slot.repeat(3), &[cleared]].concat()
}

/// Whether our call and the oracle agree on these words.
fn agree(name: &str, meshes: &[u32], answers: &[u32]) -> bool {
    let folder = PathBuf::from(env!("CARGO_TARGET_TMPDIR"));
    let files = [("meshes", meshes), ("answers", answers)].map(|(kind, words)| {
        let file = folder.join(format!("call-{name}-{kind}"));
        let bytes: Vec<u8> = words.iter().flat_map(|word| word.to_le_bytes()).collect();
        fs::write(&file, bytes).unwrap();
        file
    });
    let ran = Command::new(env!("CARGO_BIN_EXE_bench"))
        .arg("call")
        .args(files)
        .output();
    ran.unwrap().status.success()
}

#[test]
fn sample_1_agrees() {
    assert!(agree("right", &sample(), &answer()));
    assert!(!agree("empty", &[], &[]));
}

#[test]
fn any_other_word_does_not_agree() {
    let right = answer();
    for at in (0..right.len()).filter(|at| *at != 3) {
        let mut other = right.clone();
        other[at] ^= 2;
        assert!(!agree("other", &sample(), &other), "word {at}");
    }
}
