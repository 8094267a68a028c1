//! The call for frames beside the oracle: what it says, every word of the answer list, and the work list by its hash.
use dokphalun_sys::SLOT_WORDS;
use models::oracle::{Answer, Call, Words, hash};
use std::fs::read;

/// What our call leaves.
fn called(call: &Call) -> Answer {
    let (said, words, work) = call.framed();
    Answer {
        number: said.number,
        place: said.place,
        slots: said.slots,
        words,
        hash: hash(&work),
    }
}

/// Compares our call with the oracle's answers (OUT) on the meshes of an ext file; prints how many slots came from where.
pub fn check(meshes: &str, answers: &str) -> bool {
    let (meshes, answers) = (
        read(meshes).expect("the meshes"),
        read(answers).expect("the answers"),
    );
    let (mut meshes, mut answers) = (Words(&meshes), Words(&answers));
    let (mut compared, mut differed, mut origins) = (0, 0, [0u64; 5]);
    while !meshes.0.is_empty() {
        let (call, theirs) = (meshes.call(), answers.answer());
        let ours = called(&call);
        if ours != theirs {
            if differed == 0 {
                println!("ours {ours:X?}, the oracle {theirs:X?}");
            }
            differed += 1;
        }
        compared += 1;
        let slots = theirs.words.chunks_exact(SLOT_WORDS);
        for slot in slots.take(theirs.slots as usize) {
            origins[slot[10] as usize % 5] += 1;
        }
    }
    println!(
        "frames against the oracle: {compared} compared, {differed} differed; slots absent, single, combined, copied in either way: {origins:?}"
    );
    if compared == 0 {
        println!("there is no mesh in the file: nothing was compared");
    }
    differed == 0 && compared > 0 && answers.0.is_empty()
}
