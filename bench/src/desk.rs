//! The proved desk beside the oracle: the verdict on every mesh of a file, number and place.
use dokphalun_sys::exports::judge;
use models::oracle::{Answer, Call, Words, hash};
use std::fs::read;

/// Whether the oracle altered a list or counted a slot.
fn altered(call: &Call, answer: &Answer) -> bool {
    answer.slots != 0
        || answer.words != call.fresh_answer()
        || answer.hash != hash(&call.fresh_work())
}

/// The desk's number and place.
fn judged(call: &Call) -> (u32, u32) {
    let threshold = f32::from_bits(call.threshold);
    call.with_mesh(|mesh| judge(mesh, threshold, call.answer, call.work))
}

/// Compares the desk with the oracle's answers (OUT) on the meshes of an ext file, and that a refusal altered neither list.
pub fn check(meshes: &str, answers: &str) -> bool {
    let (meshes, answers) = (
        read(meshes).expect("the meshes"),
        read(answers).expect("the answers"),
    );
    let (mut meshes, mut answers) = (Words(&meshes), Words(&answers));
    let (mut numbers, mut differed) = ([0u32; 8], 0);
    while !meshes.0.is_empty() {
        let call = meshes.call();
        let answer = answers.answer();
        let (ours, theirs) = (judged(&call), (answer.number, answer.place));
        let altered = answer.number != 0 && altered(&call, &answer);
        if ours != theirs || altered {
            if differed == 0 {
                println!("the desk says {ours:?}, the oracle {theirs:?}; altered: {altered}");
            }
            differed += 1;
        }
        numbers[ours.0 as usize % 8] += 1;
    }
    println!(
        "desk against the oracle: accepted, refused with 1 to 7: {numbers:?}; {differed} differed"
    );
    if numbers == [0; 8] {
        println!("there is no mesh in the file: nothing was compared");
    }
    differed == 0 && answers.0.is_empty() && numbers != [0; 8]
}
