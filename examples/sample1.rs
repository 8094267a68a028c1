//! Document 01's sample 1 through the archive: one triangle, and its three slots of twelve words.
//!
//!     (cd crates/dokphalun && rt lib)
//!     rustc -O examples/sample1.rs -L crates/dokphalun/out -l static=dokphalun -o target/sample1
//!     target/sample1
//!
//! (`rt lib` writes an archive for x86-64.)

/// The words of a slot.
const SLOT_WORDS: usize = 12;

/// What the call says: the number of a refusal and its place, or 0 and 0; and how many slots were written.
#[repr(C)]
struct Outcome {
    number: u32,
    place: u32,
    slots: u32,
}

// declared here and not taken from `dokphalun-sys`: this file and the archive are all that it takes
// a list passes as a pointer and a number of elements
#[rustfmt::skip]
unsafe extern "C" {
    fn dokphalun_frames(
        sizes: *const u8, faces: usize,
        positions: *const f32, position_numbers: usize,
        normals: *const f32, normal_numbers: usize,
        texture: *const f32, texture_numbers: usize,
        threshold: f32,
        answer: *mut u32, answer_words: usize,
        work: *mut u32, work_words: usize,
    ) -> Outcome;
}

/// The call, with Rust's own lists.
fn frames(
    sizes: &[u8],
    positions: &[f32],
    normals: &[f32],
    texture: &[f32],
    threshold: f32,
    answer: &mut [u32],
    work: &mut [u32],
) -> Outcome {
    // each list is handed over with its own length, and the two that are altered are borrowed for that
    unsafe {
        dokphalun_frames(
            sizes.as_ptr(),
            sizes.len(),
            positions.as_ptr(),
            positions.len(),
            normals.as_ptr(),
            normals.len(),
            texture.as_ptr(),
            texture.len(),
            threshold,
            answer.as_mut_ptr(),
            answer.len(),
            work.as_mut_ptr(),
            work.len(),
        )
    }
}

fn main() {
    let sizes = [3];
    let positions = [0.0, 0.0, 0.0, 1.0, 0.0, 0.0, 0.0, 1.0, 0.0];
    let normals = [0.0, 0.0, 1.0, 0.0, 0.0, 1.0, 0.0, 0.0, 1.0];
    let texture = [0.0, 0.0, 1.0, 0.0, 0.0, 1.0];
    let (mut answer, mut work) = ([7; 3 * SLOT_WORDS], [7; 128]);
    let r = frames(&sizes, &positions, &normals, &texture, -1.0, &mut answer, &mut work);
    println!("number {} place {} slots {}", r.number, r.place, r.slots);
    for slot in answer.chunks(SLOT_WORDS) {
        let words: Vec<String> = slot.iter().map(|w| format!("{w:08X}")).collect();
        println!("{}", words.join(" "));
    }
    println!("work list cleared: {}", work.iter().all(|&w| w == 0));
}
