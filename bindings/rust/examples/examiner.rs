//! Times of the examiner beside one call for frames, all of one run: `cargo run --release --example examiner [ROUNDS]` prints a table.
use dokphalun::{Buffers, Mesh};
use models::Faces;
use models::shapes::{book, deepest, fan, sheet};
use std::time::Instant;

/// A shape of so many faces.
type Shape = fn(usize) -> Faces;

/// The shapes, by name.
const SHAPES: [(&str, Shape); 5] = [
    ("sheet", sheet),
    ("fan", fan),
    ("book, all one way", |count| book(count, false)),
    ("book, both ways", |count| book(count, true)),
    ("the deepest walk", deepest),
];

/// How many faces the meshes have.
const SIZES: [usize; 2] = [4096, 65_536];

/// The time that something takes, in milliseconds.
fn timed(run: impl FnOnce()) -> f64 {
    let start = Instant::now();
    run();
    start.elapsed().as_secs_f64() * 1e3
}

/// One call for frames, one for our own lists, and their examination: each once.
fn round(mesh: Mesh, buffers: &mut Buffers) -> [f64; 3] {
    let own = buffers.links(mesh).expect("it is refused");
    [
        timed(|| _ = buffers.frames(mesh, -1.0).expect("it is refused")),
        timed(|| _ = buffers.links(mesh).expect("it is refused")),
        timed(|| buffers.examine(mesh, own.lists()).expect("an objection")),
    ]
}

fn main() {
    let rounds = std::env::args().nth(1);
    let rounds: usize = rounds.map_or(9, |word| word.parse().expect("rounds"));
    println!(
        "| mesh | faces | one call | own lists | examined | examined to one call | times that at 4,096 |"
    );
    println!("|---|---|---|---|---|---|---|");
    for (name, make) in SHAPES {
        let mut before = None;
        for count in SIZES {
            let (faces, mut buffers) = (make(count), Buffers::new());
            let all: Vec<[f64; 3]> = (0..rounds)
                .map(|_| round(faces.mesh(), &mut buffers))
                .collect();
            let best = [0, 1, 2].map(|i| all.iter().map(|times| times[i]).fold(f64::MAX, f64::min));
            let grown = best[2] / *before.get_or_insert(best[2]);
            let times = best.map(|time| format!("{time:.2}")).join(" | ");
            println!(
                "| {name} | {count} | {times} | {:.2} | {grown:.1} |",
                best[2] / best[0]
            );
        }
    }
}
