//! Times of islands beside one call, all of one run: `cargo run --release --example islands [ROUNDS]` prints a table.
use dokphalun::{Buffers, Mesh};
use models::{Corner, Faces};
use std::num::NonZeroUsize;
use std::time::Instant;

/// How many faces each mesh has.
const FACES: usize = 65_536;

/// How many islands the shell has.
const PARTS: usize = 64;

/// A corner of a gently bulging sheet that starts so far to the right.
fn corner(left: usize, place: [usize; 2]) -> Corner {
    let [x, y] = place.map(|k| k as f32 / 256.0);
    let height = 0.1 * (3.0 * x).sin() * (2.0 * y).cos();
    let position = [x + 2.0 * left as f32, y, height];
    (position, [0.0, 0.0, 1.0], [x, y])
}

/// Adds a sheet of so many by so many quads.
fn sheet(faces: &mut Faces, left: usize, side: usize) {
    for i in 0..side * side {
        let [x, y] = [i % side, i / side];
        let quad = [[x, y], [x + 1, y], [x + 1, y + 1], [x, y + 1]];
        faces.push(&quad.map(|place| corner(left, place)));
    }
}

/// The meshes that are measured, by name.
fn meshes() -> [(&'static str, Faces); 3] {
    let (mut one, mut shell) = (Faces::default(), Faces::default());
    sheet(&mut one, 0, FACES.isqrt());
    (0..PARTS).for_each(|part| sheet(&mut shell, part, (FACES / PARTS).isqrt()));
    let triangle = |left| [[0, 0], [1, 0], [0, 1]].map(|place| corner(left, place));
    [
        ("one sheet", one),
        ("a shell of 64 sheets", shell),
        ("triangles apart", Faces::of((0..FACES).map(triangle))),
    ]
}

/// The time that something takes, in milliseconds.
fn timed(run: impl FnOnce()) -> f64 {
    let start = Instant::now();
    run();
    start.elapsed().as_secs_f64() * 1e3
}

/// So many threads.
fn threads(count: usize) -> NonZeroUsize {
    NonZeroUsize::new(count).expect("at least one")
}

/// One call, labels, one island at a time, one thread and two: each once.
fn round(mesh: Mesh, buffers: &mut Buffers) -> [f64; 5] {
    const WHY: &str = "it is refused";
    [
        timed(|| _ = buffers.frames(mesh, -1.0).expect(WHY)),
        timed(|| _ = buffers.islands(mesh).expect(WHY)),
        timed(|| _ = buffers.frames_by_islands(mesh, -1.0).expect(WHY)),
        timed(|| _ = buffers.frames_on(mesh, -1.0, threads(1)).expect(WHY)),
        timed(|| _ = buffers.frames_on(mesh, -1.0, threads(2)).expect(WHY)),
    ]
}

fn main() {
    let rounds = std::env::args()
        .nth(1)
        .map_or(9, |word| word.parse().expect("rounds"));
    println!(
        "| {FACES} faces | islands | one call | labels | by islands | on 1 thread | on 2 | by islands to one call | 2 threads to 1 |"
    );
    println!("|---|---|---|---|---|---|---|---|---|");
    for (name, faces) in meshes() {
        let (mesh, mut buffers) = (faces.mesh(), Buffers::new());
        round(mesh, &mut buffers);
        let all: Vec<[f64; 5]> = (0..rounds).map(|_| round(mesh, &mut buffers)).collect();
        let best =
            [0, 1, 2, 3, 4].map(|i| all.iter().map(|times| times[i]).fold(f64::MAX, f64::min));
        let islands = buffers.islands(mesh).expect("it is refused").count();
        let times = best.map(|time| format!("{time:.1}")).join(" | ");
        println!(
            "| {name} | {islands} | {times} | {:.2} | {:.2} |",
            best[2] / best[0],
            best[4] / best[3]
        );
    }
}
