//! Times of three on one mesh, all of one run.
use crate::mesh::{Mesh, SLOT_WORDS};
use crate::ops::Document;
use crate::ours;
use crate::shapes::Shape;
use crate::theirs::{Asked, CRATE_WORDS};
use bevy_mikktspace::{Ops, StdOps};
use std::time::Instant;

/// The three that are measured, and short names of them.
pub const NAMES: [(&str, &str); 3] = [
    (
        "the crate with document 01's root and angle",
        "crate-document",
    ),
    ("the crate with the processor's", "crate-processor"),
    ("ours", "ours"),
];

/// The thresholds that are measured.
pub const THRESHOLDS: [f32; 2] = [-1.0, 0.5];

/// The best and the median of some runs, in milliseconds.
#[derive(Clone, Copy)]
pub struct Time {
    pub best: f64,
    pub median: f64,
}

/// The times on one mesh.
pub struct Measured {
    pub shape: Shape,
    pub threshold: f32,
    pub faces: usize,
    pub runs: usize,
    /// In the order of the names; none of the crate where it is not measured.
    pub times: [Option<Time>; 3],
}

/// A mesh that is measured, the lists that are lent, and the times so far.
pub struct Course {
    shape: Shape,
    mesh: Mesh,
    /// Whether the crate is measured too.
    both: bool,
    answers: [Vec<u32>; 3],
    work: Vec<u32>,
    rounds: Vec<[Option<f64>; 3]>,
}

impl Course {
    /// A shape in so many faces, run once without counting: ours has to give the words that the crate gives.
    pub fn new(shape: Shape, threshold: f32, faces: usize) -> Course {
        let mesh = shape.mesh(faces, threshold);
        let mut course = Course {
            shape,
            both: faces <= shape.measured_to()[1],
            answers: [0; 3].map(|_| vec![0; mesh.answer]),
            work: vec![0; mesh.work],
            rounds: vec![],
            mesh,
        };
        course.round();
        let [document, _, own] = &course.answers;
        assert!(
            !course.both || given(document).eq(given(own)),
            "ours differs from the crate"
        );
        course
    }

    /// How many faces there are.
    pub fn faces(&self) -> usize {
        self.mesh.sizes.len()
    }

    /// Measures so many rounds more.
    pub fn run(&mut self, rounds: usize) {
        for _ in 0..rounds {
            let times = self.round();
            self.rounds.push(times);
        }
    }

    /// One run of each, one after the other, so that what else the machine does falls on all of them; in milliseconds.
    fn round(&mut self) -> [Option<f64>; 3] {
        let (mesh, work) = (&self.mesh, &mut self.work);
        let [document, processor, own] = &mut self.answers;
        [
            self.both.then(|| timed_crate::<Document>(mesh, document)),
            self.both.then(|| timed_crate::<StdOps>(mesh, processor)),
            Some(timed(|| {
                assert!(ours::call(mesh, own, work).number == 0, "ours refuses")
            })),
        ]
    }

    /// The times of all rounds.
    pub fn measured(&self) -> Measured {
        let of = |who: usize| self.rounds.iter().filter_map(|round| round[who]).collect();
        Measured {
            shape: self.shape,
            threshold: f32::from_bits(self.mesh.threshold),
            faces: self.faces(),
            runs: self.rounds.len(),
            times: [0, 1, 2].map(|who| summary(of(who))),
        }
    }
}

/// The words of an answer that the crate gives.
fn given(answer: &[u32]) -> impl Iterator<Item = &[u32]> {
    answer
        .chunks_exact(SLOT_WORDS)
        .map(|slot| &slot[..CRATE_WORDS])
}

/// The time that the crate takes.
fn timed_crate<O: Ops>(mesh: &Mesh, answer: &mut [u32]) -> f64 {
    let mut asked = Asked::new(mesh, answer);
    timed(|| asked.fill::<O>())
}

/// The time that something takes, in milliseconds.
fn timed(run: impl FnOnce()) -> f64 {
    let start = Instant::now();
    run();
    start.elapsed().as_secs_f64() * 1e3
}

/// The best and the median, if there was a run.
fn summary(mut times: Vec<f64>) -> Option<Time> {
    times.sort_by(f64::total_cmp);
    Some(Time {
        best: *times.first()?,
        median: times[times.len() / 2],
    })
}

impl Measured {
    /// How many times as long as another ours took, best against best.
    pub fn ratio(&self, other: usize) -> Option<f64> {
        Some(self.times[2]?.best / self.times[other]?.best)
    }
}
