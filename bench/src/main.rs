//! The root, the angle, the desk, the whole call and the two walks of step 6 of the proved archive, beside the processor's, plain ones and the oracle's.
//!
//! `bench check STEP` compares every STEP-th of the 2^32 patterns (and every 16th of those with a table of its own for each
//! angle, which is slow) and prints how many differed (exit status 1 if any);
//! `bench desk MESHES ANSWERS` compares the desk with the oracle's answers (tools/desk makes both files);
//! `bench call MESHES ANSWERS` compares every word that the call for frames leaves with the oracle's (tools/beside makes both files);
//! `bench walks COUNT` compares the two walks of step 6 on random tables;
//! `bench distance STEP` prints how far the angle is from the arc cosine, before and after request E3, over every STEP-th cosine;
//! `bench time` prints nanoseconds a call and the ratio to the processor's, all measured in one run.
mod call;
mod desk;
mod distance;
mod walks;

use dokphalun_sys::exports::{acos, acos_all, sqrt};
use models::leaves as plain;
use models::random::Random;
use std::hint::black_box;
use std::time::Instant;

/// The bits of a number, and any NaN as 7FC00000.
fn word(x: f32) -> u32 {
    if x.is_nan() { 0x7FC0_0000 } else { x.to_bits() }
}

/// How many of every `step`-th pattern give another word by `ours` than by `other`; the first is printed.
fn differing(name: &str, step: u64, ours: fn(f32) -> f32, other: fn(f32) -> f32) -> u64 {
    let (mut compared, mut differed) = (0u64, 0u64);
    let mut pattern = 0u64;
    while pattern < 1 << 32 {
        let x = f32::from_bits(pattern as u32);
        let (a, b) = (word(ours(x)), word(other(x)));
        if a != b {
            if differed == 0 {
                println!("{name} of {pattern:08X}: {a:08X}, expected {b:08X}");
            }
            differed += 1;
        }
        compared += 1;
        pattern += step;
    }
    println!("{name}: {compared} compared, {differed} differed");
    differed
}

/// The same of the angles that are taken with one table, a million at a time.
fn differing_all(step: u64) -> u64 {
    let (mut compared, mut differed) = (0u64, 0u64);
    let mut patterns = (0..1u64 << 32).step_by(step as usize);
    loop {
        let xs: Vec<f32> = patterns
            .by_ref()
            .take(1 << 20)
            .map(|pattern| f32::from_bits(pattern as u32))
            .collect();
        if xs.is_empty() {
            break;
        }
        let mut out = vec![0f32; xs.len()];
        acos_all(&xs, &mut out);
        compared += xs.len() as u64;
        differed += xs
            .iter()
            .zip(&out)
            .filter(|&(&x, &y)| word(y) != word(plain::angle(x)))
            .count() as u64;
    }
    println!(
        "angles with one table against the plain one: {compared} compared, {differed} differed"
    );
    differed
}

fn check(step: u64) -> bool {
    let roots = differing("root against the processor's", step, sqrt, f32::sqrt);
    let angles = differing(
        "angle against the plain one",
        step * 16 + 1,
        acos,
        plain::angle,
    );
    roots + angles + differing_all(step) == 0
}

/// The least time of seven runs, in nanoseconds a call: calls that do not wait for one another, and calls that do.
fn cost(xs: &[f32], f: extern "C" fn(f32) -> f32) -> (f64, f64) {
    let (mut apart, mut chained) = (f64::MAX, f64::MAX);
    let mut out = vec![0f32; xs.len()];
    for _ in 0..7 {
        let start = Instant::now();
        for _ in 0..50 {
            for (o, &x) in out.iter_mut().zip(xs) {
                *o = f(x);
            }
            black_box(&mut out);
        }
        apart = apart.min(start.elapsed().as_secs_f64());
        let start = Instant::now();
        let mut last = 0f32;
        for _ in 0..50 {
            for &x in xs {
                last = f(x + last * 0.0);
            }
        }
        black_box(last);
        chained = chained.min(start.elapsed().as_secs_f64());
    }
    let calls = 50.0 * xs.len() as f64 * 1e-9;
    (apart / calls, chained / calls)
}

#[inline(never)]
extern "C" fn processors_root(x: f32) -> f32 {
    x.sqrt()
}

#[inline(never)]
extern "C" fn isqrt_root(x: f32) -> f32 {
    plain::root(x)
}

#[inline(never)]
extern "C" fn processors_angle(x: f32) -> f32 {
    x.acos()
}

#[inline(never)]
extern "C" fn plain_angle(x: f32) -> f32 {
    plain::angle(x)
}

extern "C" fn our_root(x: f32) -> f32 {
    sqrt(x)
}

extern "C" fn our_angle(x: f32) -> f32 {
    acos(x)
}

/// The least time of seven runs of the angles with one table, in nanoseconds an angle.
fn cost_all(xs: &[f32]) -> f64 {
    let mut best = f64::MAX;
    let mut out = vec![0f32; xs.len()];
    for _ in 0..7 {
        let start = Instant::now();
        for _ in 0..50 {
            acos_all(xs, &mut out);
            black_box(&mut out);
        }
        best = best.min(start.elapsed().as_secs_f64());
    }
    best / (50.0 * xs.len() as f64 * 1e-9)
}

/// One row a function; the first is what the others are compared with.
fn report(xs: &[f32], rows: &[Row]) {
    let costs: Vec<(f64, f64)> = rows.iter().map(|(_, f)| cost(xs, *f)).collect();
    for ((name, _), (apart, chained)) in rows.iter().zip(&costs) {
        println!(
            "{name:34} {apart:6.2} ns a call ({:5.2} times), {chained:6.2} ns where each call waits for the last ({:5.2} times)",
            apart / costs[0].0,
            chained / costs[0].1
        );
    }
}

/// A function that is timed, by name.
type Row = (&'static str, extern "C" fn(f32) -> f32);

/// The roots, and the angles.
const ROOTS: [Row; 3] = [
    ("the processor's root", processors_root),
    ("the root of the archive", our_root),
    ("the root by u64::isqrt", isqrt_root),
];
const ANGLES: [Row; 3] = [
    ("f32::acos of the Rust library", processors_angle),
    ("the angle of the archive, alone", our_angle),
    ("the angle by halving, plain Rust", plain_angle),
];

/// Prints the times of roots and angles.
fn time() {
    let mut random = Random::of(1, "time", 0);
    let mut next = || random.word() >> 8;
    let roots = [0; 4096].map(|_| f32::from_bits(0x3000_0000 + next() * 24));
    let cosines = [0; 4096].map(|_| next() as f32 / 8_388_608.0 - 1.0);
    report(&roots, &ROOTS);
    report(&cosines, &ANGLES);
    let (narrow, wide): (Vec<f32>, Vec<f32>) = cosines.iter().partition(|x| x.abs() > 0.5);
    for (name, xs) in [
        ("many with one table", &cosines[..]),
        (".. of cosines up to 1/2 in size", &wide),
        (".. of cosines above 1/2 in size", &narrow),
    ] {
        println!("{name:34} {:6.2} ns an angle", cost_all(xs));
    }
}

fn main() {
    let words: Vec<String> = std::env::args().skip(1).collect();
    let given: Vec<&str> = words.iter().map(String::as_str).collect();
    let right = match given.as_slice() {
        ["check", step] => check(step.parse().expect("STEP is a number above 0")),
        ["desk", meshes, answers] => desk::check(meshes, answers),
        ["call", meshes, answers] => call::check(meshes, answers),
        ["walks", count] => walks::compare(count.parse().expect("COUNT is a number")) == 0,
        ["distance", step] => {
            distance::report(step.parse().expect("STEP is a number above 0"));
            true
        }
        ["time"] => {
            time();
            true
        }
        _ => {
            eprintln!(
                "usage: bench check STEP | bench desk MESHES ANSWERS | bench call MESHES ANSWERS | bench walks COUNT | bench distance STEP | bench time"
            );
            std::process::exit(2);
        }
    };
    std::process::exit(i32::from(!right));
}
