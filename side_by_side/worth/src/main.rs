//! The proved verdict on every slot beside a plain one in Rust: every byte. See ../README.md.
mod compare;
mod runs;
mod spoils;

use compare::Seen;
use models::options::{Named, meshes, numbers};
use models::random::Random;
use models::worth::verdict;
use std::process::ExitCode;

const USAGE: &str = "usage: worth [--seed N] [--count N] [--gate], or worth meshes FILE..";

/// How many random slots are judged, if no other number is asked for, and in the gate.
const USUAL: u64 = 1_000_000;
const GATE: u64 = 300_000;

/// Random slots and lists of every length; each run prints what it compared.
fn random(seed: u64, count: u64) -> Result<(), String> {
    let (words, slips) = (spoils::words_noticed()?, spoils::slips_noticed(seed)?);
    println!(
        "spoiled words: {words}, each noticed; slips in the plain verdict: {slips}, each noticed"
    );
    let lengths = runs::every_length(&mut Random::of(seed, "lengths", 0))?;
    println!("lists of every length up to five slots: {lengths} calls");
    let (mut seen, mut lists) = (Seen::default(), 0);
    while seen.slots < count {
        runs::random_list(verdict, &mut Random::of(seed, "lists", lists), &mut seen)
            .map_err(|what| format!("seed {seed}, list {lists}: {what}"))?;
        lists += 1;
    }
    println!("random lists: {lists}; {}", seen.said());
    seen.whole()
}

/// The frames of the meshes of some files, judged.
fn judged(files: Vec<Named>) -> Result<(), String> {
    for (name, file) in files {
        let (accepted, seen) = runs::meshes(&file).map_err(|what| format!("{name}: {what}"))?;
        println!("{name}: {accepted} meshes accepted; {}", seen.said());
    }
    Ok(())
}

/// What is asked for.
fn asked() -> Result<(), String> {
    if let Some(files) = meshes() {
        return judged(files?);
    }
    let ([seed, count], gate) = numbers(["--seed", "--count"]).ok_or(USAGE)?;
    let usual = if gate { GATE } else { USUAL };
    random(seed.unwrap_or(1), count.unwrap_or(usual))
}

fn main() -> ExitCode {
    match asked() {
        Ok(()) => ExitCode::SUCCESS,
        Err(what) => {
            println!("worth: {what}");
            ExitCode::FAILURE
        }
    }
}
