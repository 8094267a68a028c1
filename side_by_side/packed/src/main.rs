//! The proved packer of frames and its reader beside plain ones in Rust: every number, every word.
mod bench;
mod compare;
mod ours;
mod patterns;
mod runs;
mod spoils;

use models::random::Random;
use models::{lent, packed as plain, random};
use std::env::args;
use std::process::ExitCode;
use std::time::Instant;

/// What is asked for: a seed, how many random lists, and what is to be run.
struct Asked {
    seed: u64,
    count: u64,
    all: bool,
    bench: bool,
}

/// The words of the command line.
fn asked() -> Result<Asked, String> {
    let mut asked = Asked {
        seed: 1,
        count: 200_000,
        all: false,
        bench: false,
    };
    let mut words = args().skip(1);
    while let Some(word) = words.next() {
        let mut number = || {
            let next = words.next().and_then(|word| word.parse().ok());
            next.ok_or(format!("{word} wants a number"))
        };
        match word.as_str() {
            "--seed" => asked.seed = number()?,
            "--count" => asked.count = number()?,
            "--gate" => asked.count = 20_000,
            "--all" => asked.all = true,
            "--bench" => asked.bench = true,
            _ => {
                return Err(format!(
                    "{word} is not known: --seed N, --count N, --gate, --all, --bench"
                ));
            }
        }
    }
    Ok(asked)
}

/// Every pattern of the first component.
fn all() -> Result<(), String> {
    let start = Instant::now();
    let seen = patterns::compare(1, 0..=u32::MAX)?;
    println!(
        "every pattern of one component: {} patterns, {} absent, {} numbers, {:.0} s",
        seen.patterns,
        seen.absent,
        seen.numbers(),
        start.elapsed().as_secs_f64()
    );
    match seen.numbers() {
        65_535 => Ok(()),
        _ => Err("a number is missing".into()),
    }
}

/// The runs of some seconds; each prints what it compared.
fn run(asked: &Asked) -> Result<(), String> {
    let seed = asked.seed;
    let spoiled = spoils::all_noticed()?;
    println!("spoiled words: {spoiled}, each noticed");
    for at in 1..=6 {
        let seen = patterns::compare(at, patterns::sample().into_iter())?;
        println!(
            "component {at}: {} patterns, {} absent, {} numbers",
            seen.patterns,
            seen.absent,
            seen.numbers()
        );
    }
    let numbers = runs::every_number()?;
    println!("every number at every place of a seven: {numbers} lists");
    let lengths = runs::every_length(&mut Random::of(seed, "lengths", 0))?;
    println!("lists of every length up to five slots: {lengths} calls");
    for case in 0..asked.count {
        runs::random_list(&mut Random::of(seed, "lists", case))
            .map_err(|what| format!("seed {seed}, list {case}: {what}"))?;
    }
    println!("random lists, packed, damaged and read: {}", asked.count);
    Ok(())
}

fn main() -> ExitCode {
    let done = asked().and_then(|asked| match (asked.all, asked.bench) {
        (true, _) => all(),
        (_, true) => {
            bench::bench(&mut Random::of(asked.seed, "bench", 0));
            Ok(())
        }
        _ => run(&asked),
    });
    match done {
        Ok(()) => ExitCode::SUCCESS,
        Err(what) => {
            println!("packed: {what}");
            ExitCode::FAILURE
        }
    }
}
