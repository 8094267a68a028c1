//! The proved writers, readers and appenders of both kinds of cards beside plain ones in Rust: every byte, every word.
mod bench;
mod compare;
mod damage;
mod ours;
mod plain;
mod runs;
mod spoils;
mod walks;
mod writer;

use models::random::Random;
use models::{lent, random};
use plain::{KINDS, Kind};
use std::env::{args, temp_dir};
use std::fs;
use std::iter::Sum;
use std::path::{Path, PathBuf};
use std::process::{ExitCode, id};
use walks::Tally;

/// What is asked for.
enum Asked {
    /// All runs, from a seed: so many random cards, and so many walks.
    Runs { seed: u64, cards: u64, walks: u64 },
    /// The speed of both.
    Bench,
    /// To be the process that writes a card: of a kind, a seed, so many records, to a file.
    Writer(Kind, u64, usize, PathBuf),
}

/// The words of the command line.
fn asked() -> Result<Asked, String> {
    let (mut seed, mut cards, mut walks) = (1, 100_000, 20);
    let mut words = args().skip(1);
    while let Some(word) = words.next() {
        let mut number = || {
            words
                .next()
                .and_then(|w| w.parse().ok())
                .ok_or(format!("{word} wants a number"))
        };
        match word.as_str() {
            "--seed" => seed = number()?,
            "--count" => cards = number()?,
            "--walks" => walks = number()?,
            "--bench" => return Ok(Asked::Bench),
            "--writer" => return writer_asked(words),
            _ => {
                return Err(format!(
                    "{word} is not known: --seed N, --count N, --walks N, --bench"
                ));
            }
        }
    }
    Ok(Asked::Runs { seed, cards, walks })
}

/// What is asked of a process that writes a card.
fn writer_asked(mut words: impl Iterator<Item = String>) -> Result<Asked, String> {
    let mut next = |what| words.next().ok_or(format!("--writer wants {what}"));
    let name = next("a kind")?;
    let kind = KINDS.into_iter().find(|kind| kind.name == name);
    let seed = next("a seed")?.parse().map_err(|_| "no seed")?;
    let count = next("records")?.parse().map_err(|_| "no count")?;
    let file = next("a file")?.into();
    let kind = kind.ok_or("no such kind")?;
    Ok(Asked::Writer(kind, seed, count, file))
}

/// So many cases of a run, each from a generator of its own.
fn cases(
    seed: u64,
    run: &str,
    count: u64,
    one: fn(&mut Random) -> Result<(), String>,
) -> Result<(), String> {
    for case in 0..count {
        one(&mut Random::of(seed, run, case))
            .map_err(|what| format!("{run}, seed {seed}, case {case}: {what}"))?;
    }
    Ok(())
}

/// A run over each kind of card; what both counted.
fn both<T: Sum<T>>(
    seed: u64,
    run: &str,
    one: fn(&mut Random, Kind) -> Result<T, String>,
) -> Result<T, String> {
    let kinds = KINDS.iter().zip(0..);
    kinds
        .map(|(kind, number)| {
            one(&mut Random::of(seed, run, number), *kind)
                .map_err(|what| format!("{run}, {} cards, seed {seed}: {what}", kind.name))
        })
        .sum()
}

/// Walks in a folder of their own, of both kinds in turn; some kill must have left a torn block.
fn walks(seed: u64, count: u64, folder: &Path) -> Result<Tally, String> {
    fs::create_dir_all(folder).map_err(|e| e.to_string())?;
    let mut tally = Tally::default();
    let done = (0..count).try_for_each(|case| {
        let random = &mut Random::of(seed, "walks", case);
        let kind = KINDS[case as usize % KINDS.len()];
        walks::walk(random, kind, folder, seed.wrapping_add(case), &mut tally)
            .map_err(|what| format!("walks, seed {seed}, case {case}: {what}"))
    });
    fs::remove_dir_all(folder).map_err(|e| e.to_string())?;
    done?;
    if count > 0 && tally.torn == 0 {
        return Err(format!(
            "walks: {count}, killed {} times, and no kill left a torn block",
            tally.kills
        ));
    }
    Ok(tally)
}

/// All runs; each prints what it compared.
fn run(seed: u64, cards: u64, count: u64) -> Result<(), String> {
    let spoiled = both(seed, "spoils", spoils::all_noticed)?;
    println!("spoiled words: {spoiled}, each noticed");
    let words = both(seed, "words", runs::single_words)?;
    println!("one word changed in a card of three blocks: {words} cards, each noticed");
    let moved = both(seed, "moved", runs::moved_blocks)?;
    println!("blocks exchanged, doubled, dropped, cards cut at every length: {moved} cards");
    let others = both(seed, "others", runs::read_as_other)?;
    println!("cards read as the other kind: {others}, each record lost");
    let mixed = both(seed, "mixed", runs::blocks_of_other)?;
    println!("cards with blocks of the other kind: {mixed}, those lost and no other");
    cases(seed, "cards", cards, runs::random_card)?;
    println!("random cards, written, damaged and read: {cards}");
    cases(seed, "appends", cards, walks::random_append)?;
    println!("random records appended to cards of random lengths: {cards}");
    let calls = both(seed, "limits", walks::limits)?;
    println!("totals and lengths at their limits: {calls} appends");
    let Tally { kills, torn } = walks(seed, count, &temp_dir().join(format!("cards-{}", id())))?;
    println!(
        "walks: {count}; writing processes killed before their end: {kills}; torn cards that they left: {torn}; each card read after each, and whole in the end"
    );
    Ok(())
}

fn main() -> ExitCode {
    let done = asked().and_then(|asked| match asked {
        Asked::Bench => {
            let random = &mut Random::of(1, "bench", 0);
            KINDS
                .into_iter()
                .for_each(|kind| bench::bench(random, kind));
            Ok(())
        }
        Asked::Writer(kind, seed, count, file) => {
            writer::write(kind, &file, seed, count).map_err(|e| e.to_string())
        }
        Asked::Runs { seed, cards, walks } => run(seed, cards, walks),
    });
    match done {
        Ok(()) => ExitCode::SUCCESS,
        Err(what) => {
            println!("cards: {what}");
            ExitCode::FAILURE
        }
    }
}
