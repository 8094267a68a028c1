//! Appending: by both on random cards and at the limits, and by a process that is killed.
use crate::compare;
use crate::lent::{asked, room};
use crate::plain::{BLOCK, KINDS, Kind};
use crate::random::Random;
use crate::runs::{MORE, answer, records};
use crate::{ours, writer};
use std::fs;
use std::os::unix::process::ExitStatusExt;
use std::path::Path;
use std::process::{Child, Command, Stdio};
use std::thread::sleep;
use std::time::Duration;

/// The signal that kills a process.
const KILL: i32 = 9;
/// How often the writing process of one walk is killed at most.
const TURNS: u64 = 50;
/// The sleep before a kill is set to fewer than so many microseconds.
const LATEST: usize = 4000;

/// Random records for a card of either kind and of a random length, the next ones most of the time.
pub fn random_append(random: &mut Random) -> Result<(), String> {
    let kind = random.pick(&KINDS);
    let total = random.below(100) as u32;
    let whole = kind.bytes(total as usize);
    let long = match random.below(8) {
        0 => whole + random.below(600),
        _ => random.below(whole + 1),
    };
    let left = (total as usize).saturating_sub(long / BLOCK * kind.held);
    let some = kind.held * random.below(9);
    let count = random.pick(&[left, left.min(kind.held), left.min(some), some, left + 1]);
    let list = match random.below(4) {
        0 => answer(random, kind),
        _ => records(random, kind, count),
    };
    let lent = room(random, kind.bytes(list.len() / kind.width), MORE);
    compare::next(kind, long, total)?;
    compare::append(kind, long, total, &list, lent).map(|_| ())
}

/// The lengths of a card at its limits: the whole card and near it, nothing, and the greatest.
fn lengths(kind: Kind, total: u32) -> impl Iterator<Item = usize> {
    let whole = kind.bytes(total as usize);
    [0, -1, 1, -511, 511, -512, 512]
        .into_iter()
        .filter_map(move |by| whole.checked_add_signed(by))
        .chain([0, usize::MAX])
}

/// The records that come next on a card of so many bytes, one more and one fewer, with room for one block and for two; how many calls.
fn near_next(random: &mut Random, kind: Kind, long: usize, total: u32) -> Result<u64, String> {
    let next = kind.next(long, total).1 as usize;
    let list = records(random, kind, next + 1);
    let counts = next.saturating_sub(1)..=next + 1;
    compare::next(kind, long, total)?;
    for count in counts.clone() {
        let part = &list[..count * kind.width];
        compare::append(kind, long, total, part, BLOCK)?;
        compare::append(kind, long, total, part, 2 * BLOCK)?;
    }
    Ok(2 * counts.count() as u64)
}

/// Totals and lengths at their limits; how many calls.
pub fn limits(random: &mut Random, kind: Kind) -> Result<u64, String> {
    let full = kind.held as u32;
    [0, 1, full, full + 1, u32::MAX - 1, u32::MAX]
        .into_iter()
        .flat_map(|total| lengths(kind, total).map(move |long| (long, total)))
        .map(|(long, total)| {
            near_next(random, kind, long, total)
                .map_err(|what| format!("limits, {long} bytes, {total} records: {what}"))
        })
        .sum()
}

/// Whether a file holds the beginning of a card, and both readers find that in it.
fn look(kind: Kind, file: &Path, card: &[u8], list: &[u32]) -> Result<usize, String> {
    let bytes = fs::read(file).map_err(|e| e.to_string())?;
    if !card.starts_with(&bytes) {
        return Err(format!(
            "{} bytes are not the beginning of the card",
            bytes.len()
        ));
    }
    let total = (list.len() / kind.width) as u32;
    let ((number, past), found) = compare::read(kind, &bytes, total, list.len())?;
    let whole = bytes.len() / BLOCK * kind.held * kind.width;
    let meant = |(i, word): (usize, &u32)| match (i < whole, i % kind.width) {
        (true, _) => *word == list[i],
        (false, 0) => *word == 2,
        (false, _) => *word == 0,
    };
    match number == 0 && past == bytes.len() % BLOCK && found.iter().enumerate().all(meant) {
        true => Ok(bytes.len()),
        false => Err(format!("of {} bytes other records are found", bytes.len())),
    }
}

/// A process that appends to the file until the card is whole.
fn start(kind: Kind, file: &Path, seed: u64, count: usize) -> Result<Child, String> {
    let own = std::env::current_exe().map_err(|e| e.to_string())?;
    let words = ["--writer", kind.name, &seed.to_string(), &count.to_string()];
    Command::new(own)
        .args(words)
        .arg(file)
        .stdout(Stdio::piped())
        .spawn()
        .map_err(|e| e.to_string())
}

/// What walks count: processes killed before they ended, and cards that they left with a torn block and another length than before.
#[derive(Default)]
pub struct Tally {
    pub kills: u64,
    pub torn: u64,
}

/// Waits for a writing process, killed after a random time or left to its end; whether it was killed, else its end must be a good one.
fn end(random: &mut Random, mut child: Child, kill: bool) -> Result<bool, String> {
    if kill {
        sleep(Duration::from_micros(random.below(LATEST) as u64));
        child.kill().map_err(|e| e.to_string())?;
    }
    let output = child.wait_with_output().map_err(|e| e.to_string())?;
    match output.status.signal() {
        Some(KILL) if kill => Ok(true),
        None if output.status.success() => Ok(false),
        _ => Err(format!(
            "the writing process ended with {}: {}",
            output.status,
            String::from_utf8_lossy(&output.stdout).trim_end()
        )),
    }
}

/// One walk: a writing process is killed again and again, and the card is read after each.
pub fn walk(
    random: &mut Random,
    kind: Kind,
    folder: &Path,
    seed: u64,
    tally: &mut Tally,
) -> Result<(), String> {
    let count = random.from_to(1, 4000);
    let list = writer::records(kind, seed, count);
    let mut card = vec![0; kind.bytes(count)];
    kind.write(&list, &mut card);
    let file = folder.join(format!("walk-{seed}"));
    fs::write(&file, []).map_err(|e| e.to_string())?;
    let mut turns = 0;
    let mut long = look(kind, &file, &card, &list)?;
    while long < card.len() {
        let child = start(kind, &file, seed, count)?;
        let killed = end(random, child, turns < TURNS)?;
        let before = long;
        long = look(kind, &file, &card, &list)?;
        if !killed && long < card.len() {
            return Err(format!(
                "the writing process ended with a card of {long} bytes"
            ));
        }
        turns += 1;
        tally.kills += u64::from(killed);
        tally.torn += u64::from(long != before && long % BLOCK != 0);
    }
    fs::remove_file(&file).map_err(|e| e.to_string())?;
    match asked(1, || ours::next(kind, card.len(), count as u32))? {
        (0, 0, at) if at == card.len() => Ok(()),
        other => Err(format!("a whole card wants {other:?}")),
    }
}
