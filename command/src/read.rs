//! `dokphalun read`: what is on a card.
use crate::meshfile::{bytes, load};
use crate::origins::told;
use crate::papers::Papers;
use crate::say;
use crate::state::{BAD, Judged, Known, Tally};
use crate::stop::{Status, Stop};
use crate::surface::Surface;
use crate::why::reasons;
use dokphalun::{BLOCK_BYTES, Buffers, Card, Kind, MOST_FACES, MOST_SLOTS, Record, Refusal};
use std::path::{Path, PathBuf};

/// The greatest total that is read here: the slots of every mesh, and a mistyped total does not take all memory.
const MOST_RECORDS: u32 = 1_000_000;
const _: () = assert!(MOST_SLOTS <= MOST_RECORDS as usize);

/// The threshold with which the mesh is asked why corners are absent: a card does not say its own, and the reasons are the same with any.
const ANY: f32 = -1.0;

/// What is asked for.
pub struct AskedRead {
    pub card: PathBuf,
    pub total: u32,
    pub mesh: Option<PathBuf>,
    pub papers: Papers,
}

/// Reads, prints and draws.
pub fn run(asked: &AskedRead) -> Result<Status, Stop> {
    if asked.total > MOST_RECORDS {
        return Err(Stop::usage(format!(
            "--total {}: at most {MOST_RECORDS} records are read here",
            asked.total
        )));
    }
    let card = bytes(&asked.card)?;
    let surface = asked
        .mesh
        .as_ref()
        .map(|path| mesh(path, asked.total))
        .transpose()?;
    let mut buffers = Buffers::new();
    let read = buffers
        .read_card(&card, asked.total)
        .map_err(|refusal| Stop::unreadable(&asked.card, refusal))?;
    let records: Vec<Record> = read.records().collect();
    let judged = Judged {
        records: &records,
        kind: read.kind,
        all_good: read.all_good(),
        torn: read.torn,
    };
    let why = surface
        .as_ref()
        .map(|surface| reasons(surface, ANY, &records));
    let known = surface.as_ref().map(|surface| Known {
        surface,
        judged,
        reasons: why.as_deref().unwrap_or_default(),
    });
    if let Some(known) = &known {
        asked.papers.write(known, &asked.card, None)?;
    }
    let (bytes, blocks) = (card.len(), card.len() / BLOCK_BYTES);
    let name = asked.card.display();
    say::line(
        "card",
        format!("{name}: {bytes} bytes, {blocks} whole blocks"),
    );
    kind(&read);
    asked.papers.say();
    Ok(summary(&read, judged, known.as_ref()))
}

/// Says of which kind a card is, and loudly if there is anything of the other on it.
fn kind(card: &Card) {
    let said = match (card.kind, card.found()) {
        (Kind::Old, _) => {
            "card of the old kind: ten words a record; where the frames come from is not recorded"
        }
        (Kind::New, 0) => "not known: no record is found of the old kind, and none of the new one",
        (Kind::New, _) => "card of the new kind: twelve words a record",
    };
    say::line("kind", said);
    if card.of_other_kind > 0 {
        let records = say::counted(card.of_other_kind, "record");
        let other = named(card.kind.other());
        let what = format!("{records} on blocks of the {other} kind, which are not read");
        say::loud("OTHER KIND", what);
    }
}

/// The name of a kind.
fn named(kind: Kind) -> &'static str {
    match kind {
        Kind::Old => "old",
        Kind::New => "new",
    }
}

/// The mesh that the card is said to belong to.
fn mesh(path: &Path, total: u32) -> Result<Surface, Stop> {
    let surface = load(path)?;
    let (faces, slots) = (surface.sizes.len(), surface.slots());
    let path = path.display();
    if faces > MOST_FACES {
        let what = format!("{path}: {}", Refusal::TooManyFaces { faces });
        let status = Status::Refused;
        return Err(Stop { status, what });
    }
    if slots != total as usize {
        let what =
            format!("{path} has {slots} slots and --total is {total}: they do not belong together");
        return Err(Stop::usage(what));
    }
    Ok(surface)
}

/// Prints what was found; the result is the exit status.
fn summary(card: &Card, judged: Judged, known: Option<&Known>) -> Status {
    let (tally, torn) = (Tally::of(judged), card.torn);
    say::line("records", judged.records.len());
    say::tally(&tally, BAD);
    say::line("origins", told(judged));
    match torn {
        0 => say::line("torn bytes", 0),
        _ => say::loud(
            "TORN BYTES",
            format!("{torn} past the last whole block that the total calls for"),
        ),
    }
    blocks(judged.records, card.kind);
    match known {
        Some(known) => say::faces(known),
        None => places(judged),
    }
    if tally.lost > 0 && tally.lost == tally.all() {
        say::loud(
            "ALL LOST",
            "is --total the number that was printed when the card was written?",
        );
    }
    let without_slots = known.map_or(0, |known| known.without_slots().count());
    let status = tally.status(without_slots);
    say::verdict(&say::sum(&tally, without_slots), status);
    status
}

/// The blocks of a card of a kind that are lost.
fn blocks(records: &[Record], kind: Kind) {
    let lost =
        |(_, block): &(usize, &[Record])| block.iter().any(|record| matches!(record, Record::Lost));
    let lost: Vec<usize> = records
        .chunks(kind.block_records())
        .enumerate()
        .filter(lost)
        .map(|(b, _)| b)
        .collect();
    if !lost.is_empty() {
        say::loud("LOST BLOCKS", say::ranges(lost.into_iter()));
    }
}

/// The records that are not good, by their numbers, where no mesh says which faces they are.
fn places(judged: Judged) {
    for state in BAD {
        let all = judged.states().enumerate();
        let here = all.filter(|(_, is)| *is == state);
        let text = say::ranges(here.map(|(number, _)| number));
        if !text.is_empty() {
            say::loud(
                state.word(),
                format!("records {text} (counted from 0; --mesh MESH names the faces)"),
            );
        }
    }
}
