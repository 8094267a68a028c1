//! `dokphalun frames`: a mesh file to a card, a report and a picture.
use crate::meshfile::load;
use crate::origins::told;
use crate::papers::Papers;
use crate::say;
use crate::state::{BAD, Judged, Known, State, Tally};
use crate::stop::{Status, Stop};
use crate::surface::Surface;
use crate::why::reasons;
use dokphalun::{BLOCK_BYTES, Buffers, Kind, Record, Refusal};
use std::num::NonZeroUsize;
use std::path::{Path, PathBuf};
use std::thread::available_parallelism;

/// From more faces than this on a mesh of several islands is made on all cores.
const ONE_CORE: usize = 4096;

/// What is asked for.
pub struct AskedFrames {
    pub mesh: PathBuf,
    pub card: PathBuf,
    pub threshold: f32,
    pub papers: Papers,
}

/// Reads, makes frames, writes and prints. Nothing is written where the mesh cannot be read or is refused.
pub fn run(asked: &AskedFrames) -> Result<Status, Stop> {
    let surface = load(&asked.mesh)?;
    let mut buffers = Buffers::new();
    let answer = buffers
        .frames_on(surface.mesh(), asked.threshold, threads(&surface))
        .map_err(|refusal| {
            let card = asked.card.display();
            let left =
                format!("Nothing was written: {card} is as it was, and no corner has a reading");
            refused(&asked.mesh, &surface, refusal, &left)
        })?;
    let mut card = Vec::new();
    answer.write_card(&mut card).map_err(|refusal| Stop {
        status: Status::Unwritten,
        what: format!("{} is not written: {refusal}", asked.card.display()),
    })?;
    let records: Vec<Record> = answer
        .readings()
        .map(|(_, reading)| reading.into())
        .collect();
    let reasons = reasons(&surface, asked.threshold, &records);
    let known = Known {
        surface: &surface,
        judged: Judged {
            records: &records,
            kind: Kind::New,
            all_good: answer.all_good(),
            torn: 0,
        },
        reasons: &reasons,
    };
    asked
        .papers
        .write(&known, &asked.mesh, Some((&asked.card, &card)))?;
    Ok(summary(
        asked,
        &known,
        card.len() / BLOCK_BYTES,
        answer.parts(),
    ))
}

/// On how many threads the frames of a mesh are made.
fn threads(surface: &Surface) -> NonZeroUsize {
    match surface.sizes.len() > ONE_CORE {
        true => available_parallelism().unwrap_or(NonZeroUsize::MIN),
        false => NonZeroUsize::MIN,
    }
}

/// Prints what came out; the result is the exit status.
fn summary(asked: &AskedFrames, known: &Known, blocks: usize, parts: usize) -> Status {
    let tally = Tally::of(known.judged);
    let surface = known.surface;
    let total = tally.all();
    say::line("mesh", asked.mesh.display());
    say::line("faces", surface.sizes.len());
    say::line("corners", surface.positions.len());
    say::line("slots", total);
    if parts > 1 {
        say::line("parts", format!("{parts}, of whole islands, one a core"));
    }
    // a mesh has lost nothing
    let lost = |state: &State| *state == State::Lost;
    say::tally(&tally, BAD.into_iter().filter(|state| !lost(state)));
    say::line("origins", told(known.judged));
    say::faces(known);
    let (records, blocks) = (say::counted(total, "record"), say::counted(blocks, "block"));
    let written = format!("{records} in {blocks}. Keep that number");
    say::line("card", format!("{}: {written}", asked.card.display()));
    let (card, mesh) = (say::quoted(&asked.card), say::quoted(&asked.mesh));
    let again = format!("dokphalun read {card} --total {total} --mesh {mesh}");
    say::line("to read it", again);
    asked.papers.say();
    let without_slots = known.without_slots().count();
    let status = tally.status(without_slots);
    say::verdict(&say::sum(&tally, without_slots), status);
    status
}

/// What is said of a refused mesh: number, place, what stands there, what to do, and what was left.
pub fn refused(mesh: &Path, surface: &Surface, refusal: Refusal, left: &str) -> Stop {
    let mut what = format!("{}: {refusal}", mesh.display());
    if let Some(place) = refusal.place() {
        if let Some(spot) = surface.spots.get(place.face) {
            what.push_str(&format!(" (the face is at {spot} of the file)"));
        }
        if let Some(corner) = surface.numbers(place) {
            let (p, n, t) = (corner.position, corner.normal, corner.texture);
            what.push_str(&format!(
                ". Its position is {p:?}, its normal {n:?}, its texture {t:?}"
            ));
        }
    }
    what.push_str(&format!(".\nWhat to do: {}.\n{left}", refusal.remedy()));
    let status = Status::Refused;
    Stop { status, what }
}
