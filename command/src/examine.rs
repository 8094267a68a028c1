//! `dokphalun examine`: a partner's lists for a mesh, accepted or objected to.
use crate::frames::refused;
use crate::listsfile::{self, Listed};
use crate::meshfile::{bytes, load};
use crate::say;
use crate::stop::{Status, Stop};
use crate::surface::Surface;
use dokphalun::{Buffers, Objection};
use std::path::PathBuf;

/// What is asked for.
pub struct AskedExamine {
    pub mesh: PathBuf,
    pub lists: PathBuf,
}

/// Reads both files, examines and prints.
pub fn run(asked: &AskedExamine) -> Result<Status, Stop> {
    let surface = load(&asked.mesh)?;
    let listed = listsfile::read(&bytes(&asked.lists)?)
        .map_err(|fault| Stop::unreadable(&asked.lists, fault))?;
    Buffers::new()
        .examine(surface.mesh(), listed.lists())
        .map_err(|objection| stop(asked, &surface, &listed, objection))?;
    say::line("mesh", asked.mesh.display());
    say::line("faces", surface.sizes.len());
    let sound = listed.lists().orientations.len();
    say::line("triangles", format!("{sound} sound"));
    say::line("lists", asked.lists.display());
    let status = Status::Good;
    let verdict = format!("the lists are accepted (exit status {})", status as u8);
    say::line("verdict", verdict);
    Ok(status)
}

/// What is said of a refused mesh, or of lists that are not accepted: number, sentence, face and side, and where both stand.
fn stop(asked: &AskedExamine, surface: &Surface, listed: &Listed, objection: Objection) -> Stop {
    if let Objection::Refused(refusal) = objection {
        let left = "The lists were not looked at";
        return refused(&asked.mesh, surface, refusal, left);
    }
    let line = listed.line(&objection);
    let line = line.map(|line| format!("line {line} of the lists"));
    let spot = objection.face().and_then(|face| surface.spots.get(face));
    let spot = spot.map(|spot| format!("the face is at {spot} of the mesh"));
    let places: Vec<String> = line.into_iter().chain(spot).collect();
    let mut what = format!("{}: {objection}", asked.lists.display());
    if !places.is_empty() {
        what.push_str(&format!(" ({})", places.join("; ")));
    }
    what.push_str(".\nThe lists are NOT ACCEPTED: use none of them. See docs/EXAMINER.md");
    let status = Status::Objected;
    Stop { status, what }
}
