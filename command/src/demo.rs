//! `dokphalun demo`: a tank, its frames, and the same card with a lost block.
use crate::frames::{self, AskedFrames};
use crate::papers::Papers;
use crate::read::{self, AskedRead};
use crate::stop::{Status, Stop};
use crate::whole::write_all;
use crate::{meshfile, say, tank};
use dokphalun::BLOCK_BYTES;
use std::fs;
use std::path::Path;

/// Makes the tank, runs `frames` and `read` on it, and says what it left.
pub fn run(folder: &Path) -> Result<Status, Stop> {
    fs::create_dir_all(folder).map_err(|error| Stop {
        status: Status::Unwritten,
        what: format!("{} is not made: {error}", folder.display()),
    })?;
    let first = tank_frames(folder)? as u8;
    let second = damaged_card(folder)? as u8;
    let told = format!(
        "the first would end with exit status {first} and the second with {second}; only 0 is good"
    );
    say::gap();
    say::line("demo", told);
    let pictures = ["tank.svg", "damaged.svg"].map(|name| folder.join(name).display().to_string());
    say::line(
        "look at",
        format!("{} in any browser", pictures.join(" and ")),
    );
    Ok(Status::Good)
}

/// The tank's frames, as `dokphalun frames` makes them.
fn tank_frames(folder: &Path) -> Result<Status, Stop> {
    let mesh = folder.join("tank.ply");
    write_all(&[(&mesh, tank::ply().as_bytes())])?;
    say::line("demo", "1. a tank, and its frames (dokphalun frames)");
    frames::run(&AskedFrames {
        mesh,
        card: folder.join("tank.card"),
        threshold: -1.0,
        papers: papers(folder, "tank"),
    })
}

/// The tank's card, damaged, as `dokphalun read` sees it.
fn damaged_card(folder: &Path) -> Result<Status, Stop> {
    let (mesh, card) = (folder.join("tank.ply"), folder.join("damaged.card"));
    let sound = meshfile::bytes(&folder.join("tank.card"))?;
    write_all(&[(&card, &damaged(sound))])?;
    say::gap();
    say::line(
        "demo",
        "2. its card with three blocks spoilt and the end torn off (dokphalun read)",
    );
    read::run(&AskedRead {
        card,
        total: meshfile::load(&mesh)?.slots() as u32,
        mesh: Some(mesh),
        papers: papers(folder, "damaged"),
    })
}

/// The report and the picture of a name.
fn papers(folder: &Path, name: &str) -> Papers {
    Papers {
        report: Some(folder.join(format!("{name}.csv"))),
        picture: Some(folder.join(format!("{name}.svg"))),
        origins: false,
    }
}

/// A card with a bit turned in three of its blocks, and torn within its last one.
fn damaged(mut card: Vec<u8>) -> Vec<u8> {
    let blocks = card.len() / BLOCK_BYTES;
    for block in [blocks / 5, blocks / 2, 5 * blocks / 6] {
        if let Some(byte) = card.get_mut(block * BLOCK_BYTES + 77) {
            *byte ^= 4;
        }
    }
    card.truncate(card.len().saturating_sub(200));
    card
}
