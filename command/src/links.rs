//! `dokphalun links`: the links, groups and orientations that our own frames rest on, as a text file.
use crate::frames::refused;
use crate::meshfile::load;
use crate::stop::{Status, Stop};
use crate::surface::Surface;
use crate::whole::write_all;
use crate::{listsfile, say};
use dokphalun::{Buffers, OwnLinks, triangles};
use std::collections::BTreeSet;
use std::path::PathBuf;

/// What is asked for.
pub struct AskedLinks {
    pub mesh: PathBuf,
    pub lists: PathBuf,
}

/// Reads, makes the lists, writes and prints. Nothing is written where the mesh cannot be read or is refused.
pub fn run(asked: &AskedLinks) -> Result<Status, Stop> {
    let surface = load(&asked.mesh)?;
    let own = Buffers::new().links(surface.mesh()).map_err(|refusal| {
        let lists = asked.lists.display();
        let left = format!("Nothing was written: {lists} is as it was");
        refused(&asked.mesh, &surface, refusal, &left)
    })?;
    let text = listsfile::text(own.lists(), &triangles(surface.mesh()));
    write_all(&[(&asked.lists, text.as_bytes())])?;
    summary(asked, &surface, &own);
    Ok(Status::Good)
}

/// Prints what came out.
fn summary(asked: &AskedLinks, surface: &Surface, own: &OwnLinks) {
    let linked = own.links.iter().filter(|link| **link != 0).count();
    let groups: BTreeSet<&u32> = own.groups.iter().filter(|group| **group != 0).collect();
    say::line("mesh", asked.mesh.display());
    say::line("faces", surface.sizes.len());
    say::line("triangles", format!("{} sound", own.orientations.len()));
    let sides = own.links.len();
    say::line("linked", format!("{linked} of {sides} sides"));
    say::line("groups", groups.len());
    say::line("lists", asked.lists.display());
    let (mesh, lists) = (say::quoted(&asked.mesh), say::quoted(&asked.lists));
    say::line("to examine", format!("dokphalun examine {mesh} {lists}"));
}
