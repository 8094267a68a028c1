//! A mesh from a file: PLY or OBJ.
use crate::stop::{Fault, Stop};
use crate::surface::Surface;
use crate::{obj, ply};
use std::fs::File;
use std::io::Read;
use std::path::Path;

/// The longest file that is read. A mesh that is accepted is far shorter.
const MOST_BYTES: u64 = 1 << 30;

/// The mesh of a file.
pub fn load(path: &Path) -> Result<Surface, Stop> {
    let bytes = bytes(path)?;
    let ending = path.extension().map(|ending| ending.to_ascii_lowercase());
    let read = if bytes.starts_with(b"ply") || ending.as_ref().is_some_and(|e| e == "ply") {
        ply::read(&bytes)
    } else if ending.is_some_and(|e| e == "obj") {
        obj::read(&bytes)
    } else {
        let what = "neither PLY (its first line is `ply`) nor OBJ (its name ends in .obj)";
        Err(Fault::line(1, what))
    };
    read.map_err(|fault| Stop::unreadable(path, fault))
}

/// The bytes of a file.
pub fn bytes(path: &Path) -> Result<Vec<u8>, Stop> {
    let mut bytes = Vec::new();
    File::open(path)
        .and_then(|file| file.take(MOST_BYTES + 1).read_to_end(&mut bytes))
        .map_err(|error| Stop::unreadable(path, error))?;
    match bytes.len() as u64 > MOST_BYTES {
        true => Err(Stop::unreadable(path, "longer than 1 GiB")),
        false => Ok(bytes),
    }
}
