//! PLY files: text, and binary with the low byte first.
mod body;
mod header;
mod values;

use crate::stop::Fault;
use crate::surface::Surface;
use values::{Binary, Text};

/// The mesh of a PLY file.
pub fn read(bytes: &[u8]) -> Result<Surface, Fault> {
    let header = header::read(bytes)?;
    match header.binary {
        true => body::read(&header, Binary::new(bytes, header.end)),
        false => body::read(&header, Text::new(&bytes[header.end..], header.lines)),
    }
}
