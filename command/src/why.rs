//! Why corners are absent, by the archive's word.
use crate::surface::Surface;
use dokphalun::{Buffers, Reason, Record};

/// Why each slot of a mesh is absent. It is asked only where a record is; nothing comes back where none is, and where the mesh is refused.
pub fn reasons(surface: &Surface, threshold: f32, records: &[Record]) -> Vec<Option<Reason>> {
    if !records.contains(&Record::Absent) {
        return Vec::new();
    }
    let mut buffers = Buffers::new();
    let made = buffers.reasons(surface.mesh(), threshold);
    made.map_or(Vec::new(), |made| {
        made.reasons().map(|(_, reason)| reason).collect()
    })
}
