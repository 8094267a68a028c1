//! The calls of libexports.a: single functions of the proof, to be compared and timed. No part of the user's archive.
use crate::calls::{Mesh, with_lists};

unsafe extern "C" {
    safe fn export_sqrt(x: f32) -> f32;
    safe fn export_acos(x: f32) -> f32;
    fn export_acos_all(xs: *const f32, count: usize, out: *mut f32, room: usize);
    fn export_judge(
        sizes: *const u8,
        faces: usize,
        positions: *const f32,
        position_numbers: usize,
        normals: *const f32,
        normal_numbers: usize,
        texture: *const f32,
        texture_numbers: usize,
        threshold: f32,
        answer: usize,
        work: usize,
    ) -> u64;
    fn export_walk_old(work: *mut u32, work_words: usize, rows: usize, triangles: usize) -> u64;
    fn export_walk_flat(work: *mut u32, work_words: usize, rows: usize, triangles: usize) -> u64;
}

/// The root.
pub fn sqrt(x: f32) -> f32 {
    export_sqrt(x)
}

/// The angle of a cosine, with a table of its own.
pub fn acos(x: f32) -> f32 {
    export_acos(x)
}

/// The angles of many cosines, with one table for all of them.
pub fn acos_all(xs: &[f32], out: &mut [f32]) {
    with_lists!(export_acos_all(&xs, &mut out))
}

/// The desk's number and place, for lists of answer and work of so many words.
pub fn judge(mesh: Mesh, threshold: f32, answer: usize, work: usize) -> (u32, u32) {
    let verdict = with_lists!(export_judge(
        &mesh.sizes,
        &mesh.positions,
        &mesh.normals,
        &mesh.texture,
        threshold,
        answer,
        work
    ));
    ((verdict >> 32) as u32, verdict as u32)
}

/// The old walk of step 6 on a table of so many rows and triangles: groups times 2^32, and members; all ones where it may not be called.
pub fn walk_old(work: &mut [u32], rows: usize, triangles: usize) -> u64 {
    with_lists!(export_walk_old(&mut work, rows, triangles))
}

/// The flat walk, which the public call takes.
pub fn walk_flat(work: &mut [u32], rows: usize, triangles: usize) -> u64 {
    with_lists!(export_walk_flat(&mut work, rows, triangles))
}
