//! `shuffle`: two meshes that share no welded corner, shuffled into one.
use super::faces::Face;
use super::numbers::threshold;
use super::small;
use crate::compare::shared;
use crate::mesh::{Case, Corner, Mesh};
use crate::random::Random;

/// A case.
pub fn make(r: &mut Random, _: u64) -> Case {
    let (first, mut second) = (some(r), some(r));
    if r.chance(1, 2) {
        second = twin(r, &first);
    }
    part_company(r, &first, &mut second);
    let threshold = threshold(r);
    shuffled(r, [first, second], threshold)
}

/// The faces of a small mesh, at least one.
fn some(r: &mut Random) -> Vec<Face> {
    loop {
        let faces = small::faces(r);
        if !faces.is_empty() {
            return faces;
        }
    }
}

/// The same faces once more, with one and the same bit turned in every corner; in one of two in another order.
fn twin(r: &mut Random, faces: &[Face]) -> Vec<Face> {
    let (word, bit) = (r.below(8), r.pick(&[0, 1, 12, 22, 31]));
    let mut twin = faces.to_vec();
    for corner in twin
        .iter_mut()
        .filter(|face| matches!(face.len(), 3 | 4))
        .flatten()
    {
        turn_bit(corner, word, bit);
    }
    if r.chance(1, 2) {
        r.shuffle(&mut twin);
    }
    twin
}

/// Turns a bit of a corner's number, which stays finite.
fn turn_bit(corner: &mut Corner, word: usize, bit: u32) {
    let turned = corner[word] ^ 1 << bit;
    if !crate::refusals::unfit(turned) {
        corner[word] = turned;
    }
}

/// Turns bits in the corners of the second that are the first's too, until none is.
fn part_company(r: &mut Random, first: &[Face], second: &mut [Face]) {
    let mesh = Mesh::of(first, 0);
    loop {
        let common = shared(&mesh, &Mesh::of(second, 0));
        if common.is_empty() {
            return;
        }
        let (word, bit) = (r.below(8), r.pick(&[0, 1, 2, 31]));
        for corner in second
            .iter_mut()
            .flatten()
            .filter(|corner| common.contains(corner))
        {
            turn_bit(corner, word, bit);
        }
    }
}

/// The two in one, each in its own order.
fn shuffled(r: &mut Random, parts: [Vec<Face>; 2], threshold: u32) -> Case {
    let counts = [parts[0].len(), parts[1].len()];
    let mut owners: Vec<u8> = [vec![0; counts[0]], vec![1; counts[1]]].concat();
    r.shuffle(&mut owners);
    let mut parts = parts.map(Vec::into_iter);
    let faces: Vec<Face> = owners
        .iter()
        .filter_map(|&owner| parts[usize::from(owner)].next())
        .collect();
    Case {
        mesh: Mesh::of(&faces, threshold),
        owners,
        foreseen: None,
    }
}
