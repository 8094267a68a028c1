//! The calls of islands beside what they have to leave: one call for frames, and a plain model of the islands.
use crate::mesh::{Corner, Mesh, SLOT_WORDS, framed, numbers_mut};
use crate::ours::{self, Outcome, fresh_answer, fresh_work};
use crate::refusals::{or_nine, without_frames};
use dokphalun_sys::{self as archive, IslandLists, Labelled};
use models::lent::answered;
use std::collections::HashMap;

/// The entries a face of the lists of its own: labels, order, sizes, numbers, frames.
pub const ENTRIES: [usize; 5] = [1, 4, 1, 32, 4 * SLOT_WORDS];

/// What a face is given that is in no island.
const NO_ISLAND: u32 = u32::MAX;

/// The lists of its own; numbers as bits.
#[derive(Clone, Debug, PartialEq)]
pub struct Own {
    pub labels: Vec<u32>,
    pub order: Vec<u32>,
    pub sizes: Vec<u8>,
    pub numbers: Vec<u32>,
    pub frames: Vec<u32>,
}

impl Own {
    /// Lists of these lengths, none of whose entries is what a call leaves.
    pub fn fresh(lengths: [usize; 5]) -> Own {
        let words = |list: u32, count: usize| (0x3C00_0000 + (list << 20)..).take(count).collect();
        Own {
            labels: words(0, lengths[0]),
            order: words(1, lengths[1]),
            sizes: (0..lengths[2]).map(|i| 7 + (i % 200) as u8).collect(),
            numbers: words(2, lengths[3]),
            frames: words(3, lengths[4]),
        }
    }
}

/// All that the two calls leave.
#[derive(Clone, Debug, PartialEq)]
pub struct Left {
    pub outcome: Outcome,
    pub answer: Vec<u32>,
    pub work: Vec<u32>,
    pub own: Own,
    pub labelled: Labelled,
    pub labels: Vec<u32>,
    pub labels_work: Vec<u32>,
}

/// Frames by islands, on lists that are lent.
pub fn by_islands(mesh: &Mesh, answer: &mut [u32], work: &mut [u32], own: &mut Own) -> Outcome {
    let threshold = f32::from_bits(mesh.threshold);
    let own = IslandLists {
        labels: &mut own.labels,
        order: &mut own.order,
        sizes: &mut own.sizes,
        numbers: numbers_mut(&mut own.numbers),
        frames: &mut own.frames,
    };
    answered(archive::frames_by_islands(
        mesh.handed(),
        threshold,
        answer,
        work,
        own,
    ))
}

/// What both calls leave of fresh lists; those of its own have these lengths.
pub fn left(mesh: &Mesh, lengths: [usize; 5]) -> Left {
    let (mut answer, mut work) = (fresh_answer(mesh.answer), fresh_work(mesh.work));
    let mut own = Own::fresh(lengths);
    let (mut alone, mut labels_work) = (own.labels.clone(), fresh_work(mesh.work));
    Left {
        outcome: by_islands(mesh, &mut answer, &mut work, &mut own),
        labelled: answered(archive::labels(mesh.handed(), &mut alone, &mut labels_work)),
        answer,
        work,
        own,
        labels: alone,
        labels_work,
    }
}

/// What they have to leave: as one call for frames does, and by the plain model of islands.
pub fn expected(mesh: &Mesh, lengths: [usize; 5]) -> Result<Left, String> {
    let whole = ours::left(mesh)?;
    let own = Own::fresh(lengths);
    let faces = mesh.sizes.len();
    let short = (0..5).any(|list| lengths[list] < ENTRIES[list] * faces);
    let refused = |number, place| Left {
        outcome: Outcome {
            number,
            place,
            slots: 0,
        },
        answer: fresh_answer(mesh.answer),
        work: fresh_work(mesh.work),
        own: own.clone(),
        labelled: labels_refusal(mesh, lengths[0]),
        labels: own.labels.clone(),
        labels_work: fresh_work(mesh.work),
    };
    let mut left = match (whole.outcome.number, short) {
        (0, true) => refused(9, 0),
        (0, false) => Left {
            outcome: whole.outcome,
            answer: whole.answer,
            work: whole.work,
            own: emptied(own.clone(), plain_labels(mesh)),
            ..refused(0, 0)
        },
        (number, _) => refused(number, whole.outcome.place),
    };
    if left.labelled.number == 0 {
        let plain = plain_labels(mesh);
        let lowest = plain.iter().enumerate();
        let own_number = |(face, label): &(usize, &u32)| **label == *face as u32;
        left.labelled.islands = lowest.filter(own_number).count() as u32;
        left.labels[..faces].copy_from_slice(&plain);
        left.labels_work[..mesh.needed_work()].fill(0);
    }
    Ok(left)
}

/// What the call for labels says, but for the number of islands: it has no threshold and no answer list.
fn labels_refusal(mesh: &Mesh, labels: usize) -> Labelled {
    let short = labels < mesh.sizes.len();
    let (number, place) = or_nine(without_frames(mesh), short);
    Labelled {
        number,
        place,
        islands: 0,
    }
}

/// The lists of its own after acceptance: labels, and zeros.
fn emptied(mut own: Own, labels: Vec<u32>) -> Own {
    let faces = labels.len();
    own.labels[..faces].copy_from_slice(&labels);
    own.order[..ENTRIES[1] * faces].fill(0);
    own.sizes[..ENTRIES[2] * faces].fill(0);
    own.numbers[..ENTRIES[3] * faces].fill(0);
    own.frames[..ENTRIES[4] * faces].fill(0);
    own
}

/// The plain model: every face of 3 or 4 takes, again and again, the lowest number of any face with which it shares a corner, bit for bit.
pub fn plain_labels(mesh: &Mesh) -> Vec<u32> {
    let faces = mesh.faces();
    let mut labels: Vec<u32> = (0..faces.len() as u32).collect();
    let mut changed = true;
    while changed {
        changed = false;
        let mut lowest: HashMap<Corner, u32> = HashMap::new();
        for (face, corners) in faces.iter().enumerate() {
            for corner in corners.iter().filter(|_| framed(mesh.sizes[face])) {
                let least = lowest.entry(*corner).or_insert(labels[face]);
                *least = labels[face].min(*least);
            }
        }
        for (face, corners) in faces.iter().enumerate() {
            let least = corners.iter().filter_map(|corner| lowest.get(corner)).min();
            let least = least.copied().unwrap_or(labels[face]);
            if framed(mesh.sizes[face]) && least < labels[face] {
                labels[face] = least;
                changed = true;
            }
        }
    }
    for (label, size) in labels.iter_mut().zip(&mesh.sizes) {
        if !framed(*size) {
            *label = NO_ISLAND;
        }
    }
    labels
}
