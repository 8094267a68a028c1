//! `refused`: every set of grounds for refusal, each brought about in several ways.
use super::faces::lent;
use super::numbers::threshold;
use super::small;
use crate::mesh::{Case, Corner, Mesh, framed};
use crate::random::Random;
use crate::refusals::{MOST_FACES, bare};

/// The bits of what is no finite number.
const UNFIT: [u32; 6] = [
    0x7F80_0000,
    0xFF80_0000,
    0x7FC0_0000,
    0xFFC0_0000,
    0x7F80_0001,
    0xFFFF_FFFF,
];

/// The bits of what counts as zero.
const ZEROS: [u32; 6] = [
    0x0000_0000,
    0x8000_0000,
    0x0000_0001,
    0x807F_FFFF,
    0x0080_0000,
    0x8080_0000,
];

/// The bits of the least numbers that do not.
const LEAST: [u32; 2] = [0x0080_0001, 0x8080_0001];

/// The refusals in the order of the table.
const ORDER: [u32; 7] = [1, 2, 3, 4, 7, 5, 6];

/// Of so many cases the first 128 have every set of grounds, the others those without refusal 1: such a mesh is large.
const TURN: u64 = 2048;

/// The grounds of case number `i`: its binary digits in the order of the table, refusal 1 the last.
fn grounds(i: u64) -> Vec<u32> {
    let set = if i % TURN < 128 { i } else { i & !1 };
    let digits = (0..ORDER.len()).filter(|digit| set >> digit & 1 == 1);
    digits.map(|digit| ORDER[digit]).collect()
}

/// Case number `i`.
pub fn make(r: &mut Random, i: u64) -> Case {
    let grounds = grounds(i);
    let ground = |number: u32| grounds.contains(&number);
    let mut mesh = base(r, ground(1));
    let mut places = [0; 8];
    if ground(7) {
        places[7] = undress(r, &mut mesh);
    }
    if ground(4) {
        places[4] = plant(r, &mut mesh);
    }
    if ground(3) {
        mesh.threshold = r.pick(&UNFIT);
    }
    if ground(5) {
        mesh.answer = shorter(r, mesh.needed_answer());
    }
    if ground(6) {
        mesh.work = shorter(r, mesh.needed_work());
    }
    if ground(2) {
        mislay(r, &mut mesh);
    }
    let number = grounds.first().copied().unwrap_or(0);
    Case {
        mesh,
        owners: vec![],
        foreseen: Some((number, places[number as usize])),
    }
}

/// An accepted mesh with a face that has slots, or one with too many faces.
fn base(r: &mut Random, crowded: bool) -> Mesh {
    let mut faces = small::faces(r);
    faces.push(vec![[0, 0, 0, 0, 0, 0x3F80_0000, 0, 0]; r.from_to(3, 4)]);
    let dressed = faces.iter_mut().filter(|face| framed(face.len() as u8));
    dressed.flatten().for_each(|corner| dress(r, corner));
    if crowded {
        let count = MOST_FACES + r.pick(&[1, 1, 2, 904]);
        let size = r.pick(&[0, 0, 1, 3]);
        faces.resize(count, vec![[0, 0, 0, 0, 0, 0x3F80_0000, 0, 0]; size]);
    }
    if r.chance(1, 2) {
        r.shuffle(&mut faces);
    }
    let threshold = threshold(r);
    lent(r, &faces, threshold)
}

/// Gives a corner without a normal one, and one of eight the least that there is: one number that counts, and two that do not.
fn dress(r: &mut Random, corner: &mut Corner) {
    if r.chance(1, 8) {
        corner[3..6].fill_with(|| r.pick(&ZEROS));
        corner[r.from_to(3, 5)] = r.pick(&LEAST);
    } else if bare(*corner) {
        corner[5] = 0x3F80_0000;
    }
}

/// One to three corners of faces with slots.
fn some_corners(r: &mut Random, mesh: &Mesh) -> Vec<usize> {
    let mut places = vec![];
    let mut first = 0;
    for &size in &mesh.sizes {
        let corners = first..first + usize::from(size);
        first = corners.end;
        places.extend(corners.filter(|_| framed(size)));
    }
    (0..r.from_to(1, 3)).map(|_| r.pick(&places)).collect()
}

/// Takes the normals of one to three corners of faces with slots away; the lowest of these corners.
fn undress(r: &mut Random, mesh: &mut Mesh) -> u32 {
    let mut lowest = usize::MAX;
    for corner in some_corners(r, mesh) {
        mesh.normals[3 * corner..3 * corner + 3].fill_with(|| r.pick(&ZEROS));
        lowest = lowest.min(corner);
    }
    lowest as u32
}

/// Puts one to three NaNs or infinities into corners of faces with slots; the lowest of these corners.
fn plant(r: &mut Random, mesh: &mut Mesh) -> u32 {
    let mut lowest = usize::MAX;
    for corner in some_corners(r, mesh) {
        let bits = r.pick(&UNFIT);
        match r.below(8) {
            k @ 0..3 => mesh.positions[3 * corner + k] = bits,
            k @ 3..6 => mesh.normals[3 * corner + k - 3] = bits,
            k => mesh.texture[2 * corner + k - 6] = bits,
        }
        lowest = lowest.min(corner);
    }
    lowest as u32
}

/// A length below the one that is needed.
fn shorter(r: &mut Random, needed: usize) -> usize {
    match r.below(4) {
        0 => 0,
        1 => r.below(needed),
        _ => needed - 1,
    }
}

/// Makes at least one of the three lists too short or too long.
fn mislay(r: &mut Random, mesh: &mut Mesh) {
    let by = r.from_to(1, 3);
    match r.below(8) {
        0 => mesh.positions.truncate(mesh.positions.len() - by),
        1 => mesh.normals.truncate(mesh.normals.len() - by),
        2 => mesh.texture.truncate(mesh.texture.len() - by),
        3 => mesh.positions.extend(vec![0; by]),
        4 => mesh.normals.extend(vec![0x7FC0_0000; by]),
        5 => mesh.texture.extend(vec![0; by]),
        // a whole corner short, or long
        6 => {
            mesh.positions.truncate(mesh.positions.len() - 3);
            mesh.normals.truncate(mesh.normals.len() - 3);
            mesh.texture.truncate(mesh.texture.len() - 2);
        }
        _ => {
            mesh.positions.extend([0; 3]);
            mesh.normals.extend([0; 3]);
            mesh.texture.extend([0; 2]);
        }
    }
}

#[cfg(test)]
mod tests {
    use super::{ORDER, grounds, make};
    use crate::random::Random;
    use crate::refusals::refusal;

    #[test]
    fn every_two_of_the_seven_grounds_come_together() {
        let sets: Vec<Vec<u32>> = (0..128).map(grounds).collect();
        for (i, set) in sets.iter().enumerate() {
            assert!(!sets[..i].contains(set), "{set:?} twice");
        }
        for one in ORDER {
            let others = ORDER.into_iter().filter(|&other| other != one);
            for other in others {
                let both = |set: &&Vec<u32>| set.contains(&one) && set.contains(&other);
                assert_eq!(sets.iter().filter(both).count(), 32, "{one} and {other}");
            }
        }
    }

    #[test]
    fn cases_are_what_they_are_made_for() {
        // refusal 1 is left to the runs: such meshes are large
        for i in (0..1024).map(|i| 2 * i) {
            let case = make(&mut Random::of(1, "refused", i), i);
            let told = refusal(&case.mesh).unwrap_or((0, 0));
            assert_eq!(Some(told), case.foreseen, "case {i}, {:?}", grounds(i));
        }
    }
}
