//! `zeros`: zeros of both signs, and numbers that differ from them by the smallest ones.
use super::faces::{Face, book, closed, lent, pinched, soup, turned};
use super::numbers::{Family, Style, THRESHOLDS, pool};
use super::sheets::{Fold, Grid, shrink_zero};
use crate::mesh::{Case, Corner, corner};
use crate::random::Random;

/// A case.
pub fn make(r: &mut Random, _: u64) -> Case {
    let mut faces = match r.below(7) {
        0 => {
            let pool = corners(r, 8);
            book(r, &pool)
        }
        1 => {
            let pool = corners(r, 6);
            closed(r, &pool)
        }
        2 => {
            let pool = corners(r, 8);
            pinched(r, &pool)
        }
        3 => {
            let pool = corners(r, 7);
            soup(r, &pool)
        }
        4 => rosette(r),
        _ => sheet(r),
    };
    let (axis, lean) = (r.below(3), r.below(6) % 3);
    for corner in faces.iter_mut().flatten() {
        corner[0..3].rotate_left(axis);
        corner[3..6].rotate_left((axis + lean) % 3);
    }
    let threshold = r.pick(&[THRESHOLDS, [1.0; 7]].concat()).to_bits();
    lent(r, &faces, threshold).into()
}

/// So many corners of zeros and ones, some of the zeros the smallest numbers.
fn corners(r: &mut Random, count: usize) -> Vec<Corner> {
    use Family::Zeros;
    let style = Style::random(r, &[Zeros], &[Some(Zeros), None]);
    let mut pool = pool(r, count, &style);
    if r.chance(1, 3) {
        pool.iter_mut()
            .flatten()
            .for_each(|bits| shrink_zero(r, bits));
    }
    pool
}

/// A small flat sheet whose zeros have either sign, some of them the smallest numbers.
fn sheet(r: &mut Random) -> Vec<Face> {
    let grid = Grid {
        wide: r.from_to(1, 3),
        high: r.from_to(1, 3),
        fold: r.pick(&[Fold::Plain, Fold::Plain, Fold::Middle, Fold::Often]),
        signs: true,
        tiny: r.chance(2, 3),
        loose: r.chance(1, 3),
        lame: r.pick(&[1, 3]),
        ..Grid::default()
    };
    grid.faces(r)
}

/// A closed flat fan with its places as texture, so that its frames are equal but for signs of zeros; some triangles
/// have their corners in one line.
fn rosette(r: &mut Random) -> Vec<Face> {
    // the least normal that is there takes nothing off a vector; one of sixteen is absent, and the mesh is refused
    let least = f32::from_bits(0x0080_0001);
    let tall = r.pick(&[[1.0, least].repeat(7), vec![1.0, 0.0]].concat());
    let normal = [0.0, 0.0, tall];
    let point = |r: &mut Random, [x, y]: [f32; 2]| {
        let mut made = corner([x, y, 0.0], normal, [x, y]);
        made[0..3].iter_mut().for_each(|bits| touch(r, bits));
        made
    };
    let hub = point(r, [0.0; 2]);
    let rim: Vec<Corner> = places(r).into_iter().map(|place| point(r, place)).collect();
    let mut faces = vec![];
    let mut i = 0;
    while i < rim.len() {
        let wide = if i + 2 <= rim.len() {
            r.from_to(1, 2)
        } else {
            1
        };
        let blade = (i..=i + wide).map(|i| rim[i % rim.len()]);
        faces.push(turned(r, std::iter::once(hub).chain(blade).collect()));
        i += wide;
    }
    r.shuffle(&mut faces);
    faces
}

/// Places round a hub: in each of eight directions at one distance or at two.
fn places(r: &mut Random) -> Vec<[f32; 2]> {
    const DIRECTIONS: [[f32; 2]; 8] = [
        [1.0, 0.0],
        [1.0, 1.0],
        [0.0, 1.0],
        [-1.0, 1.0],
        [-1.0, 0.0],
        [-1.0, -1.0],
        [0.0, -1.0],
        [1.0, -1.0],
    ];
    let distances: [&[f32]; 4] = [&[1.0], &[2.0], &[1.0, 2.0], &[2.0, 1.0]];
    let mut places = vec![];
    for direction in DIRECTIONS {
        places.extend(
            r.pick(&distances)
                .iter()
                .map(|&far| direction.map(|x| x * far)),
        );
    }
    places
}

/// Gives a zero either sign, or makes one of the smallest numbers of it.
fn touch(r: &mut Random, bits: &mut u32) {
    if *bits << 1 == 0 {
        *bits |= r.word() & 0x8000_0000;
        shrink_zero(r, bits);
    }
}
