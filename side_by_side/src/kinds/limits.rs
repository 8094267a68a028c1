//! `limits`: few and many faces, and lists that are one short, exact and one long, counted off; and for `largest` face counts
//! about the limit.
use super::numbers::THRESHOLDS;
use crate::mesh::{Case, Corner, Mesh, corner};
use crate::random::Random;
use crate::refusals::MOST_FACES;

const FACES: [usize; 5] = [0, 1, 4095, 4096, 4097];
/// About the limit.
const ABOUT: [usize; 3] = [MOST_FACES - 1, MOST_FACES, MOST_FACES + 1];
/// The sizes of the faces, over and over.
const SIZES: [&[usize]; 5] = [&[3], &[4], &[4, 3, 3, 4], &[5, 2, 0], &[4, 0, 3, 1, 5]];
/// Which list is altered in length, and how.
const CHANGES: [(usize, Change); 7] = [
    (0, Change::Exact),
    (0, Change::Short),
    (0, Change::Long),
    (1, Change::Short),
    (1, Change::Long),
    (2, Change::Short),
    (2, Change::Long),
];
const LENT: [Change; 3] = [Change::Exact, Change::Short, Change::Long];

/// How many cases there are.
pub const ALL: u64 =
    (FACES.len() * SIZES.len() * CHANGES.len() * LENT.len() * LENT.len() * THRESHOLDS.len()) as u64;

/// How many cases about the limit there are: each with no list short, and with one of three.
pub const ALL_ABOUT: u64 = (ABOUT.len() * SIZES.len() * 4) as u64;

/// A length by one off, or not.
#[derive(Clone, Copy, PartialEq)]
enum Change {
    Exact,
    Short,
    Long,
}

impl Change {
    /// The length, altered; nothing is shorter than an empty list.
    fn of(self, length: usize) -> usize {
        match self {
            Change::Exact => length,
            Change::Short => length.saturating_sub(1),
            Change::Long => length + 1,
        }
    }
}

/// The digits of a number, the lowest first, each of the base that is asked for.
fn digits(mut number: u64) -> impl FnMut(usize) -> usize {
    move |base| {
        let digit = (number % base as u64) as usize;
        number /= base as u64;
        digit
    }
}

/// Case number `i`.
pub fn make(_: &mut Random, i: u64) -> Case {
    let mut digit = digits(i);
    let threshold = THRESHOLDS[digit(THRESHOLDS.len())];
    let (answer, work) = (LENT[digit(LENT.len())], LENT[digit(LENT.len())]);
    let (list, change) = CHANGES[digit(CHANGES.len())];
    let sizes = SIZES[digit(SIZES.len())];
    let mut mesh = sheet(FACES[digit(FACES.len())], sizes, threshold);
    mesh.answer = answer.of(mesh.needed_answer());
    mesh.work = work.of(mesh.needed_work());
    let lists = [&mut mesh.positions, &mut mesh.normals, &mut mesh.texture];
    let altered = lists
        .into_iter()
        .nth(list)
        .is_some_and(|list| resize(list, change));
    made(mesh, altered)
}

/// Case number `i` about the limit: no list, the positions, the answer list or the work list is one short.
pub fn about(i: u64) -> Case {
    let mut digit = digits(i);
    let (short, sizes) = (digit(4), SIZES[digit(SIZES.len())]);
    let mut mesh = sheet(ABOUT[digit(ABOUT.len())], sizes, -1.0);
    match short {
        1 => drop(mesh.positions.pop()),
        2 => mesh.answer = Change::Short.of(mesh.answer),
        3 => mesh.work -= 1,
        _ => {}
    }
    made(mesh, short == 1)
}

/// The case of a mesh, whose positions, normals or texture were altered in length or not.
fn made(mesh: Mesh, altered: bool) -> Case {
    let number = foreseen(&mesh, altered);
    Case {
        mesh,
        owners: vec![],
        foreseen: Some((number, 0)),
    }
}

/// Alters the length of a list; true if it is another one then.
fn resize(list: &mut Vec<u32>, change: Change) -> bool {
    let before = list.len();
    list.resize(change.of(before), 0);
    list.len() != before
}

/// The number that the mesh is made for.
fn foreseen(mesh: &Mesh, altered: bool) -> u32 {
    let grounds = [
        (1, mesh.sizes.len() == 65_537),
        (2, altered),
        (5, mesh.answer + 1 == mesh.needed_answer()),
        (6, mesh.work + 1 == mesh.needed_work()),
    ];
    grounds
        .into_iter()
        .find(|ground| ground.1)
        .map_or(0, |ground| ground.0)
}

/// A corner of a wavy sheet; every second five columns are mirrored.
fn point(i: usize, j: usize) -> Corner {
    let (x, y) = (i as f32, j as f32);
    let position = [
        x + 0.3 * (y * 0.7).sin(),
        y + 0.2 * (x * 1.3).cos(),
        (x * 0.5).sin() + (y * 0.25).cos(),
    ];
    let normal = [0.3 * (x * 0.5).sin(), 0.2 * (y * 0.9).cos(), 0.95];
    let u = if i % 10 < 5 { x } else { -x };
    corner(position, normal, [u + 0.25 * y, y - 0.125 * x])
}

/// A sheet of so many faces, 64 a row; every 37th face has no texture.
fn sheet(count: usize, sizes: &[usize], threshold: f32) -> Mesh {
    let face = |f: usize| -> Vec<Corner> {
        let (i, j) = (f % 64, f / 64);
        let mut quad = [
            point(i, j),
            point(i + 1, j),
            point(i + 1, j + 1),
            point(i, j + 1),
        ];
        if f % 37 == 36 {
            quad.iter_mut().for_each(|corner| corner[6..8].fill(0));
        }
        quad.into_iter()
            .cycle()
            .take(sizes[f % sizes.len()])
            .collect()
    };
    let faces: Vec<Vec<Corner>> = (0..count).map(face).collect();
    Mesh::of(&faces, threshold.to_bits())
}
