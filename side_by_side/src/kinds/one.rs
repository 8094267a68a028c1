//! `one`: every mesh of one face whose corners are of a small set, and a face of every other size.
use super::numbers::THRESHOLDS;
use crate::mesh::{Case, Corner, Mesh, corner};
use crate::random::Random;

/// Two that are equal but not welded, a square with them, and one out of its plane.
const POSITIONS: [[f32; 3]; 6] = [
    [0.0, 0.0, 0.0],
    [-0.0, 0.0, 0.0],
    [1.0, 0.0, 0.0],
    [1.0, 1.0, 0.0],
    [0.0, 1.0, 0.0],
    [3.0, 1.0, 1.0],
];
/// A square, and one that makes areas of other sizes.
const TEXTURE: [[f32; 2]; 5] = [[0.0, 0.0], [1.0, 0.0], [0.0, 1.0], [1.0, 1.0], [2.0, 0.5]];
const NORMALS: [[f32; 3]; 2] = [[0.0, 0.0, 1.0], [0.6, 0.0, 0.8]];

/// How many corners there are, triangles and quads of them, and other sizes.
const CORNERS: u64 = (POSITIONS.len() * TEXTURE.len() * NORMALS.len()) as u64;
const TRIANGLES: u64 = CORNERS.pow(3);
const OTHERS: u64 = 254;

/// How many cases there are.
pub const ALL: u64 = TRIANGLES + CORNERS.pow(4) + OTHERS;

/// Case number `i`.
pub fn make(_: &mut Random, i: u64) -> Case {
    let face = if i < TRIANGLES {
        face(i, 3)
    } else if i < ALL - OTHERS {
        face(i - TRIANGLES, 4)
    } else {
        other(i - (ALL - OTHERS))
    };
    let mut mesh = Mesh::of(&[face], THRESHOLDS[(i % 7) as usize].to_bits());
    mesh.lend((i % 2) as usize, (i % 3) as usize);
    mesh.into()
}

/// The face of this number, of so many corners.
fn face(mut i: u64, size: usize) -> Vec<Corner> {
    let mut next = || {
        let digit = (i % CORNERS) as usize;
        i /= CORNERS;
        one_of(digit)
    };
    (0..size).map(|_| next()).collect()
}

/// Corner number `i` of all.
fn one_of(i: usize) -> Corner {
    let (position, rest) = (i % POSITIONS.len(), i / POSITIONS.len());
    corner(
        POSITIONS[position],
        NORMALS[rest / TEXTURE.len()],
        TEXTURE[rest % TEXTURE.len()],
    )
}

/// A face of none of the two sizes, that holds no numbers.
fn other(i: u64) -> Vec<Corner> {
    let size = if i < 3 { i } else { i + 2 };
    vec![
        [
            0x7FC0_0000,
            0x7F80_0000,
            0xFF80_0000,
            0xFFFF_FFFF,
            0,
            0,
            0,
            0x7F80_0001
        ];
        size as usize
    ]
}
