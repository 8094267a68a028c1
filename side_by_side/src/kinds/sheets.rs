//! Sheets: a grid of corners, its cells filled with quads, triangles, holes and damaged faces.
use super::faces::{Face, turned, unframed};
use crate::mesh::{Corner, corner};
use crate::random::Random;

/// How the texture runs over the columns of a grid.
#[derive(Clone, Copy, Default)]
pub enum Fold {
    #[default]
    Plain,
    /// Mirrored about the middle column.
    Middle,
    /// To and fro, every two columns.
    Often,
}

/// How a grid is made.
pub struct Grid {
    pub wide: usize,
    pub high: usize,
    pub fold: Fold,
    /// How far corners stand from their places.
    pub noise: f32,
    pub position_scale: f32,
    pub texture_scale: f32,
    /// Some zeros get the other sign.
    pub signs: bool,
    /// Some zeros become the smallest numbers.
    pub tiny: bool,
    /// One of four corners has the texture of any place.
    pub loose: bool,
    /// How many of ten cells have a quad with a triangle that has no texture area.
    pub lame: usize,
}

impl Default for Grid {
    /// One plain cell.
    fn default() -> Grid {
        Grid {
            wide: 1,
            high: 1,
            fold: Fold::Plain,
            noise: 0.0,
            position_scale: 1.0,
            texture_scale: 1.0,
            signs: false,
            tiny: false,
            loose: false,
            lame: 1,
        }
    }
}

impl Grid {
    /// A grid of 1 to 5 cells each way at these scales.
    pub fn random(r: &mut Random, position_scales: &[f32], texture_scales: &[f32]) -> Grid {
        Grid {
            wide: r.from_to(1, 5),
            high: r.from_to(1, 5),
            fold: r.pick(&[Fold::Plain, Fold::Middle, Fold::Often]),
            noise: r.pick(&[0.0, 0.0, 0.1, 0.5]),
            position_scale: r.pick(position_scales),
            texture_scale: r.pick(texture_scales),
            signs: r.chance(1, 4),
            loose: r.chance(1, 4),
            ..Grid::default()
        }
    }

    /// The corners, row by row.
    fn corners(&self, r: &mut Random) -> Vec<Corner> {
        let places = (0..=self.high).flat_map(|j| (0..=self.wide).map(move |i| (i, j)));
        places.map(|(i, j)| self.corner(r, i, j)).collect()
    }

    /// The corner of a column and a row.
    fn corner(&self, r: &mut Random, i: usize, j: usize) -> Corner {
        let mut off = || self.noise * (r.unit() - 0.5);
        let position = [i as f32 + off(), j as f32 + off(), off()];
        let mut texture = [self.column(i), j as f32 + off()];
        if self.loose && r.chance(1, 4) {
            texture = [r.below(3) as f32, r.below(3) as f32];
        }
        let tilt = if self.noise > 0.3 {
            0.3 * r.unit()
        } else {
            0.0
        };
        let mut made = corner(
            position.map(|x| x * self.position_scale),
            [tilt, 0.0, (1.0 - tilt * tilt).sqrt()],
            texture.map(|x| x * self.texture_scale),
        );
        self.touch_zeros(r, &mut made);
        made
    }

    /// Turns the signs of some zeros, and makes some zeros of a position the smallest numbers.
    fn touch_zeros(&self, r: &mut Random, corner: &mut Corner) {
        for bits in corner.iter_mut().filter(|bits| **bits == 0) {
            if self.signs && r.chance(1, 3) {
                *bits = 0x8000_0000;
            }
        }
        if self.tiny {
            corner[0..3]
                .iter_mut()
                .for_each(|bits| shrink_zero(r, bits));
        }
    }

    /// Where the texture of a column stands.
    fn column(&self, i: usize) -> f32 {
        match self.fold {
            Fold::Plain => i as f32,
            Fold::Middle => i.abs_diff(self.wide / 2) as f32,
            Fold::Often if (i / 2).is_multiple_of(2) => i as f32,
            Fold::Often => 2.0 - i as f32,
        }
    }

    /// The faces of all cells, in order or not.
    pub fn faces(&self, r: &mut Random) -> Vec<Face> {
        let corners = self.corners(r);
        let mut faces = vec![];
        for low in (0..self.high).flat_map(|j| (0..self.wide).map(move |i| j * (self.wide + 1) + i))
        {
            let high = low + self.wide + 1;
            let cell = [
                corners[low],
                corners[low + 1],
                corners[high + 1],
                corners[high],
            ];
            if r.chance(1, 30) {
                faces.push(unframed(r, &corners));
            }
            let cell = turned(r, cell.to_vec());
            if r.chance(self.lame, 10) {
                faces.push(lame(cell));
            } else {
                faces.extend(filled(r, cell));
            }
        }
        if r.chance(1, 2) {
            r.shuffle(&mut faces);
        }
        faces
    }
}

/// Makes one of the smallest numbers of some zeros.
pub fn shrink_zero(r: &mut Random, bits: &mut u32) {
    if *bits << 1 == 0 && r.chance(1, 2) {
        *bits |= r.below(4) as u32;
    }
}

/// A quad whose last corner has its texture in line with the first and the third: one triangle has no texture area.
fn lame(mut q: Face) -> Face {
    q[3][6] = beyond(q[0][6], q[2][6]);
    q[3][7] = beyond(q[0][7], q[2][7]);
    q
}

/// As far beyond the second number as that is from the first, where that is finite; else the second.
fn beyond(first: u32, second: u32) -> u32 {
    let [first, second] = [first, second].map(f32::from_bits);
    let far = second + (second - first);
    if far.is_finite() { far } else { second }.to_bits()
}

/// The faces of one cell.
fn filled(r: &mut Random, q: Face) -> Vec<Face> {
    match r.below(10) {
        0 => vec![],
        1 => vec![vec![q[0], q[1], q[2]], vec![q[2], q[3], q[0]]],
        2 => vec![vec![q[0], q[1], q[3]], vec![q[3], q[1], q[2]]],
        // one of the two is run the other way
        3 => vec![vec![q[0], q[2], q[1]], vec![q[0], q[2], q[3]]],
        4 => vec![doubled(r, q)],
        5 => vec![doubled(r, q[..3].to_vec()), vec![q[0], q[3], q[2]]],
        _ => vec![q],
    }
}

/// A face with one corner put in the place of another; its texture may stay other.
fn doubled(r: &mut Random, mut face: Face) -> Face {
    let (from, to) = (r.below(face.len()), r.below(face.len()));
    let texture = [face[from][7], face[from][6]];
    face[to] = face[from];
    if r.chance(1, 2) {
        face[to][6..8].copy_from_slice(&texture);
    }
    face
}
