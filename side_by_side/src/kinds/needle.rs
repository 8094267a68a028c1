//! `needle`: points on one line or a hair beside it, with normals along that line or across it, so that tangents and their projections vanish.
use super::faces::{Face, lent};
use super::numbers::{threshold, unit_vector};
use crate::mesh::{Case, Corner, corner};
use crate::random::Random;

/// A line, how far points stand beside it, and at which scale.
struct Line {
    from: [f32; 3],
    along: [f32; 3],
    hair: f32,
    scale: f32,
}

/// A case.
pub fn make(r: &mut Random, _: u64) -> Case {
    let line = Line::random(r);
    let kind = r.below(5);
    let pool: Vec<Corner> = (0..r.from_to(3, 7)).map(|_| line.corner(r, kind)).collect();
    let faces: Vec<Face> = (0..r.from_to(1, 8)).map(|_| face(r, &pool)).collect();
    let threshold = threshold(r);
    lent(r, &faces, threshold).into()
}

/// A triangle or a quad of corners of the pool, which differ as long as there are enough.
fn face(r: &mut Random, pool: &[Corner]) -> Face {
    let mut left = pool.to_vec();
    r.shuffle(&mut left);
    let size = r.pick(&[3, 3, 4]);
    left.into_iter().chain([pool[0]]).take(size).collect()
}

/// A vector at unit length.
fn unit(v: [f32; 3]) -> [f32; 3] {
    let length = (v[0] * v[0] + v[1] * v[1] + v[2] * v[2]).sqrt();
    v.map(|x| x / length)
}

impl Line {
    fn random(r: &mut Random) -> Line {
        let along = match r.below(4) {
            0 => [1.0, 0.0, 0.0],
            1 => [0.0, 0.0, 1.0],
            2 => [1.0, 1.0, 0.0],
            _ => unit_vector(r),
        };
        let apart = r.pick(&[0.0, 4.0]);
        Line {
            from: [0; 3].map(|_| r.signed() * apart),
            along,
            hair: r.pick(&[0.0, 0.0, 0.0, 0.0, 1e-7, 1e-20, 1e-38, 1e-44]),
            scale: r.pick(&[1.0, 1.0, 1.0, 1e-3, 1e10]),
        }
    }

    /// A direction that is not that of the line.
    fn side(&self) -> [f32; 3] {
        [self.along[1] + 0.5, -self.along[2], self.along[0]]
    }

    /// A corner on the line, a hair beside it, or in one of four well beside it.
    fn corner(&self, r: &mut Random, kind: usize) -> Corner {
        let far = (r.below(9) as f32 - 4.0) * r.pick(&[1.0, 1.0, 0.5, 0.1]);
        let out = if r.chance(1, 4) {
            r.pick(&[1.0, -1.0, 0.5])
        } else {
            self.hair
        };
        let side = self.side();
        let place =
            [0, 1, 2].map(|i| (self.from[i] + far * self.along[i] + out * side[i]) * self.scale);
        let texture = [0; 2].map(|_| r.below(5) as f32 - 2.0);
        corner(place, self.normal(r, kind), texture)
    }

    /// A normal along the line, across it, upwards, any, or one of these.
    fn normal(&self, r: &mut Random, kind: usize) -> [f32; 3] {
        let kind = if kind == 4 { r.below(4) } else { kind };
        let normal = match kind {
            0 => unit(self.along),
            1 => unit(self.side()),
            2 => [0.0, 0.0, 1.0],
            _ => unit_vector(r),
        };
        if r.chance(1, 10) {
            normal.map(|x| -x)
        } else {
            normal
        }
    }
}
