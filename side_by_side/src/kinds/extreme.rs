//! `extreme`: small meshes whose positions, normals and texture are brought to the ends of the range of exponents, each by a power of two of its own.
use super::faces::{Face, lent};
use super::numbers::threshold;
use super::small;
use crate::mesh::{Case, Corner};
use crate::random::Random;
use crate::refusals::unfit;

/// Exponents at which numbers, their squares or what counts as above zero end.
const EDGES: [i32; 29] = [
    -149, -148, -140, -127, -126, -125, -100, -80, -76, -75, -74, -73, -64, -63, -30, -1, 0, 0, 1,
    30, 62, 63, 64, 65, 80, 100, 125, 126, 127,
];

/// By which powers of two a corner's eight numbers are scaled, and how far its position is moved.
struct Scales {
    powers: [i32; 8],
    moved: [f64; 3],
}

/// A case.
pub fn make(r: &mut Random, _: u64) -> Case {
    let mut faces: Vec<Face> = small::faces(r);
    let scales = Scales::random(r);
    faces
        .iter_mut()
        .flatten()
        .for_each(|corner| scales.apply(corner));
    let threshold = threshold(r);
    lent(r, &faces, threshold).into()
}

/// An exponent, half of them at an edge.
fn exponent(r: &mut Random) -> i32 {
    if r.chance(1, 2) {
        r.pick(&EDGES)
    } else {
        r.below(277) as i32 - 149
    }
}

impl Scales {
    /// Positions mostly alike; texture often such that s and t come to where their squares overflow or vanish.
    fn random(r: &mut Random) -> Scales {
        let all = exponent(r);
        let [x, y, z] = [0; 3].map(|_| if r.chance(3, 4) { all } else { exponent(r) });
        let texture = match r.below(5) {
            0 => 0,
            1 => r.pick(&[61, 62, 63, 64]) - all,
            2 => r.pick(&[-73, -74, -75, -76]) - all,
            3 => r.below(130) as i32 - 66,
            _ => exponent(r),
        };
        let normal = match r.below(6) {
            0 => exponent(r),
            1 => r.pick(&[63, 64, 65, 126, -63, -64, -75, -126]),
            _ => 0,
        };
        let (n, t) = (normal, texture.clamp(-149, 127));
        let moved = [0; 3].map(|_| {
            if r.chance(1, 6) {
                2f64.powi(r.pick(&[127, 126, 100, 64, 24])) * r.pick(&[1.0, -1.0, 1.5])
            } else {
                0.0
            }
        });
        Scales {
            powers: [x, y, z, n, n, n, t, t],
            moved,
        }
    }

    /// Scales a corner; corners that were equal stay so, and what overflows becomes the greatest number.
    fn apply(&self, corner: &mut Corner) {
        for (k, bits) in corner.iter_mut().enumerate() {
            if unfit(*bits) {
                continue;
            }
            let moved = self.moved.get(k).copied().unwrap_or(0.0);
            let x = f64::from(f32::from_bits(*bits)) * 2f64.powi(self.powers[k]) + moved;
            *bits = (x as f32).clamp(f32::MIN, f32::MAX).to_bits();
        }
    }
}
