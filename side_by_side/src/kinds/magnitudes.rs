//! `magnitudes`: numbers whose differences, squares or quotients overflow, go subnormal or vanish.
use super::faces::{Face, book, closed, lent, pinched, soup};
use super::numbers::{Family, Style, pool, power, threshold};
use super::sheets::Grid;
use crate::mesh::{Case, Corner};
use crate::random::Random;

/// A case.
pub fn make(r: &mut Random, _: u64) -> Case {
    let faces = if r.chance(1, 3) { sheet(r) } else { pooled(r) };
    let threshold = threshold(r);
    lent(r, &faces, threshold).into()
}

/// A sheet at any scales.
fn sheet(r: &mut Random) -> Vec<Face> {
    let (position, texture) = (power(r), power(r));
    let scales = [f32::MAX / 8.0, 1e-45, 1e-38, 1.0];
    let (mut positions, mut textures) = (scales.to_vec(), scales.to_vec());
    positions.extend([position; 4]);
    textures.extend([texture; 4]);
    let mut faces = Grid::random(r, &positions, &textures).faces(r);
    let overflown = |bits: &mut u32| *bits & 0x7FFF_FFFF == 0x7F80_0000;
    faces
        .iter_mut()
        .filter(|face| matches!(face.len(), 3 | 4))
        .flatten()
        .flatten()
        .for_each(|bits| {
            if overflown(bits) {
                *bits -= 1;
            }
        });
    faces
}

/// Faces over a pool of extreme numbers.
fn pooled(r: &mut Random) -> Vec<Face> {
    use Family::{Any, Edges, Unit, Whole};
    let mut style = Style::random(
        r,
        &[Edges, Edges, Any, Whole, Unit],
        &[None, None, Some(Edges), Some(Any), Some(Whole)],
    );
    if r.chance(2, 3) {
        style.position_scale = power(r);
    }
    if r.chance(2, 3) {
        style.texture_scale = power(r);
    }
    let pool: Vec<Corner> = pool(r, 8, &style);
    match r.below(5) {
        0 => book(r, &pool),
        1 => closed(r, &pool),
        2 => pinched(r, &pool),
        _ => soup(r, &pool),
    }
}
