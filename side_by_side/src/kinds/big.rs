//! `big`: a few hundred to some thousand faces, and sheets of up to 65,536.
use super::faces::{Face, lent, unframed};
use super::numbers::{Family, Style, THRESHOLDS, pool, threshold};
use super::sheets::{Fold, Grid};
use crate::mesh::Case;
use crate::random::Random;
use crate::refusals::MOST_FACES;
use crate::shapes::{SHAPES, Shape};

/// A case.
pub fn make(r: &mut Random, _: u64) -> Case {
    let faces = match r.below(5) {
        0 => return shape(r),
        1 | 2 => near(r),
        _ => sheet(r),
    };
    let threshold = threshold(r);
    lent(r, &faces, threshold).into()
}

/// One of the bench's shapes. Fans are kept smaller: a group of so many members takes a time of its square.
fn shape(r: &mut Random) -> Case {
    let shape: Shape = r.pick(&SHAPES);
    let most = if shape.is_fan() { 1500 } else { 4096 };
    let count = if r.chance(1, 4) {
        most
    } else {
        r.from_to(300, most)
    };
    shape.mesh(count, r.pick(&THRESHOLDS)).into()
}

/// Faces over a large pool, each of corners that stand near one another in it, so that sides are shared.
fn near(r: &mut Random) -> Vec<Face> {
    use Family::{Any, Edges, Few, Unit, Whole};
    let style = Style::random(
        r,
        &[Few, Unit, Unit, Whole, Edges, Any],
        &[None, None, None, Some(Unit), Some(Edges)],
    );
    let corners = r.from_to(20, 600);
    let pool = pool(r, corners, &style);
    let face = |r: &mut Random| -> Face {
        if r.chance(1, 60) {
            return unframed(r, &pool);
        }
        let (first, wide) = (r.below(pool.len()), r.from_to(3, 7));
        (0..r.from_to(3, 4))
            .map(|_| pool[(first + r.below(wide)) % pool.len()])
            .collect()
    };
    let count = if r.chance(1, 6) {
        4096
    } else {
        r.from_to(200, 1700)
    };
    (0..count).map(|_| face(r)).collect()
}

/// A sheet of at most 3,200 cells, one of eight of up to 65,025.
fn sheet(r: &mut Random) -> Vec<Face> {
    let [wide, high] = if r.chance(1, 8) { [255; 2] } else { [64, 50] };
    let grid = Grid {
        wide: r.from_to(15, wide),
        high: r.from_to(15, high),
        fold: r.pick(&[Fold::Plain, Fold::Middle, Fold::Often]),
        noise: r.pick(&[0.0, 0.1, 0.5]),
        position_scale: r.pick(&[1.0, 1.0, 1e-3, 1e5]),
        texture_scale: r.pick(&[1.0, 1.0, 0.25]),
        signs: r.chance(1, 4),
        ..Grid::default()
    };
    let mut faces = grid.faces(r);
    faces.truncate(MOST_FACES);
    faces
}
