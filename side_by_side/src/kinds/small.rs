//! `mesh`: small meshes with heavily shared corners, books, fans, mirrored texture, degenerate faces.
use super::faces::{Face, book, closed, fan, lent, pinched, soup};
use super::numbers::{Family, Style, pool, power, threshold};
use super::sheets::Grid;
use crate::mesh::Case;
use crate::random::Random;

/// A case.
pub fn make(r: &mut Random, _: u64) -> Case {
    let faces = faces(r);
    let threshold = threshold(r);
    lent(r, &faces, threshold).into()
}

/// The faces of a small mesh.
pub fn faces(r: &mut Random) -> Vec<Face> {
    match r.below(12) {
        0 | 1 => {
            let positions = [1.0, 1.0, 1.0, 1e-3, 1e5, 1e-19, 1e18, 1e-22];
            Grid::random(r, &positions, &[1.0, 1.0, 0.25, 1e-18, 1e18]).faces(r)
        }
        2 => fan(r),
        3 => over_pool(r, 5, 8, book),
        4 | 5 => over_pool(r, 6, 6, closed),
        6 | 7 => over_pool(r, 6, 8, pinched),
        _ => over_pool(r, 3, 9, soup),
    }
}

/// Faces over a pool of `low` to `high` corners.
fn over_pool(
    r: &mut Random,
    low: usize,
    high: usize,
    faces: fn(&mut Random, &[crate::mesh::Corner]) -> Vec<Face>,
) -> Vec<Face> {
    let style = style(r);
    let count = r.from_to(low, high);
    let pool = pool(r, count, &style);
    faces(r, &pool)
}

/// A style: mostly few numbers, so that positions, normals and textures meet often.
fn style(r: &mut Random) -> Style {
    use Family::{Any, Edges, Few, Unit, Whole};
    let families = [Few, Few, Few, Unit, Unit, Whole, Whole, Edges, Any];
    let normals = [
        None,
        None,
        None,
        None,
        Some(Few),
        Some(Few),
        Some(Unit),
        Some(Whole),
        Some(Edges),
        Some(Any),
    ];
    let mut style = Style::random(r, &families, &normals);
    if r.chance(1, 4) {
        style.position_scale = power(r);
    }
    if r.chance(1, 4) {
        style.texture_scale = power(r);
    }
    style
}
