//! Shapes of any number of faces.
use crate::faces::{Corner, Faces, flat};
use std::f64::consts::TAU;

/// Quads round a tube; texture runs from 0 to 1 round it, so that the seam is not welded. 2^k faces are just that many.
pub fn tube(count: usize) -> Faces {
    grid(count, tube_corner)
}

/// A gently bulging sheet of quads, texture from above. 2^k faces are just that many.
pub fn sheet(count: usize) -> Faces {
    grid(count, sheet_corner)
}

/// Triangles round one corner, in a plane that is its own texture.
pub fn fan(count: usize) -> Faces {
    let texture = |angle: f64| [0.5 + 0.5 * angle.cos(), 0.5 + 0.5 * angle.sin()];
    round_a_hub(count, texture, [0.5, 0.5])
}

/// A fan whose texture turns twice as fast: between thresholds 0 and 1 every member of the hub's group has a subgroup of its own.
pub fn turning_fan(count: usize) -> Faces {
    let texture = |angle: f64| [(2.0 * angle).cos(), (2.0 * angle).sin()];
    round_a_hub(count, texture, [0.0, 0.0])
}

/// Triangles between two corners, each with a third of its own: all run the same way, or every other one the opposite way.
pub fn book(count: usize, mixed: bool) -> Faces {
    let page = |f: usize| {
        let turned = if mixed { (f % 2) as f32 } else { 0.0 };
        [[0.0, turned], [0.0, 1.0 - turned], [1.0 + f as f32, 0.5]].map(flat)
    };
    Faces::of((0..count).map(page))
}

/// The deepest walk: quads round a hub in a plane, each cut through it, so that all its triangles have a corner there.
pub fn deepest(count: usize) -> Faces {
    let step = TAU / (count + 1) as f64;
    let at = |turns: f64, radius: f64| {
        let (sine, cosine) = (turns * step).sin_cos();
        [(radius * cosine) as f32, (radius * sine) as f32]
    };
    // the diagonal through the hub is a quarter of the other one
    let quad = |f: usize| {
        let turn = f as f64;
        let inner = at(turn + 0.5, 0.25 * step);
        [[0.0; 2], at(turn, 1.0), inner, at(turn + 1.0, 1.0)].map(flat)
    };
    Faces::of((0..count).map(quad))
}

/// The corner with these numbers, each rounded once.
fn rounded(position: [f64; 3], normal: [f64; 3], texture: [f64; 2]) -> Corner {
    (
        position.map(|x| x as f32),
        normal.map(|x| x as f32),
        texture.map(|x| x as f32),
    )
}

/// Quads over a grid, as square as it can be; a corner is made from its shares of the way along both sides.
fn grid(count: usize, point: fn(f64, f64) -> Corner) -> Faces {
    let root = count.isqrt();
    let wide = (root..=count)
        .find(|wide| count.is_multiple_of(*wide))
        .filter(|wide| *wide <= 2 * root)
        .unwrap_or(root);
    let high = count / wide;
    let at = |i: usize, j: usize| point(i as f64 / wide as f64, j as f64 / high as f64);
    let quad = |i: usize, j: usize| [at(i, j), at(i + 1, j), at(i + 1, j + 1), at(i, j + 1)];
    Faces::of((0..high * wide).map(|k| quad(k % wide, k / wide)))
}

/// A corner of the tube.
fn tube_corner(round: f64, along: f64) -> Corner {
    let (sine, cosine) = ((round % 1.0) * TAU).sin_cos();
    rounded([cosine, sine, along], [cosine, sine, 0.0], [round, along])
}

/// A corner of the sheet.
fn sheet_corner(x: f64, y: f64) -> Corner {
    let height = 0.1 * (3.0 * x).sin() * (2.0 * y).cos();
    let slope = [
        0.3 * (3.0 * x).cos() * (2.0 * y).cos(),
        -0.2 * (3.0 * x).sin() * (2.0 * y).sin(),
    ];
    let length = (1.0 + slope[0] * slope[0] + slope[1] * slope[1]).sqrt();
    rounded(
        [x, y, height],
        [-slope[0] / length, -slope[1] / length, 1.0 / length],
        [x, y],
    )
}

/// Triangles round a hub, in a plane.
fn round_a_hub(count: usize, texture: fn(f64) -> [f64; 2], hub_texture: [f64; 2]) -> Faces {
    let rim = |i: usize| {
        let angle = (i % count) as f64 / count as f64 * TAU;
        rounded(
            [angle.cos(), angle.sin(), 0.0],
            [0.0, 0.0, 1.0],
            texture(angle),
        )
    };
    let hub = rounded([0.0; 3], [0.0, 0.0, 1.0], hub_texture);
    Faces::of((0..count).map(|i| [hub, rim(i), rim(i + 1)]))
}

/// One sound triangle that starts a group, then quads round a hub, each cut through it.
pub fn quad_fan(count: usize) -> Faces {
    let point = |i: usize, out: f64, texture: [f64; 2]| {
        let angle = i as f64 / (count + 1) as f64 * TAU;
        rounded(
            [(1.0 + out) * angle.cos(), (1.0 + out) * angle.sin(), out],
            [0.0, 0.0, 1.0],
            texture,
        )
    };
    let rim = |i: usize| point(i, 0.0, [if i.is_multiple_of(2) { 1.0 } else { -1.0 }, 0.0]);
    let hub = rounded([0.0; 3], [0.0, 0.0, 1.0], [0.0; 2]);
    let quad = |i: usize| vec![hub, rim(i), point(i, 0.5, [0.0; 2]), rim(i + 1)];
    let first = vec![hub, point(0, 0.0, [1.0, 1.0]), rim(1)];
    Faces::of(std::iter::once(first).chain((1..count).map(quad)))
}
