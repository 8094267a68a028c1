//! Numbers, thresholds and corners to build meshes from.
use crate::mesh::{Corner, corner};
use crate::random::Random;
use crate::refusals::{bare, unfit};

/// A set that numbers are taken from.
#[derive(Clone, Copy)]
pub enum Family {
    /// 0, -0, 1, -1 and a half.
    Few,
    /// 0, -0, 1 and -1, half of them zeros.
    Zeros,
    /// Between -1 and 1.
    Unit,
    /// Whole, from -3 to 3.
    Whole,
    /// Where the range of numbers, of their squares and of what counts as above zero ends.
    Edges,
    /// Any finite number.
    Any,
}

/// The thresholds that each kind has to run with.
pub const THRESHOLDS: [f32; 7] = [-2.0, -1.0, 0.0, 0.5, 0.99, 1.0, 2.0];

/// A threshold: mostly one of the seven.
pub fn threshold(r: &mut Random) -> u32 {
    match r.below(16) {
        0 => r.signed().to_bits(),
        1 => r
            .pick(&[f32::MAX, f32::MIN, -0.0, f32::MIN_POSITIVE])
            .to_bits(),
        _ => r.pick(&THRESHOLDS).to_bits(),
    }
}

/// A number of a family.
pub fn number(r: &mut Random, family: Family) -> f32 {
    match family {
        Family::Few => r.pick(&[0.0, -0.0, 1.0, -1.0, 0.5]),
        Family::Zeros => r.pick(&[0.0, -0.0, 1.0, -1.0]),
        Family::Unit => r.signed(),
        Family::Whole => r.below(7) as f32 - 3.0,
        Family::Edges => edge(r),
        Family::Any => any(r),
    }
}

/// A number at an edge, of either sign.
fn edge(r: &mut Random) -> f32 {
    let bits: u32 = r.pick(&[
        0x0000_0000, // zero, the smallest and the greatest subnormal, what still counts as zero and what does not
        0x0000_0001,
        0x007F_FFFF,
        0x0080_0000,
        0x0080_0001,
        0x0080_0002,
        0x0100_0000,
        0x1F80_0000, // numbers whose squares are about 00800000
        0x1F80_0001,
        0x2000_0000,
        0x3F00_0000,
        0x3F80_0000,
        0x3F80_0001,
        0x5F00_0000, // numbers whose squares are about the greatest
        0x5F80_0000,
        0x6000_0000,
        0x7E80_0000,
        0x7F00_0000,
        0x7F7F_FFFF,
    ]);
    f32::from_bits(bits | (r.word() & 0x8000_0000))
}

/// Any finite number.
fn any(r: &mut Random) -> f32 {
    loop {
        let bits = r.word();
        if !unfit(bits) {
            return f32::from_bits(bits);
        }
    }
}

/// A power of two, any that is a normal number.
pub fn power(r: &mut Random) -> f32 {
    f32::from_bits((r.from_to(1, 254) as u32) << 23)
}

/// A number, brought back to the greatest where it has overflown.
fn finite(x: f32) -> f32 {
    x.clamp(f32::MIN, f32::MAX)
}

/// How the corners of a pool are made.
pub struct Style {
    pub positions: Family,
    /// None: unit vectors, half of them along an axis.
    pub normals: Option<Family>,
    pub texture: Family,
    pub position_scale: f32,
    pub texture_scale: f32,
    /// One normal for all.
    pub one_normal: bool,
    /// Every z is 0.
    pub flat: bool,
}

impl Style {
    /// A style with families from two lists: of positions and texture, and of normals.
    pub fn random(r: &mut Random, families: &[Family], normals: &[Option<Family>]) -> Style {
        Style {
            positions: r.pick(families),
            normals: r.pick(normals),
            texture: r.pick(families),
            position_scale: 1.0,
            texture_scale: 1.0,
            one_normal: r.chance(1, 3),
            flat: r.chance(1, 3),
        }
    }
}

/// So many corners of a style.
pub fn pool(r: &mut Random, count: usize, style: &Style) -> Vec<Corner> {
    let common = normal(r, style.normals);
    let make = |r: &mut Random| {
        let [x, y, z] = [0; 3].map(|_| finite(number(r, style.positions) * style.position_scale));
        let normal = if style.one_normal {
            common
        } else {
            normal(r, style.normals)
        };
        let texture = [0; 2].map(|_| finite(number(r, style.texture) * style.texture_scale));
        corner([x, y, if style.flat { 0.0 } else { z }], normal, texture)
    };
    (0..count).map(|_| make(r)).collect()
}

/// A normal, mostly one that does not count as zero: such a mesh is refused with 7.
fn normal(r: &mut Random, family: Option<Family>) -> [f32; 3] {
    loop {
        let normal = any_normal(r, family);
        if !bare(corner([0.0; 3], normal, [0.0; 2])) || r.chance(1, 4) {
            return normal;
        }
    }
}

/// A normal, zero as often as the family has it.
fn any_normal(r: &mut Random, family: Option<Family>) -> [f32; 3] {
    match family {
        Some(family) => [0; 3].map(|_| number(r, family)),
        None if r.chance(1, 2) => r.pick(&[
            [0.0, 0.0, 1.0],
            [1.0, 0.0, 0.0],
            [-0.0, 0.0, 1.0],
            [0.0, 0.0, -1.0],
        ]),
        None => unit_vector(r),
    }
}

/// A vector of about unit length.
pub fn unit_vector(r: &mut Random) -> [f32; 3] {
    let v = [0; 3].map(|_| r.signed());
    let length = (v[0] * v[0] + v[1] * v[1] + v[2] * v[2]).sqrt().max(1e-3);
    v.map(|x| x / length)
}
