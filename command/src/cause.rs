//! Why a face has an absent corner, or a frame of no use, as far as its numbers show. A hint for the one who scans; nothing rests on it.
use crate::surface::Surface;
use dokphalun::{Flawed, Frame, Kind};

/// The squared sine of an angle up to which two directions are taken for one.
pub const ONE_WAY: f64 = 1e-12;

/// What the bits of a blank frame of a card of a kind lack, in words, and the likely cause. In a frame that is made here a direction is zero; a
/// card can hold others. Its face, where that is known, starts there.
pub fn lacking(frame: &Flawed, kind: Kind, surface: &Surface, face: usize, start: usize) -> String {
    let [directions @ .., _, _, turn] = frame.bits();
    let finite = |bits: &u32| f32::from_bits(*bits).is_finite();
    let (what, cause) = match directions.iter().all(finite) {
        false => (
            "a direction is no finite number",
            match kind {
                Kind::Old => "the card is of an older edition",
                Kind::New => CHANGED,
            },
        ),
        true if turn > 1 => ("the word for its orientation is neither 0 nor 1", CHANGED),
        true if on_a_line(corners(&surface.positions, surface, face, start)) => {
            ("a direction is zero", LINE)
        }
        true => (
            "a direction is zero",
            "a normal lies along it, or numbers are too large or too small for single precision",
        ),
    };
    format!("{what}; likely cause: {cause}")
}

/// What is likely where a card holds what no answer has.
const CHANGED: &str = "the card's words are no answer's, or were changed";

/// What is likely where a face has no area.
const LINE: &str = "its corners stand on a line";

/// The part of a list that belongs to a face, which starts there.
fn corners<'a, T>(list: &'a [T], surface: &Surface, face: usize, start: usize) -> &'a [T] {
    let size = usize::from(surface.sizes.get(face).copied().unwrap_or_default());
    list.get(start..start + size).unwrap_or_default()
}

/// Whether all places stand on one line, as far as double precision tells: a hint, and no proof.
pub fn on_a_line(places: &[[f32; 3]]) -> bool {
    let Some((first, others)) = places.split_first() else {
        return false;
    };
    let ways = others.iter().map(|place| less(*place, *first));
    let longest = ways
        .clone()
        .max_by(|a, b| dot(*a, *a).total_cmp(&dot(*b, *b)));
    longest.is_some_and(|longest| ways.clone().all(|way| one_way(way, longest)))
}

/// Whether the two directions of a frame are one, or opposite, as far as double precision tells. Good does not say that they differ.
pub fn parallel(frame: &Frame) -> bool {
    let [tangent, bitangent] = [frame.tangent, frame.bitangent].map(|way| way.map(f64::from));
    one_way(tangent, bitangent)
}

/// Whether two ways have one direction, or opposite ones, or one has none.
fn one_way([a, b, c]: [f64; 3], [d, e, f]: [f64; 3]) -> bool {
    let cross = [b * f - c * e, c * d - a * f, a * e - b * d];
    let both = dot([a, b, c], [a, b, c]) * dot([d, e, f], [d, e, f]);
    dot(cross, cross) <= ONE_WAY * both
}

/// The difference of two places.
pub fn less<const N: usize>(a: [f32; N], b: [f32; N]) -> [f64; N] {
    std::array::from_fn(|i| f64::from(a[i]) - f64::from(b[i]))
}

/// The dot product.
pub fn dot(a: [f64; 3], b: [f64; 3]) -> f64 {
    a.iter().zip(b).map(|(x, y)| x * y).sum()
}

/// What is likely where the two directions of a good frame are one.
pub fn as_one(surface: &Surface, face: usize, start: usize) -> &'static str {
    match on_a_line(corners(&surface.positions, surface, face, start)) {
        true => LINE,
        false => {
            "its normal lies in the plane of the face, or a neighbour's corners stand on a line"
        }
    }
}

/// The likely cause of an absent corner, in words.
pub fn cause(surface: &Surface, face: usize, start: usize) -> &'static str {
    let positions = corners(&surface.positions, surface, face, start);
    let texture = corners(&surface.texture, surface, face, start);
    if (1..positions.len()).any(|i| positions[..i].contains(&positions[i])) {
        return "two of its corners stand at one place";
    }
    match area(texture).abs() <= f64::from(f32::MIN_POSITIVE) {
        true => "its texture coordinates enclose no area",
        false if on_a_line(positions) => LINE,
        false => "its texture or its sides are too small or too large for single precision",
    }
}

/// The area that texture coordinates run round, counted positive where they run counterclockwise.
pub fn area(texture: &[[f32; 2]]) -> f64 {
    let wide = texture.iter().map(|pair| pair.map(f64::from));
    let next = wide.clone().cycle().skip(1);
    let sum: f64 = wide.zip(next).map(|([a, b], [c, d])| a * d - c * b).sum();
    sum / 2.0
}
