//! The faces, each by what is known of it, and the tangents of present corners as strokes.
use super::plane::Plane;
use crate::cause::{ONE_WAY, area, dot, less};
use crate::state::{BAD, Known, State};
use std::fmt::Write;

/// How faces are drawn: plain, mirrored, without slots, with an absent corner, with a lost one; later ones over earlier ones.
const FACES: [&str; 5] = [
    r##"fill="#eef2f7" stroke="#b6c2d1" stroke-width="0.7""##,
    r##"fill="#ede4fb" stroke="#b39ddb" stroke-width="0.9""##,
    r##"fill="url(#none)" stroke="#334155" stroke-width="1.4" stroke-dasharray="5 3""##,
    r##"fill="#ffc4e3" stroke="#d6006c" stroke-width="2" stroke-linejoin="round""##,
    r##"fill="url(#lost)" stroke="#111111" stroke-width="1.2""##,
];

/// How far from its corner to the middle of the face the middle of a stroke is.
const INWARD: f64 = 0.36;

/// The colours of tangents, where the texture is mirrored and where not.
pub const TANGENT: [&str; 2] = ["#7c3aed", "#1d4ed8"];

/// A path round each face.
pub fn faces(plane: &Plane, known: &Known) -> String {
    let texture = &known.surface.texture;
    let mut kinds = vec![0; known.surface.sizes.len()];
    let starts = known.surface.starts();
    for (face, (&size, &start)) in known.surface.sizes.iter().zip(&starts).enumerate() {
        let own = texture
            .get(start..start + usize::from(size))
            .unwrap_or_default();
        kinds[face] = usize::from(area(own) < 0.0);
    }
    known.without_slots().for_each(|face| kinds[face] = 2);
    for state in BAD {
        let kind = if state == State::Lost { 4 } else { 3 };
        let bad = known.faces(state);
        bad.iter().for_each(|(face, _)| kinds[*face] = kind);
    }
    let mut paths = [const { String::new() }; FACES.len()];
    for (face, &kind) in kinds.iter().enumerate() {
        let end = starts[face] + usize::from(known.surface.sizes[face]);
        let own = texture.get(starts[face]..end).unwrap_or_default();
        paths[kind].push_str(&outline(plane, own));
    }
    let drawn = paths.iter().zip(FACES).filter(|(path, _)| !path.is_empty());
    drawn
        .map(|(path, how)| format!("<path {how} d=\"{path}\"/>\n"))
        .collect()
}

/// The outline of a face; nothing where a corner is not finite.
fn outline(plane: &Plane, texture: &[[f32; 2]]) -> String {
    if texture.is_empty()
        || texture
            .as_flattened()
            .iter()
            .any(|number| !number.is_finite())
    {
        return String::new();
    }
    let mut path = String::new();
    for (i, [x, y]) in texture.iter().map(|pair| plane.at(*pair)).enumerate() {
        let _ = write!(path, "{}{x:.1} {y:.1}", if i == 0 { 'M' } else { 'L' });
    }
    path.push('Z');
    path
}

/// A stroke for each present corner, in its face's own texture coordinates: level where the frame is the face's own,
/// turned where its neighbours turn it. It starts with a dot.
pub fn tangents(plane: &Plane, known: &Known) -> String {
    let (mut lines, mut dots) = ([const { String::new() }; 2], [const { String::new() }; 2]);
    let (mut sum, mut count) = (0.0, 0.0);
    let starts = known.surface.starts();
    for (place, frame) in known.frames() {
        let size = usize::from(known.surface.sizes[place.face]);
        let face = Face::of(known, starts[place.face], size);
        let Some([[x, y], [u, v]]) =
            face.and_then(|face| face.stroke(plane, place.corner, frame.tangent))
        else {
            continue;
        };
        let kind = usize::from(frame.preserving);
        let _ = write!(lines[kind], "M{x:.1} {y:.1}l{u:.1} {v:.1}");
        let _ = write!(dots[kind], "M{x:.1} {y:.1}h0");
        (sum, count) = (sum + u.hypot(v), count + 1.0);
    }
    // the shorter the strokes, the thinner
    let thin = (sum / f64::max(count, 1.0) / 7.0).clamp(0.6, 1.2);
    let mut svg = String::new();
    for (kind, colour) in TANGENT.iter().enumerate() {
        for (path, width) in [(&lines[kind], 1.1 * thin), (&dots[kind], 2.8 * thin)] {
            let _ = writeln!(
                svg,
                r##"<path fill="none" stroke="{colour}" stroke-width="{width:.2}" stroke-linecap="round" d="{path}"/>"##
            );
        }
    }
    svg
}

/// The numbers of a face's corners.
pub struct Face<'a> {
    positions: &'a [[f32; 3]],
    texture: &'a [[f32; 2]],
}

impl<'a> Face<'a> {
    /// The face whose corners start there.
    pub fn of(known: &Known<'a>, start: usize, size: usize) -> Option<Face<'a>> {
        Some(Face {
            positions: known.surface.positions.get(start..start + size)?,
            texture: known.surface.texture.get(start..start + size)?,
        })
    }

    /// Where a corner stands on the page, and the way from it to the middle of the face.
    fn inward(&self, plane: &Plane, corner: usize) -> Option<[[f64; 2]; 2]> {
        let count = self.texture.len() as f64;
        let points = self.texture.iter().map(|pair| plane.at(*pair));
        let [x, y] = points.fold([0.0; 2], |[x, y], [a, b]| [x + a / count, y + b / count]);
        let [a, b] = plane.at(*self.texture.get(corner)?);
        Some([[a, b], [x - a, y - b]])
    }

    /// The middle of a corner's stroke, where there is one or not; none where a corner is not finite.
    pub fn spot(&self, plane: &Plane, corner: usize) -> Option<[f64; 2]> {
        let [[a, b], [x, y]] = self.inward(plane, corner)?;
        let spot = [a + x * INWARD, b + y * INWARD];
        spot.iter().all(|number| number.is_finite()).then_some(spot)
    }

    /// Where the stroke of a corner starts, and where it goes from there.
    fn stroke(&self, plane: &Plane, corner: usize, tangent: [f32; 3]) -> Option<[[f64; 2]; 2]> {
        let [u, v] = plane.direction(self.in_texture(corner, tangent)?)?;
        let [_, [x, y]] = self.inward(plane, corner)?;
        let [a, b] = self.spot(plane, corner)?;
        // no longer than the face is wide in its direction
        let (away, along) = (x.hypot(y), (x * u + y * v).abs());
        let least = (2.0 * INWARD * along).max(0.05 * away);
        let length = least.min(INWARD * away).min(26.0);
        let start = [a - u * length / 2.0, b - v * length / 2.0];
        Some([start, [u * length, v * length]])
    }

    /// A direction in space as one in the texture plane, by the two sides at a corner; none where they have one direction.
    fn in_texture(&self, corner: usize, tangent: [f32; 3]) -> Option<[f64; 2]> {
        let size = self.positions.len();
        let others = [(corner + 1) % size, (corner + size - 1) % size];
        let sides = others.map(|other| less(self.positions[other], self.positions[corner]));
        let moves = others.map(|other| less(self.texture[other], self.texture[corner]));
        let tangent = tangent.map(f64::from);
        let (aa, ab, bb) = (
            dot(sides[0], sides[0]),
            dot(sides[0], sides[1]),
            dot(sides[1], sides[1]),
        );
        let (at, bt) = (dot(sides[0], tangent), dot(sides[1], tangent));
        let whole = aa * bb - ab * ab;
        if whole <= ONE_WAY * aa * bb {
            return None;
        }
        let (alpha, beta) = ((at * bb - bt * ab) / whole, (bt * aa - at * ab) / whole);
        Some([0, 1].map(|i| alpha * moves[0][i] + beta * moves[1][i]))
    }
}
