//! The marks of corners that are not good: one at each place, with how many corners stand there and of which faces.
use super::plane::Plane;
use crate::say::ranges;
use crate::state::{FLAWED, Known, State};
use crate::stop::shown;
use std::collections::BTreeMap;
use std::fmt::Write;

/// The colour of what is absent.
pub const ABSENT: &str = "#d6006c";
/// The most marks that get the names of their faces beside them.
const NAMED: usize = 48;
/// The height of a name, and the width of one of its signs.
const LINE: i64 = 15;
const SIGN: i64 = 8;

/// One mark: how many corners, and the faces they belong to.
#[derive(Default)]
struct Mark {
    corners: usize,
    faces: Vec<usize>,
}

/// The marks of all corners in a state, then the names of their faces.
pub fn marks(plane: &Plane, known: &Known, state: State) -> String {
    let starts = known.surface.starts();
    let mut marks: BTreeMap<[i64; 2], Mark> = BTreeMap::new();
    for (face, corners) in known.faces(state) {
        let at = corners
            .iter()
            .filter_map(|corner| known.surface.texture.get(starts[face] + corner));
        for [x, y] in at.map(|pair| plane.at(*pair)) {
            let mark = marks
                .entry([x.round() as i64, y.round() as i64])
                .or_default();
            mark.corners += 1;
            mark.faces.push(face);
            mark.faces.dedup();
        }
    }
    let mut svg: String = marks
        .iter()
        .map(|(at, mark)| draw(*at, mark, state))
        .collect();
    if marks.len() <= NAMED {
        svg.push_str(&names(&marks));
    }
    svg
}

/// A disc with a cross; a pointer held over it shows what it stands for.
fn draw([x, y]: [i64; 2], mark: &Mark, state: State) -> String {
    let (word, count, faces) = (
        state.word(),
        mark.corners,
        ranges(mark.faces.iter().copied()),
    );
    let sign = sign(state);
    format!(
        "<g transform=\"translate({x} {y})\"><title>{word}: {count} of the corners of face {faces}</title>{sign}</g>\n"
    )
}

/// A part of the page: left, top, right, bottom.
type Part = [i64; 4];

/// Whether two parts of the page have nothing in common.
fn apart([a, b, c, d]: Part, [e, f, g, h]: Part) -> bool {
    c <= e || g <= a || d <= f || h <= b
}

/// The faces of each mark, where they are not named yet, each name at a free place above its mark.
fn names(marks: &BTreeMap<[i64; 2], Mark>) -> String {
    let mut taken: Vec<Part> = marks
        .keys()
        .map(|[x, y]| [x - 11, y - 11, x + 11, y + 11])
        .collect();
    let (mut svg, mut named) = (String::new(), Vec::new());
    for ([x, y], mark) in marks {
        if mark.faces.iter().all(|face| named.contains(face)) {
            continue;
        }
        named.extend(&mark.faces);
        let faces = shown(&ranges(mark.faces.iter().copied()));
        let text = match mark.corners {
            1 => format!("face {faces}"),
            count => format!("face {faces} (×{count})"),
        };
        let part = |k: i64| {
            [
                x - 9,
                y - 12 - LINE * k,
                x - 9 + SIGN * text.chars().count() as i64,
                y + 3 - LINE * k,
            ]
        };
        let free = |k: &i64| taken.iter().all(|other| apart(*other, part(*k)));
        let chosen = part((1..8).find(free).unwrap_or(1));
        taken.push(chosen);
        let (left, at) = (chosen[0], chosen[3] - 4);
        let _ = writeln!(
            svg,
            r##"<text x="{left}" y="{at}" font-weight="bold" font-size="13" fill="{ABSENT}" stroke="#ffffff" stroke-width="4" paint-order="stroke">{text}</text>"##
        );
    }
    svg
}

/// The sign of a state, around 0, 0.
pub fn sign(state: State) -> String {
    let (inside, cross) = match state {
        _ if FLAWED.contains(&state) => ("#ffffff", ABSENT),
        State::NoOrigin | State::NoOrientation => ("#111111", "#ffffff"),
        _ => (ABSENT, "#ffffff"),
    };
    format!(
        r##"<circle r="9" fill="{inside}" stroke="{ABSENT}" stroke-width="2.5"/><path d="M-4 -4L4 4M-4 4L4 -4" stroke="{cross}" stroke-width="2.6" stroke-linecap="round"/>"##
    )
}
