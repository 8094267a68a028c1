//! The picture: the texture plane with its faces, the tangents as strokes, and what is not good in colours that nobody overlooks.
mod marks;
mod origins;
mod page;
mod parallel;
mod plane;
mod strokes;

use crate::state::{FLAWED, Known, State, Tally};
use plane::Plane;

/// The picture of a mesh and what is known of it, as SVG; where frames come from is marked if that is asked for.
pub fn picture(known: &Known, name: &str, origins: bool) -> String {
    let plane = Plane::of(&known.surface.texture);
    let tally = Tally::of(known.judged);
    let more = if origins { origins::HIGH } else { 0.0 };
    let mut svg = page::start(&plane, known, name, &tally, more);
    svg.push_str(&plane.grid());
    svg.push_str(&strokes::faces(&plane, known));
    svg.push_str(&strokes::tangents(&plane, known));
    svg.push_str(&parallel::parallel(&plane, known));
    if origins {
        svg.push_str(&origins::origins(&plane, known));
    }
    for state in FLAWED
        .into_iter()
        .chain([State::NoOrientation, State::NoOrigin, State::Absent])
    {
        svg.push_str(&marks::marks(&plane, known, state));
    }
    svg.push_str("</svg>\n");
    svg
}
