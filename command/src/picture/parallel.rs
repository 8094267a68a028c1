//! Good frames whose two directions are one: a mark on each, stroke or not, so that somebody looks at the face.
use super::plane::Plane;
use super::strokes::Face;
use crate::state::Known;

/// How a mark is drawn: an amber triangle.
const HOW: &str = r##"fill="#f59e0b" stroke="#111111" stroke-width="1.2" stroke-linejoin="round""##;

/// The path of a mark round a place.
fn triangle([x, y]: [f64; 2]) -> String {
    format!("M{x:.1} {:.1}l6.5 11.5h-13z", y - 7.0)
}

/// The marks, one in each face at its corner.
pub fn parallel(plane: &Plane, known: &Known) -> String {
    let starts = known.surface.starts();
    let spots = known.parallel().filter_map(|place| {
        let size = usize::from(known.surface.sizes[place.face]);
        Face::of(known, starts[place.face], size)?.spot(plane, place.corner)
    });
    let path: String = spots.map(triangle).collect();
    match path.is_empty() {
        true => path,
        false => format!("<path {HOW} d=\"{path}\"/>\n"),
    }
}

/// What the mark stands for in the legend, where there is one.
pub fn entry(known: &Known) -> (bool, String, String) {
    let (count, path) = (known.parallel().count(), triangle([0.0; 2]));
    let text = format!("both directions are one: look at the face ({count})");
    (count > 0, format!("<path {HOW} d=\"{path}\"/>"), text)
}
