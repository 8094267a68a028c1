//! Where frames come from: a mark on each that is combined, copied or filled in, and a legend below the field.
use super::page;
use super::plane::{LEFT, Plane};
use super::strokes::Face;
use crate::origins::{ORIGINS, counts};
use crate::state::Known;
use dokphalun::Origin;
use std::fmt::Write;

/// The height of the legend.
pub const HIGH: f64 = 30.0;

/// The marks, one in each face at its corner, and the legend.
pub fn origins(plane: &Plane, known: &Known) -> String {
    let starts = known.surface.starts();
    let mut paths = [const { String::new() }; ORIGINS.len()];
    for (place, frame) in known.frames() {
        let size = usize::from(known.surface.sizes[place.face]);
        let face = Face::of(known, starts[place.face], size);
        let spot = face.and_then(|face| face.spot(plane, place.corner));
        if let (Some(spot), Some(sign)) = (spot, Sign::of(frame.origin)) {
            paths[sign.number].push_str(&(sign.path)(spot));
        }
    }
    let mut svg = String::new();
    for (origin, path) in ORIGINS.into_iter().zip(paths) {
        if let Some(sign) = Sign::of(origin).filter(|_| !path.is_empty()) {
            let _ = writeln!(svg, r##"<path {} d="{path}"/>"##, sign.how);
        }
    }
    svg + &legend(plane, known)
}

/// How an origin is marked.
struct Sign {
    /// Its number among all.
    number: usize,
    how: &'static str,
    /// Its path round a place.
    path: fn([f64; 2]) -> String,
}

impl Sign {
    /// The sign of an origin: a ring, a square or a diamond. A frame of one subgroup has none, and neither has one that does not say.
    fn of(origin: Origin) -> Option<Sign> {
        let (how, path): (_, fn([f64; 2]) -> String) = match origin {
            Origin::Combined => (
                r##"fill="none" stroke="#15803d" stroke-width="1.4""##,
                |[x, y]| format!("M{:.1} {y:.1}a3 3 0 1 0 6 0a3 3 0 1 0-6 0", x - 3.0),
            ),
            Origin::Copied => (r##"fill="#ea580c""##, |[x, y]| {
                format!("M{:.1} {:.1}h7v7h-7z", x - 3.5, y - 3.5)
            }),
            Origin::Filled => (r##"fill="#0e7490""##, |[x, y]| {
                format!("M{x:.1} {:.1}l5 5l-5 5l-5-5z", y - 5.0)
            }),
            Origin::Single | Origin::NotRecorded => return None,
        };
        let number = ORIGINS.iter().position(|other| *other == origin)?;
        Some(Sign { number, how, path })
    }
}

/// What each mark stands for, and how many frames there are of it.
fn legend(plane: &Plane, known: &Known) -> String {
    let entries = counts(known.judged).map(|(origin, count)| {
        let there = origin != Origin::NotRecorded || count > 0;
        let word = origin.word();
        let Some(sign) = Sign::of(origin) else {
            return (there, String::new(), format!("{word}: no mark ({count})"));
        };
        let path = (sign.path)([0.0; 2]);
        let drawn = format!(r##"<path {} d="{path}"/>"##, sign.how);
        (there, drawn, format!("{word} ({count})"))
    });
    page::row(&entries, [LEFT + 12.0, plane.page_height() + HIGH / 3.0])
}
