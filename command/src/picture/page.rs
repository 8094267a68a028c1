//! What stands above the field: the title, the verdict and the legend.
use super::marks::{ABSENT, sign};
use super::parallel;
use super::plane::{LEFT, Plane, WIDE};
use super::strokes::TANGENT;
use crate::say::{NOT_GOOD, counted, sum};
use crate::state::{Known, State, Tally};
use crate::stop::Status;
use std::fmt::Write;

/// The patterns of lost blocks and of faces without slots.
const PATTERNS: &str = r##"<defs><pattern id="lost" patternUnits="userSpaceOnUse" width="10" height="10" patternTransform="rotate(45)"><rect width="10" height="10" fill="#ffd400"/><rect width="5" height="10" fill="#111111"/></pattern><pattern id="none" patternUnits="userSpaceOnUse" width="7" height="7"><rect width="7" height="7" fill="#ffffff"/><circle cx="2" cy="2" r="1.2" fill="#64748b"/></pattern></defs>"##;

/// The head of the file, the title, the verdict and the legend; the page is so much higher than the plane needs.
pub fn start(plane: &Plane, known: &Known, name: &str, tally: &Tally, more: f64) -> String {
    let high = plane.page_height() + more;
    let name = escaped(name);
    let mut svg = format!(
        r##"<svg xmlns="http://www.w3.org/2000/svg" viewBox="0 0 {WIDE} {high:.0}" width="{WIDE}" height="{high:.0}" font-family="sans-serif" font-size="13" fill="#1e293b">{PATTERNS}<rect width="{WIDE}" height="{high:.0}" fill="#ffffff"/>
<text x="{LEFT}" y="32" font-size="20" font-weight="bold">Tangent frames of {name}, in the texture plane</text>
"##
    );
    let scale = match plane.true_to_scale() {
        true => "",
        false => ", s and t at different scales",
    };
    let faces = counted(known.surface.sizes.len(), "face");
    let slots = counted(tally.all(), "slot");
    let right = WIDE - 28.0;
    let _ = writeln!(
        svg,
        r##"<text x="{right}" y="32" text-anchor="end">{faces}, {slots}{scale}</text>"##
    );
    let without = known.without_slots().count();
    svg.push_str(&verdict(tally, without));
    svg.push_str(&legend(tally, without, parallel::entry(known)));
    svg
}

/// What good says, and what not.
const GOOD: &str = "Each slot has two directions that are not zero. That they differ, or that a face has area, is not said: docs/ABSENT.md";

/// The bar that says what it comes to.
fn verdict(tally: &Tally, without: usize) -> String {
    let status = tally.status(without);
    let (fill, ink) = match status {
        Status::Good => ("#e2e8f0", "#1e293b"),
        _ => (ABSENT, "#ffffff"),
    };
    let second = match status {
        Status::Good => GOOD,
        _ => NOT_GOOD,
    };
    let wide = WIDE - LEFT - 28.0;
    let x = LEFT + 14.0;
    let what = sum(tally, without);
    format!(
        r##"<rect x="{LEFT}" y="44" width="{wide}" height="50" rx="4" fill="{fill}"/><g fill="{ink}" font-weight="bold"><text x="{x}" y="66" font-size="17">{what}</text><text x="{x}" y="85">{second}</text></g>
"##
    )
}

/// A sample of a tangent's stroke.
fn stroke(colour: &str) -> String {
    format!(
        r##"<path d="M-9 0H9" stroke="{colour}" stroke-width="1.6"/><path d="M-9 0h0" stroke="{colour}" stroke-width="4" stroke-linecap="round"/>"##
    )
}

/// A sample of a face.
fn patch(how: &str) -> String {
    format!(r##"<rect x="-11" y="-9" width="22" height="18" {how}/>"##)
}

/// The legend: what is drawn how. What is absent is always named, and the rest where there is any.
fn legend(tally: &Tally, without: usize, parallel: Entry) -> String {
    let (absent, lost) = (tally.absent, tally.lost);
    let counted = |state: State| {
        let count = tally.count(state);
        (
            count > 0,
            sign(state),
            format!("{} ({count})", state.word()),
        )
    };
    let hatched = patch(r##"fill="url(#lost)" stroke="#111111""##);
    let dotted = patch(r##"fill="url(#none)" stroke="#334155" stroke-dasharray="5 3""##);
    let entries = [
        (true, stroke(TANGENT[1]), "tangent".into()),
        (true, stroke(TANGENT[0]), "mirrored texture".into()),
        (
            true,
            sign(State::Absent),
            format!("ABSENT: no frame ({absent})"),
        ),
        counted(State::NoDirection),
        counted(State::TooShort),
        counted(State::TooLong),
        counted(State::NoOrientation),
        counted(State::NoOrigin),
        parallel,
        (lost > 0, hatched, format!("LOST on the card ({lost})")),
        (
            without > 0,
            dotted,
            format!("face without slots: not read ({without})"),
        ),
    ];
    row(&entries, [LEFT + 12.0, 121.0])
}

/// An entry of a legend: whether it is there, what is drawn, and its text.
type Entry = (bool, String, String);

/// A row of a legend from a place on: those entries that are there.
pub fn row(entries: &[Entry], [mut x, y]: [f64; 2]) -> String {
    let mut svg = String::new();
    for (_, drawn, text) in entries.iter().filter(|(there, ..)| *there) {
        let _ = writeln!(
            svg,
            r##"<g transform="translate({x:.0} {y:.0})">{drawn}<text x="18" y="5">{text}</text></g>"##
        );
        x += 56.0 + 7.4 * text.chars().count() as f64;
    }
    svg
}

/// Text without the signs that mean something in SVG.
fn escaped(text: &str) -> String {
    let plain = text.chars().filter(|sign| !sign.is_control());
    plain
        .map(|sign| match sign {
            '&' => "&amp;".into(),
            '<' => "&lt;".into(),
            '>' => "&gt;".into(),
            _ => String::from(sign),
        })
        .collect()
}
