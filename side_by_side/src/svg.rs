//! A picture of times against sizes, as plain text.
use crate::shapes::SHAPES;
use crate::timing::{Measured, NAMES, THRESHOLDS};
use std::fmt::Write;

/// The width and height of a panel's field, and what stands around it.
const WIDE: f64 = 190.0;
const HIGH: f64 = 170.0;
const LEFT: f64 = 62.0;
const TOP: f64 = 78.0;
const GAP: f64 = 36.0;
const ROW_GAP: f64 = 46.0;

/// Ends of both scales: faces, and powers of ten of milliseconds.
const FACES: [f64; 2] = [64.0, 65_536.0];

/// The colours of the three, and how their lines are dashed.
const STROKES: [(&str, &str); 3] = [("#c2410c", "6 3"), ("#78716c", "2 3"), ("#1d4ed8", "")];

/// The powers of ten between which all times stand.
#[derive(Clone, Copy)]
struct Decades {
    low: i32,
    high: i32,
}

/// The picture: a panel for each shape and threshold.
pub fn picture(all: &[Measured]) -> String {
    let decades = decades(all);
    let wide = LEFT + SHAPES.len() as f64 * (WIDE + GAP);
    let high = TOP + THRESHOLDS.len() as f64 * (HIGH + ROW_GAP) + 12.0;
    let mut svg = String::new();
    writeln!(
        svg,
        r##"<svg xmlns="http://www.w3.org/2000/svg" viewBox="0 0 {wide} {high}" font-family="sans-serif" font-size="11" fill="#292524">"##
    )
    .unwrap();
    writeln!(
        svg,
        r##"<rect width="{wide}" height="{high}" fill="#ffffff"/>"##
    )
    .unwrap();
    legend(&mut svg);
    for (row, &threshold) in THRESHOLDS.iter().enumerate() {
        for (column, &shape) in SHAPES.iter().enumerate() {
            let x = LEFT + column as f64 * (WIDE + GAP);
            let y = TOP + row as f64 * (HIGH + ROW_GAP);
            let mine: Vec<&Measured> = all
                .iter()
                .filter(|one| one.shape == shape && one.threshold == threshold)
                .collect();
            writeln!(svg, r##"<g transform="translate({x} {y})">"##).unwrap();
            frame(&mut svg, decades, column == 0);
            title(
                &mut svg,
                &format!("{}, threshold {threshold}", shape.name()),
            );
            (0..3).for_each(|who| line(&mut svg, decades, who, &mine));
            writeln!(svg, "</g>").unwrap();
        }
    }
    let (x, y) = (wide - GAP, high - 10.0);
    writeln!(
        svg,
        r##"<text x="{x}" y="{y}" text-anchor="end">faces</text>"##
    )
    .unwrap();
    svg.push_str("</svg>\n");
    svg
}

/// The powers of ten around all times.
fn decades(all: &[Measured]) -> Decades {
    let times = || {
        let measured = all.iter().flat_map(|one| one.times);
        measured.flatten().map(|time| time.best.log10())
    };
    let (low, high) = (
        times().fold(f64::MAX, f64::min),
        times().fold(f64::MIN, f64::max),
    );
    Decades {
        low: low.floor() as i32,
        high: high.ceil() as i32,
    }
}

/// The heading and what each line stands for.
fn legend(svg: &mut String) {
    writeln!(
        svg,
        r##"<text x="{LEFT}" y="22" font-size="15" font-weight="bold">Time of one call against the number of faces</text>"##
    )
    .unwrap();
    let mut x = LEFT;
    for ((name, _), (colour, dash)) in NAMES.iter().zip(STROKES) {
        let (to, text) = (x + 30.0, x + 37.0);
        writeln!(svg, r##"<line x1="{x}" y1="41" x2="{to}" y2="41" stroke="{colour}" stroke-width="2" stroke-dasharray="{dash}"/>"##).unwrap();
        writeln!(
            svg,
            r##"<text x="{text}" y="45" font-size="12">{name}</text>"##
        )
        .unwrap();
        x += 62.0 + 6.4 * name.len() as f64;
    }
    writeln!(
        svg,
        r##"<text x="{x}" y="45" fill="#57534e">best of all runs, milliseconds; both scales are logarithmic</text>"##
    )
    .unwrap();
}

/// A panel's title.
fn title(svg: &mut String, text: &str) {
    let x = WIDE / 2.0;
    writeln!(
        svg,
        r##"<text x="{x}" y="-8" text-anchor="middle" font-weight="bold">{text}</text>"##
    )
    .unwrap();
}

/// Where a number of faces stands across a panel.
fn across(faces: f64) -> f64 {
    (faces / FACES[0]).ln() / (FACES[1] / FACES[0]).ln() * WIDE
}

/// Where a time stands down a panel.
fn down(milliseconds: f64, decades: Decades) -> f64 {
    let share =
        (milliseconds.log10() - f64::from(decades.low)) / f64::from(decades.high - decades.low);
    HIGH * (1.0 - share)
}

/// A panel's lines of the scales, with the times named where asked.
fn frame(svg: &mut String, decades: Decades, named: bool) {
    for decade in decades.low..=decades.high {
        let y = down(10f64.powi(decade), decades);
        writeln!(
            svg,
            r##"<line x1="0" y1="{y:.1}" x2="{WIDE}" y2="{y:.1}" stroke="#e7e5e4"/>"##
        )
        .unwrap();
        if named {
            let (at, text) = (y + 4.0, time_name(decade));
            writeln!(
                svg,
                r##"<text x="-7" y="{at:.1}" text-anchor="end">{text}</text>"##
            )
            .unwrap();
        }
    }
    for faces in [64, 512, 4096, 65_536] {
        let (x, text) = (across(f64::from(faces)), HIGH + 16.0);
        writeln!(
            svg,
            r##"<line x1="{x:.1}" y1="0" x2="{x:.1}" y2="{HIGH}" stroke="#e7e5e4"/>"##
        )
        .unwrap();
        writeln!(
            svg,
            r##"<text x="{x:.1}" y="{text}" text-anchor="middle">{faces}</text>"##
        )
        .unwrap();
    }
}

/// A power of ten of milliseconds, as one would say it.
fn time_name(decade: i32) -> String {
    match decade {
        ..0 => format!("{} µs", 10i64.pow((decade + 3).max(0) as u32)),
        0..3 => format!("{} ms", 10i64.pow(decade as u32)),
        _ => format!("{} s", 10i64.pow(decade as u32 - 3)),
    }
}

/// The times of one of the three, as a line with dots.
fn line(svg: &mut String, decades: Decades, who: usize, all: &[&Measured]) {
    let (colour, dash) = STROKES[who];
    let place = |one: &&Measured| {
        let time = one.times[who]?;
        Some((across(one.faces as f64), down(time.best, decades)))
    };
    let places: Vec<(f64, f64)> = all.iter().filter_map(place).collect();
    let path: Vec<String> = places
        .iter()
        .map(|(x, y)| format!("{x:.1},{y:.1}"))
        .collect();
    writeln!(svg, r##"<polyline points="{}" fill="none" stroke="{colour}" stroke-width="2" stroke-dasharray="{dash}"/>"##, path.join(" ")).unwrap();
    for (x, y) in places {
        writeln!(
            svg,
            r##"<circle cx="{x:.1}" cy="{y:.1}" r="2.4" fill="{colour}"/>"##
        )
        .unwrap();
    }
}
