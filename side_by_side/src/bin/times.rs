//! Measures the crate and ours on the bench's shapes, all in one run, and writes a table, a list and a picture.
use side_by_side::refusals::MOST_FACES;
use side_by_side::shapes::{SHAPES, Shape};
use side_by_side::timing::{Course, Measured, NAMES, THRESHOLDS};
use side_by_side::{stack, svg};
use std::process::exit;

/// The sizes of the picture.
const SIZES: [usize; 11] = [
    64, 128, 256, 512, 1024, 2048, TABLE, 8192, 16_384, 32_768, MOST_FACES,
];

/// The size of the table; from it on it is told how each grows.
const TABLE: usize = 4096;

/// Larger sizes are measured in the first so many passes alone.
const LARGE_PASSES: usize = 3;

fn main() {
    let (mut runs, mut to) = (9, String::from("."));
    let mut words = std::env::args().skip(1);
    while let Some(word) = words.next() {
        match (word.as_str(), words.next()) {
            ("--runs", Some(count)) => runs = count.parse().unwrap_or_else(|_| usage()),
            ("--to", Some(folder)) => to = folder,
            _ => usage(),
        }
    }
    let all = stack::within(stack::CRATE, || measure_all(runs));
    print!("{}\n{}", table(&all), growth(&all));
    write(&format!("{to}/bench.csv"), &list(&all));
    write(&format!("{to}/bench.svg"), &svg::picture(&all));
}

/// Says how the program is used, and ends.
fn usage<T>() -> T {
    eprintln!("usage: times [--runs N] [--to FOLDER]");
    exit(2);
}

/// Measures every shape at every threshold and size: all of them, then all of them again, so that a slow while of the
/// machine falls on all; small ones are run more often.
fn measure_all(runs: usize) -> Vec<Measured> {
    let mut courses = vec![];
    for shape in SHAPES {
        for threshold in THRESHOLDS {
            let sizes = SIZES
                .iter()
                .filter(|faces| **faces <= shape.measured_to()[0]);
            courses.extend(sizes.map(|&faces| Course::new(shape, threshold, faces)));
        }
    }
    for pass in 1..=runs {
        eprintln!("pass {pass} of {runs}");
        for course in &mut courses {
            course.run(rounds(pass, course.faces()));
        }
    }
    courses.iter().map(Course::measured).collect()
}

/// How many rounds a mesh of so many faces has in a pass.
fn rounds(pass: usize, faces: usize) -> usize {
    match faces {
        0..=TABLE => (TABLE / faces).min(8),
        _ => usize::from(pass <= LARGE_PASSES),
    }
}

/// The table of one size.
fn table(all: &[Measured]) -> String {
    let mut text = String::from(
        "| shape | threshold | crate, document 01's: best, median | crate, processor's: best, median | ours: best, median | ours to the first | ours to the second |\n|---|---|---|---|---|---|---|\n",
    );
    for one in all.iter().filter(|one| one.faces == TABLE) {
        let times = one.times.map(|time| {
            time.map_or("-".into(), |time| {
                format!("{:.2}, {:.2}", time.best, time.median)
            })
        });
        let ratios = [0, 1].map(|other| shown(one.ratio(other)));
        let (shape, threshold) = (one.shape.name(), one.threshold);
        text += &format!(
            "| {shape} | {threshold} | {} | {} |\n",
            times.join(" | "),
            ratios.join(" | ")
        );
    }
    text
}

/// A number, or that there is none.
fn shown(number: Option<f64>) -> String {
    number.map_or("-".into(), |number| format!("{number:.2}"))
}

/// How each grows from the table's size to the largest that it was measured at, best against best, and how many times the faces that is.
fn growth(all: &[Measured]) -> String {
    let mut text = String::from(
        "| shape | threshold | who | faces | best | times that at 4,096 | times the faces |\n|---|---|---|---|---|---|---|\n",
    );
    for shape in SHAPES {
        for threshold in THRESHOLDS {
            for (who, (_, name)) in NAMES.iter().enumerate() {
                text += &grown(all, shape, threshold, who).map_or(String::new(), |row| {
                    format!("| {} | {threshold} | {name} | {row} |\n", shape.name())
                });
            }
        }
    }
    text
}

/// The rest of a row of that table: none where nothing larger was measured.
fn grown(all: &[Measured], shape: Shape, threshold: f32, who: usize) -> Option<String> {
    let mine = || {
        let of = |one: &&Measured| one.shape == shape && one.threshold == threshold;
        let best = move |one: &Measured| Some((one.faces, one.times[who]?.best));
        all.iter().filter(of).filter_map(best)
    };
    let (_, before) = mine().find(|(faces, _)| *faces == TABLE)?;
    let (faces, after) = mine().rfind(|(faces, _)| *faces > TABLE)?;
    let (times, more) = (after / before, faces / TABLE);
    Some(format!("{faces} | {after:.2} | {times:.1} | {more}"))
}

/// Every time, one a line.
fn list(all: &[Measured]) -> String {
    let mut text = String::from("shape,threshold,faces,who,best_ms,median_ms,runs\n");
    for one in all {
        let measured = NAMES.iter().zip(one.times);
        for ((_, who), time) in measured.filter_map(|(name, time)| Some((name, time?))) {
            let (
                shape,
                Measured {
                    threshold,
                    faces,
                    runs,
                    ..
                },
            ) = (one.shape.name(), one);
            text += &format!(
                "{shape},{threshold},{faces},{who},{:.4},{:.4},{runs}\n",
                time.best, time.median
            );
        }
    }
    text
}

/// Writes a file.
fn write(path: &str, text: &str) {
    match std::fs::write(path, text) {
        Ok(()) => eprintln!("written: {path}"),
        Err(why) => {
            eprintln!("not written: {path}: {why}");
            exit(1);
        }
    }
}
