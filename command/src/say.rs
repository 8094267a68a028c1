//! What is printed: counts, and each corner that is not good, loudly.
use crate::cause::{as_one, cause, lacking};
use crate::state::{BAD, Known, NO_ANSWERS, State, Tally};
use crate::stop::Status;
use dokphalun::{Place, Record};
use std::fmt::Display;
use std::io::{IsTerminal, Write, stderr, stdout};
use std::path::Path;

/// A line of the summary. Where nobody reads any more the exit status still tells.
pub fn line(name: &str, what: impl Display) {
    let _ = writeln!(stdout(), "{name:<13} {what}");
}

/// An empty line.
pub fn gap() {
    let _ = writeln!(stdout());
}

/// A line that nobody should overlook; in colour on a terminal.
pub fn loud(name: &str, what: impl Display) {
    let _ = match stdout().is_terminal() {
        true => writeln!(stdout(), "\x1b[1;97;45m{name:<13} {what}\x1b[0m"),
        false => writeln!(stdout(), "{name:<13} {what}"),
    };
}

/// The counts of records; those that are not good are loud where there are any.
pub fn tally(tally: &Tally, states: impl IntoIterator<Item = State>) {
    line("present", tally.present);
    for state in states {
        match tally.count(state) {
            // no answer's frame lacks these, and an old card's not having an origin is no fault of theirs
            0 if state != State::Lost && NO_ANSWERS.contains(&state) => (),
            0 => line(&state.word().to_lowercase(), 0),
            count => loud(state.word(), count),
        }
    }
}

/// How many there are of something.
pub fn counted(count: usize, what: &str) -> String {
    match count {
        1 => format!("1 {what}"),
        _ => format!("{count} {what}s"),
    }
}

/// A path as a word of a shell.
pub fn quoted(path: &Path) -> String {
    let text = path.display().to_string();
    let plain = |sign: char| sign.is_ascii_alphanumeric() || "/._-+,=:@%".contains(sign);
    match !text.is_empty() && text.chars().all(plain) {
        true => text,
        false => format!("'{}'", text.replace('\'', r"'\''")),
    }
}

/// Each face with a corner that is not good: which corners, why, and where the face stands in its file.
/// Faces and corners are counted from 0.
pub fn faces(known: &Known) {
    let named = BAD.iter().any(|state| !known.faces(*state).is_empty());
    if named || known.parallel().next().is_some() {
        line("", "(faces and corners are counted from 0)");
    }
    let starts = known.surface.starts();
    let spot = |face: usize| format!("{} of the mesh", known.surface.spots[face]);
    for state in BAD {
        let why = |slot, place: Place| match state {
            State::Absent => absent(known, slot, place.face, starts[place.face]),
            _ => bad(known, slot, place.face, starts[place.face], state),
        };
        for (face, why, corners) in known.told(state, why) {
            let corners: Vec<String> = corners.iter().map(usize::to_string).collect();
            let which = format!("face {face}, corner {}", corners.join(" "));
            loud(state.word(), format!("{which}: {why} ({})", spot(face)));
        }
    }
    look_at(known, &starts);
    for face in known.without_slots() {
        let size = known.surface.sizes[face];
        let why = format!("{size} corners, and only faces of 3 or 4 are read");
        loud("NO SLOT", format!("face {face}: {why} ({})", spot(face)));
    }
}

/// Each face with good frames whose two directions are one: they are good by the archive's verdict, and somebody looks at the face.
fn look_at(known: &Known, starts: &[usize]) {
    let mut faces: Vec<(usize, Vec<String>)> = Vec::new();
    for Place { face, corner } in known.parallel() {
        match faces.last_mut() {
            Some((last, corners)) if *last == face => corners.push(corner.to_string()),
            _ => faces.push((face, vec![corner.to_string()])),
        }
    }
    for (face, corners) in faces {
        let which = format!("face {face}, corner {}", corners.join(" "));
        let why = as_one(known.surface, face, starts[face]);
        let what = "good, and tangent and bi-tangent run one way; likely cause";
        let spot = known.surface.spots[face];
        loud(
            "LOOK AT",
            format!("{which}: {what}: {why} ({spot} of the mesh)"),
        );
    }
}

/// Why a slot of a face, which starts there, is absent: the archive's reason, and the likely cause. Where the mesh has a frame there, the
/// card is not of that mesh.
fn absent(known: &Known, slot: usize, face: usize, start: usize) -> String {
    let hint = format!("likely cause: {}", cause(known.surface, face, start));
    match known.reasons.get(slot) {
        Some(Some(reason)) => format!("{}; {hint}", reason.words()),
        Some(None) => "this mesh has a frame there: is the card of another one?".into(),
        None => hint,
    }
}

/// Why the record of a slot of a face, which starts there, is in a state that is neither good nor absent.
fn bad(known: &Known, slot: usize, face: usize, start: usize, state: State) -> String {
    let kind = known.judged.kind;
    let plain = match (state, &known.judged.records[slot]) {
        (State::NoDirection, Record::Blank(frame)) => {
            return lacking(frame, kind, known.surface, face, start);
        }
        (State::TooShort, _) => TOO_SHORT,
        (State::TooLong, _) => TOO_LONG,
        (State::NoOrientation, _) => NO_ORIENTATION,
        (State::NoOrigin, _) => NO_ORIGIN,
        _ => "not on the card: nothing is known",
    };
    plain.into()
}

/// What is said of frames of a new card whose word for the orientation is neither 0 nor 1.
const NO_ORIENTATION: &str = "the card's word for its orientation is none that an answer has: nothing is known, write the card again from the mesh";

/// What is said of frames of a new card without origin.
const NO_ORIGIN: &str = "the card's words for origin and count are none that an answer has: nothing is known, write the card again from the mesh";

/// What is said of frames that are too long or too short to be packed.
const TOO_LONG: &str = "a number of a direction is above 1, and a viewer would be shown nothing; likely cause: numbers too large or too small for single precision";
const TOO_SHORT: &str = "a direction is next to nothing, and a viewer would be shown zeros; likely cause: numbers too large or too small for single precision";

/// What holds of everything that is not good.
pub const NOT_GOOD: &str = "An absent reading is not a good reading.";

/// What all records come to, in one line; so many faces take no slot.
pub fn sum(tally: &Tally, without_slots: usize) -> String {
    let all = tally.all();
    let bad = BAD.iter().filter(|state| tally.count(**state) > 0);
    let mut parts: Vec<String> = bad
        .map(|state| format!("{} {}", tally.count(*state), state.word()))
        .collect();
    if without_slots > 0 {
        parts.push(format!("{} WITHOUT SLOTS", counted(without_slots, "face")));
    }
    if all == 0 {
        parts.push("no slot at all: NOTHING WAS READ".into());
    }
    if tally.torn > 0 {
        parts.push(format!("{} TORN", counted(tally.torn, "byte")));
    }
    if tally.status(without_slots) == Status::Good {
        return format!("all {all} slots are good");
    }
    if all > 0 {
        let last = parts.pop().map_or(String::new(), |last| last + "; ");
        parts.push(format!("{last}{} of {all} slots present", tally.present));
    }
    parts.join(", ")
}

/// The last line: what it comes to, and the exit status. What is not good is said on the terminal even where the rest goes to a file.
pub fn verdict(sum: &str, status: Status) {
    let code = status as u8;
    if status == Status::Good {
        return line("verdict", format!("{sum} (exit status {code})"));
    }
    let what = format!("{sum}. {NOT_GOOD} See docs/ABSENT.md (exit status {code})");
    loud("NOT GOOD", &what);
    if stderr().is_terminal() && !stdout().is_terminal() {
        let _ = writeln!(stderr(), "dokphalun: NOT GOOD: {what}");
    }
}

/// Whole numbers in rising order as ranges: "1 to 4, 7".
pub fn ranges(numbers: impl Iterator<Item = usize>) -> String {
    let mut ranges: Vec<(usize, usize)> = Vec::new();
    for number in numbers {
        match ranges.last_mut() {
            Some((_, last)) if *last + 1 == number => *last = number,
            _ => ranges.push((number, number)),
        }
    }
    let text = |&(first, last): &(usize, usize)| match first == last {
        true => first.to_string(),
        false => format!("{first} to {last}"),
    };
    ranges.iter().map(text).collect::<Vec<_>>().join(", ")
}
