//! The report: a row of comma-separated values for each corner. What is not there is left empty, and is never a zero.
use crate::state::{Known, State};
use dokphalun::{Frame, Place, Record, corners, takes_slots};
use std::fmt::Write;

/// The names of the columns.
const TITLES: &str = "face,corner,slot,reading,tangent_x,tangent_y,tangent_z,bitangent_x,bitangent_y,bitangent_z,mag_s,mag_t,orientation,origin,behind,reason\n";

/// What stands between the reading and the reason where there is no frame, or none of use: nothing, in each column.
const NOTHING: &str = ",,,,,,,,,,";

/// The report's text.
pub fn report(known: &Known) -> String {
    let mut text = String::from(TITLES);
    let mut slots = 0..known.judged.records.len();
    for place in corners(&known.surface.sizes) {
        let size = known
            .surface
            .sizes
            .get(place.face)
            .copied()
            .unwrap_or_default();
        let slot = match takes_slots(size) {
            true => slots.next(),
            false => None,
        };
        text.push_str(&row(known, place, slot));
    }
    text
}

/// The row of a corner and its slot, if it has one.
fn row(known: &Known, Place { face, corner }: Place, slot: Option<usize>) -> String {
    let Some(slot) = slot else {
        return format!("{face},{corner},,NO SLOT,{NOTHING},\n");
    };
    let record = &known.judged.records[slot];
    let state = State::of(record, known.judged.kind);
    let held = match (state, record) {
        (State::Present, Record::Present(frame)) => numbers(frame),
        _ => NOTHING.into(),
    };
    let reason = known.reasons.get(slot).copied().flatten();
    let reason = reason.filter(|_| state == State::Absent);
    let reason = reason.map_or("", |reason| reason.words());
    format!("{face},{corner},{slot},{},{held},{reason}\n", state.word())
}

/// What a frame holds: eight numbers, shortest text that reads back the same; the orientation; where it comes from in words, and how many
/// triangles stand behind it, empty where that is not recorded.
fn numbers(frame: &Frame) -> String {
    let ([a, b, c], [d, e, f]) = (frame.tangent, frame.bitangent);
    let numbers = [a, b, c, d, e, f, frame.mag_s, frame.mag_t];
    let mut text = String::new();
    for number in numbers {
        // writing to a string does not fail
        let _ = write!(text, "{number},");
    }
    let behind = frame.behind.map(|count| count.to_string());
    let (turn, origin) = (u32::from(frame.preserving), frame.origin.word());
    text + &format!("{turn},{origin},{}", behind.unwrap_or_default())
}
