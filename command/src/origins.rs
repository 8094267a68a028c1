//! Where present frames come from, counted.
use crate::state::{Judged, State};
use dokphalun::{Origin, Record};

/// The origins, in the order in which they are named.
pub const ORIGINS: [Origin; 5] = [
    Origin::Single,
    Origin::Combined,
    Origin::Copied,
    Origin::Filled,
    Origin::NotRecorded,
];

/// How many of the records that are in the state present come from where: together they are all of these.
pub fn counts(judged: Judged) -> [(Origin, usize); ORIGINS.len()] {
    let of = |origin| {
        let from = |record: &Record| matches!(record, Record::Present(f) if f.origin == origin);
        let all = judged.states().zip(judged.records);
        let here = all.filter(|(state, record)| *state == State::Present && from(record));
        here.count()
    };
    ORIGINS.map(|origin| (origin, of(origin)))
}

/// The same in words: those that there are.
pub fn told(judged: Judged) -> String {
    let counts = counts(judged).into_iter();
    let counts = counts.filter(|(_, count)| *count > 0);
    let parts: Vec<String> = counts
        .map(|(origin, count)| format!("{count} {}", origin.word()))
        .collect();
    match parts.is_empty() {
        true => "none".into(),
        false => parts.join(", "),
    }
}
