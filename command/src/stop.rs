//! Exit statuses, and what ends a run early.
use std::fmt;
use std::path::Path;

/// The exit statuses. Only 0 is good.
#[derive(Clone, Copy, Debug, PartialEq, Eq)]
pub enum Status {
    /// Every slot is good; or lists are written, or accepted.
    Good = 0,
    /// The command line is not understood.
    Usage = 2,
    /// Some corner has no frame, or none that is good.
    Absent = 3,
    /// The mesh is refused.
    Refused = 4,
    /// A file cannot be read.
    Unreadable = 5,
    /// A card has lost records, frames without origin or orientation, or bytes that do not belong to it.
    Lost = 6,
    /// A file cannot be written.
    Unwritten = 7,
    /// A partner's lists are not accepted.
    Objected = 8,
}

/// Why a run ends early.
#[derive(Debug)]
pub struct Stop {
    pub status: Status,
    pub what: String,
}

impl Stop {
    /// A command line that is not understood.
    pub fn usage(what: impl Into<String>) -> Stop {
        let what = format!("{}; `dokphalun help` has the words", what.into());
        let status = Status::Usage;
        Stop { status, what }
    }

    /// A file that cannot be read.
    pub fn unreadable(path: &Path, what: impl fmt::Display) -> Stop {
        Stop {
            status: Status::Unreadable,
            what: format!("{}: {what}", path.display()),
        }
    }
}

/// A place in a file.
#[derive(Clone, Copy, Debug, PartialEq, Eq)]
pub enum Spot {
    /// A line, counted from 1.
    Line(usize),
    /// A byte, counted from 0.
    Byte(usize),
}

impl fmt::Display for Spot {
    fn fmt(&self, f: &mut fmt::Formatter) -> fmt::Result {
        match self {
            Spot::Line(line) => write!(f, "line {line}"),
            Spot::Byte(byte) => write!(f, "byte {byte}"),
        }
    }
}

/// Why a file is no mesh, and where.
#[derive(Debug)]
pub struct Fault {
    pub spot: Spot,
    pub what: String,
}

impl Fault {
    /// A fault at a place.
    pub fn at(spot: Spot, what: impl Into<String>) -> Fault {
        let what = what.into();
        Fault { spot, what }
    }

    /// A fault in a line.
    pub fn line(line: usize, what: impl Into<String>) -> Fault {
        Fault::at(Spot::Line(line), what)
    }
}

impl fmt::Display for Fault {
    fn fmt(&self, f: &mut fmt::Formatter) -> fmt::Result {
        write!(f, "{}: {}", self.spot, self.what)
    }
}

/// A text to be shown: its start, where it is long.
pub fn shown(text: &str) -> String {
    let plain = |sign: char| if sign.is_control() { '?' } else { sign };
    let mut signs = text.trim().chars().map(plain);
    let start: String = signs.by_ref().take(32).collect();
    match signs.next() {
        Some(_) => start + "..",
        None => start,
    }
}
