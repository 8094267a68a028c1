//! Spoilt and random files for the readers, and all that follows where one is read: no panic, and every number of every
//! corner accounted for. DOKPHALUN_FUZZ_SECONDS says for how long (2 where it is not set), DOKPHALUN_FUZZ_SEED from where.
use command::picture::picture;
use command::report::report;
use command::state::{Judged, Known, Tally};
use command::surface::Surface;
use command::why::reasons;
use command::{obj, ply, tank};
use dokphalun::{Buffers, Kind, Record};
use models::files as shapes;
use std::env::var;
use std::panic::catch_unwind;
use std::time::{Duration, Instant};

/// Numbers that look random (splitmix64).
struct Random(u64);

impl Random {
    fn bits(&mut self) -> u64 {
        self.0 = self.0.wrapping_add(0x9E37_79B9_7F4A_7C15);
        let z = (self.0 ^ (self.0 >> 30)).wrapping_mul(0xBF58_476D_1CE4_E5B9);
        let z = (z ^ (z >> 27)).wrapping_mul(0x94D0_49BB_1331_11EB);
        z ^ (z >> 31)
    }

    fn below(&mut self, n: usize) -> usize {
        (self.bits() >> 33) as usize % n.max(1)
    }
}

/// Words that are put into files.
const WORDS: [&str; 32] = [
    "nan",
    "inf",
    "-inf",
    "1e39",
    "-1",
    "0",
    "4294967295",
    "4294967296",
    "18446744073709551615",
    "99999999999999999999",
    "-9223372036854775808",
    "1e-46",
    "\n",
    " ",
    "\r\n",
    "/",
    "//",
    "1//1",
    "1/1/1",
    "-1/-1/-1",
    "f",
    "v",
    "vt",
    "vn",
    "\\\n",
    "element face 3\n",
    "element x 18446744073709551615\n",
    "property list uchar int q\n",
    "property float x\n",
    "end_header\n",
    "format binary_little_endian 1.0\n",
    "\0",
];

/// One misfortune of a file.
fn spoil(random: &mut Random, file: &mut Vec<u8>) {
    let (at, to) = (random.below(file.len() + 1), random.below(file.len() + 1));
    let (low, high) = (at.min(to), at.max(to).min(at.min(to) + 64));
    // the header is met more often than its length calls for
    let at = if random.below(2) == 0 {
        random.below(400.min(file.len() + 1))
    } else {
        at
    };
    match random.below(8) {
        0 => file.truncate(at),
        1 => drop(file.drain(low..high)),
        2 => {
            let copy = file[low..high].to_vec();
            file.splice(at..at, copy);
        }
        3 | 4 => {
            let word = WORDS[random.below(WORDS.len())];
            file.splice(at..at, word.bytes());
        }
        5 => word_for_word(random, file, at),
        _ => {
            if let Some(byte) = file.get_mut(at) {
                *byte = random.bits() as u8;
            }
        }
    }
}

/// Puts a word in the place of the one that stands there.
fn word_for_word(random: &mut Random, file: &mut Vec<u8>, at: usize) {
    let blank = |byte: &u8| byte.is_ascii_whitespace();
    let start = file[..at].iter().rposition(blank).map_or(0, |i| i + 1);
    let end = file[at..]
        .iter()
        .position(blank)
        .map_or(file.len(), |i| at + i);
    let word = WORDS[random.below(12)];
    file.splice(start..end, word.bytes());
}

/// A file: spoilt, or nothing but random bytes behind a start that a reader takes.
fn file(random: &mut Random, sound: &[Vec<u8>]) -> Vec<u8> {
    let mut file = sound[random.below(sound.len())].clone();
    if random.below(16) == 0 {
        file.truncate(random.below(300));
        file.extend((0..random.below(600)).map(|_| random.bits() as u8));
        return file;
    }
    for _ in 0..random.below(5) {
        spoil(random, &mut file);
    }
    file
}

/// What became of the files.
#[derive(Default, Debug)]
struct Ends {
    files: u64,
    faults: u64,
    refusals: u64,
    answers: u64,
    with_absent: u64,
}

impl Ends {
    /// One file through both readers.
    fn of(file: &[u8]) -> Ends {
        let mut ends = Ends::default();
        ends.files += 1;
        for read in [ply::read(file), obj::read(file)] {
            match read {
                Ok(surface) => ends.follow(&surface),
                Err(fault) => {
                    assert!(fault.to_string().len() < 400, "{fault}");
                    ends.faults += 1;
                }
            }
        }
        ends
    }

    /// What follows where a file was read: frames, report and picture.
    fn follow(&mut self, surface: &Surface) {
        let mut buffers = Buffers::new();
        let Ok(answer) = buffers.frames(surface.mesh(), -1.0) else {
            self.refusals += 1;
            return;
        };
        let readings = answer.readings();
        let records: Vec<Record> = readings.map(|(_, reading)| reading.into()).collect();
        let judged = Judged {
            records: &records,
            kind: Kind::New,
            all_good: answer.all_good(),
            torn: 0,
        };
        let known = Known {
            surface,
            judged,
            reasons: &reasons(surface, -1.0, &records),
        };
        let rows = report(&known).lines().count();
        assert_eq!(rows, 1 + surface.positions.len(), "a corner has no row");
        assert_eq!(surface.slots(), records.len(), "a slot has no record");
        for origins in [false, true] {
            assert!(picture(&known, "fuzz", origins).ends_with("</svg>\n"));
        }
        self.answers += 1;
        self.with_absent += u64::from(Tally::of(judged).absent > 0);
    }

    /// Both together.
    fn and(self, other: Ends) -> Ends {
        Ends {
            files: self.files + other.files,
            faults: self.faults + other.faults,
            refusals: self.refusals + other.refusals,
            answers: self.answers + other.answers,
            with_absent: self.with_absent + other.with_absent,
        }
    }
}

/// A number from the environment.
fn number(name: &str, usual: u64) -> u64 {
    var(name)
        .ok()
        .and_then(|text| text.parse().ok())
        .unwrap_or(usual)
}

#[test]
fn no_file_makes_a_reader_panic() {
    let seconds = number("DOKPHALUN_FUZZ_SECONDS", 2);
    let seed = number("DOKPHALUN_FUZZ_SEED", 1);
    let mut sound = shapes::all();
    sound.push(tank::ply().into_bytes());
    let mut ends = Ends::default();
    let end = Instant::now() + Duration::from_secs(seconds);
    for case in 0.. {
        if Instant::now() >= end {
            break;
        }
        let file = file(&mut Random(seed ^ (case << 20)), &sound);
        let Ok(one) = catch_unwind(|| Ends::of(&file)) else {
            panic!(
                "seed {seed}, case {case}: {}",
                String::from_utf8_lossy(&file)
            );
        };
        ends = ends.and(one);
    }
    println!("{seconds} seconds from seed {seed}: {ends:?}, no panic");
    assert!(ends.answers > 0 && ends.faults > 0 && ends.refusals > 0);
}
