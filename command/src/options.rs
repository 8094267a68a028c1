//! The words of the command line.
use crate::examine::AskedExamine;
use crate::frames::AskedFrames;
use crate::links::AskedLinks;
use crate::papers::Papers;
use crate::read::AskedRead;
use crate::stop::{Status, Stop};
use dokphalun::MOST_FACES;
use std::ffi::OsString;
use std::io::{Write, stdout};
use std::path::PathBuf;
use std::str::FromStr;

/// What `dokphalun help` prints; MOST_FACES stands for the number.
const HELP: &str = "dokphalun: tangent frames of a scanned mesh. An absent reading is not a good reading.

  dokphalun frames MESH -o CARD [--threshold COS | --angle DEGREES] [--report CSV] [--picture SVG [--origins]]
      MESH is a PLY or OBJ file with normals and texture coordinates, of at most MOST_FACES faces.
      Frames of all corners of faces of 3 or 4 are written to CARD, and each corner without one is named.
      Tangents of one corner are joined up to an angle; by default there is no limit (180 degrees, cosine -1).
      With --origins the picture marks where frames come from: combined, copied or filled in.
  dokphalun read CARD --total N [--mesh MESH] [--report CSV] [--picture SVG [--origins]]
      What is on a card of N records, of the old kind or the new: good, absent, lost, and torn bytes; with the mesh, which faces.
  dokphalun links MESH -o LISTS
      Writes our own links, groups and orientations of the mesh's sound triangles, as text.
  dokphalun examine MESH LISTS
      Whether somebody else's links, groups and orientations are accepted, or the first objection to them and its place.
  dokphalun demo [FOLDER]
      Makes a tank, and runs `frames` and `read` on it. It leaves mesh, card, report and pictures in FOLDER (dokphalun-demo).

Exit status: 0 every slot is good; or lists are written, or accepted. 2 the command line is not understood. 3 some corner has no frame, or none of use. 4 the mesh is refused.
5 a file cannot be read. 6 a card has lost records, frames without origin or orientation, or torn bytes. 7 a file cannot be written. 8 lists are not accepted.
";

/// The first words that are known.
const KNOWN: &str = "frames, read, links, examine or demo";

/// What is asked for.
pub enum Task {
    Frames(AskedFrames),
    Read(AskedRead),
    Links(AskedLinks),
    Examine(AskedExamine),
    Demo(PathBuf),
    Help,
}

/// Prints the help.
pub fn help() -> Status {
    let text = HELP.replace("MOST_FACES", &MOST_FACES.to_string());
    let _ = stdout().write_all(text.as_bytes());
    Status::Good
}

/// The names that have no value behind them.
const BARE: [&str; 1] = ["--origins"];

/// The words after the first, sorted into plain ones and named ones.
struct Words {
    plain: Vec<OsString>,
    named: Vec<(&'static str, OsString)>,
}

impl Words {
    /// Sorts words; only these names are known, each with a value behind it unless it is bare.
    fn sort(
        mut words: impl Iterator<Item = OsString>,
        known: &[&'static str],
    ) -> Result<Words, Stop> {
        let (mut plain, mut named) = (Vec::new(), Vec::new());
        while let Some(word) = words.next() {
            if !word.to_string_lossy().starts_with('-') {
                plain.push(word);
                continue;
            }
            let Some(name) = known.iter().find(|name| word == **name) else {
                return Err(Stop::usage(format!("{} is not known here", word.display())));
            };
            let value = match BARE.contains(name) {
                true => Some(OsString::new()),
                false => words.next(),
            };
            let value = value.ok_or_else(|| Stop::usage(format!("{name} wants a value")))?;
            if named.iter().any(|(other, _)| other == name) {
                return Err(Stop::usage(format!("{name} stands twice")));
            }
            named.push((*name, value));
        }
        Ok(Words { plain, named })
    }

    /// The value of a name.
    fn value(&self, name: &str) -> Option<&OsString> {
        let mut named = self.named.iter();
        named
            .find(|(other, _)| *other == name)
            .map(|(_, value)| value)
    }

    /// The path of a name.
    fn path(&self, name: &str) -> Option<PathBuf> {
        self.value(name).map(PathBuf::from)
    }

    /// The report and the picture.
    fn papers(&self) -> Result<Papers, Stop> {
        let papers = Papers {
            report: self.path("--report"),
            picture: self.path("--picture"),
            origins: self.value("--origins").is_some(),
        };
        match papers.origins && papers.picture.is_none() {
            true => Err(Stop::usage("--origins wants --picture SVG too")),
            false => Ok(papers),
        }
    }

    /// The number of a name.
    fn number<T: FromStr>(&self, name: &str) -> Result<Option<T>, Stop> {
        let Some(value) = self.value(name) else {
            return Ok(None);
        };
        let number = value.to_str().and_then(|text| text.parse().ok());
        let wrong = || Stop::usage(format!("{name} {}: no number for that", value.display()));
        number.ok_or_else(wrong).map(Some)
    }

    /// The only two plain words.
    fn both(&self, what: &str) -> Result<[PathBuf; 2], Stop> {
        match &self.plain[..] {
            [first, second] => Ok([first, second].map(PathBuf::from)),
            _ => Err(Stop::usage(format!(
                "{what} are wanted, and {} are named",
                self.plain.len()
            ))),
        }
    }

    /// The only plain word.
    fn only(&self, what: &str) -> Result<PathBuf, Stop> {
        match &self.plain[..] {
            [word] => Ok(PathBuf::from(word)),
            _ => Err(Stop::usage(format!(
                "one {what} is wanted, and {} are named",
                self.plain.len()
            ))),
        }
    }
}

/// What the words ask for.
pub fn task(mut words: impl Iterator<Item = OsString>) -> Result<Task, Stop> {
    let Some(first) = words.next() else {
        return Err(Stop::usage(format!("{KNOWN}?")));
    };
    match first.to_str() {
        Some("frames") => frames(words).map(Task::Frames),
        Some("read") => read(words).map(Task::Read),
        Some("links") => links(words).map(Task::Links),
        Some("examine") => examine(words).map(Task::Examine),
        Some("demo") => {
            let words = Words::sort(words, &[])?;
            match words.plain.is_empty() {
                true => Ok(Task::Demo("dokphalun-demo".into())),
                false => words.only("folder").map(Task::Demo),
            }
        }
        Some("help" | "--help" | "-h") => Ok(Task::Help),
        _ => Err(Stop::usage(format!(
            "{} is not known: {KNOWN}?",
            first.display()
        ))),
    }
}

/// The words after `frames`.
fn frames(words: impl Iterator<Item = OsString>) -> Result<AskedFrames, Stop> {
    let words = Words::sort(
        words,
        &[
            "-o",
            "--threshold",
            "--angle",
            "--report",
            "--picture",
            "--origins",
        ],
    )?;
    let asked = AskedFrames {
        mesh: words.only("mesh")?,
        card: words
            .path("-o")
            .ok_or_else(|| Stop::usage("-o CARD is wanted"))?,
        threshold: threshold(words.number("--threshold")?, words.number("--angle")?)?,
        papers: words.papers()?,
    };
    apart([Some(&asked.mesh), Some(&asked.card)], &asked.papers)?;
    Ok(asked)
}

/// The words after `read`.
fn read(words: impl Iterator<Item = OsString>) -> Result<AskedRead, Stop> {
    let words = Words::sort(
        words,
        &["--total", "--mesh", "--report", "--picture", "--origins"],
    )?;
    let no_total = || {
        Stop::usage(
            "--total N is wanted: the number of records that was printed when the card was written",
        )
    };
    let asked = AskedRead {
        card: words.only("card")?,
        total: words.number("--total")?.ok_or_else(no_total)?,
        mesh: words.path("--mesh"),
        papers: words.papers()?,
    };
    if asked.mesh.is_none() && asked.papers.iter().next().is_some() {
        return Err(Stop::usage("--report and --picture want --mesh MESH too"));
    }
    apart([Some(&asked.card), asked.mesh.as_ref()], &asked.papers)?;
    Ok(asked)
}

/// The words after `links`.
fn links(words: impl Iterator<Item = OsString>) -> Result<AskedLinks, Stop> {
    let words = Words::sort(words, &["-o"])?;
    let no_lists = || Stop::usage("-o LISTS is wanted");
    let asked = AskedLinks {
        mesh: words.only("mesh")?,
        lists: words.path("-o").ok_or_else(no_lists)?,
    };
    apart([Some(&asked.mesh), Some(&asked.lists)], &Papers::default())?;
    Ok(asked)
}

/// The words after `examine`.
fn examine(words: impl Iterator<Item = OsString>) -> Result<AskedExamine, Stop> {
    let words = Words::sort(words, &[])?;
    let [mesh, lists] = words.both("a mesh and lists")?;
    apart([Some(&mesh), Some(&lists)], &Papers::default())?;
    Ok(AskedExamine { mesh, lists })
}

/// The cosine that is asked for. One that is not finite is left to the archive, which refuses it.
fn threshold(cosine: Option<f32>, degrees: Option<f64>) -> Result<f32, Stop> {
    match (cosine, degrees) {
        (None, None) => Ok(-1.0),
        (Some(_), Some(_)) => Err(Stop::usage(
            "--threshold and --angle are two ways to say one thing: one of them",
        )),
        (Some(cosine), None) if cosine.is_finite() && cosine.abs() > 1.0 => {
            Err(Stop::usage(format!(
                "--threshold {cosine} is no cosine: from -1 to 1. For degrees there is --angle"
            )))
        }
        (Some(cosine), None) => Ok(cosine),
        (None, Some(degrees)) if (0.0..=180.0).contains(&degrees) => {
            Ok(degrees.to_radians().cos() as f32)
        }
        (None, Some(degrees)) => Err(Stop::usage(format!(
            "--angle {degrees}: from 0 to 180 degrees"
        ))),
    }
}

/// Sees that no file is named for two things.
fn apart(files: [Option<&PathBuf>; 2], papers: &Papers) -> Result<(), Stop> {
    let real = |path: &PathBuf| path.canonicalize().unwrap_or_else(|_| path.clone());
    let all = files.into_iter().flatten().chain(papers.iter());
    let paths: Vec<PathBuf> = all.map(real).collect();
    for (i, path) in paths.iter().enumerate() {
        if paths[..i].contains(path) {
            return Err(Stop::usage(format!(
                "{} is named for two things",
                path.display()
            )));
        }
    }
    Ok(())
}
