//! Lists of links, groups and orientations as a text file; docs/COMMAND.md has its form.
use crate::stop::{Fault, shown};
use dokphalun::{List, Lists, Objection, Triangle};
use std::fmt::Write;

/// The first line: what the file is, and which form it has.
const FIRST: &str = "dokphalun-lists 1";

/// The three lists: which it is, the word that its lines start with, and how many numbers they have.
const KINDS: [(List, &str, usize); 3] = [
    (List::Links, "link", 3),
    (List::Groups, "group", 3),
    (List::Orientations, "orientation", 1),
];

/// One list as it was read: its words, and in which line of the file each triangle's stand.
#[derive(Debug, Default)]
struct Part {
    words: Vec<u32>,
    lines: Vec<usize>,
}

/// The lists of a file.
#[derive(Debug, Default)]
pub struct Listed([Part; 3]);

impl Listed {
    /// The lists, to be examined.
    pub fn lists(&self) -> Lists<'_> {
        let [links, groups, orientations] = &self.0;
        Lists {
            links: &links.words,
            groups: &groups.words,
            orientations: &orientations.words,
        }
    }

    /// The line of the word that is objected to.
    pub fn line(&self, objection: &Objection) -> Option<usize> {
        let of_side = objection.side().map(|side| side.row / 3);
        let triangle = objection.triangle().map(|triangle| triangle.number);
        let mut parts = self.0.iter().zip(KINDS);
        let (part, _) = parts.find(|(_, (list, ..))| objection.list() == Some(*list))?;
        part.lines.get(of_side.or(triangle)?).copied()
    }

    /// Adds a line of numbers to the list that its first word names.
    fn add(&mut self, name: &str, words: &[&str], line: usize) -> Result<(), Fault> {
        let Some(kind) = KINDS.iter().position(|(_, known, _)| *known == name) else {
            let what = format!("`{}` is no line of a file of lists", shown(name));
            return Err(Fault::line(line, what));
        };
        let numbers = numbers(words, KINDS[kind].2, line)?;
        self.0[kind].words.extend(numbers);
        self.0[kind].lines.push(line);
        Ok(())
    }

    /// Sees that the last line counts the lines of each list that were read.
    fn counted(&self, words: &[&str], line: usize) -> Result<(), Fault> {
        let called_for = numbers(words, KINDS.len(), line)?;
        for ((part, (_, name, _)), wanted) in self.0.iter().zip(KINDS).zip(called_for) {
            let is = part.lines.len();
            if is != wanted as usize {
                let what = format!("`end` calls for {wanted} lines `{name}`, and there are {is}");
                return Err(Fault::line(line, what));
            }
        }
        Ok(())
    }
}

/// The lists of a text: every line is one of those that are known, and the last counts them, so that nothing is lost.
pub fn read(bytes: &[u8]) -> Result<Listed, Fault> {
    let (mut listed, mut started, mut ended) = (Listed::default(), false, false);
    let mut last = 1;
    for (line, text) in (1..).zip(bytes.split(|&byte| byte == b'\n')) {
        let text = String::from_utf8_lossy(text);
        let text = text.split('#').next().unwrap_or_default();
        let words: Vec<&str> = text.split_ascii_whitespace().collect();
        last = line;
        match words.split_first() {
            None => (),
            Some(_) if !started => started = first(&words, line)?,
            Some(_) if ended => return Err(Fault::line(line, "the file goes on after `end`")),
            Some((&"end", counts)) => {
                listed.counted(counts, line)?;
                ended = true;
            }
            Some((name, words)) => listed.add(name, words, line)?,
        }
    }
    match ended {
        true => Ok(listed),
        false if started => Err(Fault::line(last, "the file ends without a line `end`")),
        false => first(&[], last).map(|_| listed),
    }
}

/// True for the first line; a fault for any other.
fn first(words: &[&str], line: usize) -> Result<bool, Fault> {
    match words.join(" ") == FIRST {
        true => Ok(true),
        false => {
            let what = format!("a file of lists starts with a line `{FIRST}`");
            Err(Fault::line(line, what))
        }
    }
}

/// Just so many whole numbers of 32 bits, in digits.
fn numbers(words: &[&str], wanted: usize, line: usize) -> Result<Vec<u32>, Fault> {
    let number = |word: &&str| {
        let digits = word.bytes().all(|byte| byte.is_ascii_digit());
        let what = format!("`{}` is no whole number below 2^32", shown(word));
        let number = word.parse().ok().filter(|_| digits);
        number.ok_or_else(|| Fault::line(line, what))
    };
    match words.len() == wanted {
        true => words.iter().map(number).collect(),
        false => {
            let what = format!("numbers: {} stand here, and {wanted} have to", words.len());
            Err(Fault::line(line, what))
        }
    }
}

/// The text of lists for these triangles. The file's first words say what each line is of.
pub fn text(lists: Lists, triangles: &[Triangle]) -> String {
    let mut text = format!("{FIRST}\n");
    let rows = lists.links.chunks(3).zip(lists.groups.chunks(3));
    let words = rows.zip(lists.orientations);
    for (triangle, ((links, groups), orientation)) in triangles.iter().zip(words) {
        // writing to a string does not fail
        let _ = writeln!(text, "# {triangle}");
        let _ = writeln!(text, "link {}\ngroup {}", joined(links), joined(groups));
        let _ = writeln!(text, "orientation {orientation}");
    }
    let [links, groups, orientations] = [
        lists.links.len() / 3,
        lists.groups.len() / 3,
        lists.orientations.len(),
    ];
    let _ = writeln!(text, "end {links} {groups} {orientations}");
    text
}

/// Numbers with blanks between them.
fn joined(words: &[u32]) -> String {
    let words: Vec<String> = words.iter().map(u32::to_string).collect();
    words.join(" ")
}
