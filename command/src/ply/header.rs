//! The header of a PLY file: which elements there are, and what each row of them holds.
use crate::stop::{Fault, shown};

/// The most lines that a header may have.
const MOST_LINES: usize = 10_000;

/// A type of number.
#[derive(Clone, Copy, Debug, PartialEq, Eq)]
pub enum Kind {
    I8,
    U8,
    I16,
    U16,
    I32,
    U32,
    F32,
    F64,
}

/// The names of each type.
const KINDS: [(&str, &str, Kind); 8] = [
    ("char", "int8", Kind::I8),
    ("uchar", "uint8", Kind::U8),
    ("short", "int16", Kind::I16),
    ("ushort", "uint16", Kind::U16),
    ("int", "int32", Kind::I32),
    ("uint", "uint32", Kind::U32),
    ("float", "float32", Kind::F32),
    ("double", "float64", Kind::F64),
];

impl Kind {
    /// The type of a name.
    fn of(name: &str) -> Option<Kind> {
        let mut kinds = KINDS.iter();
        kinds
            .find(|(old, new, _)| name == *old || name == *new)
            .map(|(_, _, kind)| *kind)
    }

    /// Whether its numbers are whole.
    pub fn whole(self) -> bool {
        !matches!(self, Kind::F32 | Kind::F64)
    }
}

/// One thing that each row of an element holds.
#[derive(Debug)]
pub struct Property {
    pub name: String,
    pub kind: Kind,
    /// The type of a list's count; none where it is a single number.
    pub count: Option<Kind>,
}

/// A part of the file: so many rows.
#[derive(Debug)]
pub struct Element {
    pub name: String,
    pub rows: u64,
    pub properties: Vec<Property>,
    /// The line of the header that names it.
    pub line: usize,
}

/// What a header says.
#[derive(Debug, Default)]
pub struct Header {
    pub binary: bool,
    pub elements: Vec<Element>,
    /// The first byte after the header.
    pub end: usize,
    /// How many lines the header has.
    pub lines: usize,
}

/// The header of a file.
pub fn read(bytes: &[u8]) -> Result<Header, Fault> {
    let mut header = Header::default();
    let mut format = None;
    for line in bytes.split_inclusive(|&byte| byte == b'\n') {
        header.end += line.len();
        header.lines += 1;
        let number = header.lines;
        let text = String::from_utf8_lossy(line);
        let words: Vec<&str> = text.split_ascii_whitespace().collect();
        match words[..] {
            ["ply"] if number == 1 => (),
            _ if number == 1 => return Err(Fault::line(1, "a PLY file starts with a line `ply`")),
            ["comment" | "obj_info", ..] | [] if number < MOST_LINES => (),
            _ if number > MOST_LINES || !words.iter().all(|word| is_name(word)) => {
                return Err(foreign(&text, number));
            }
            ["end_header"] => return finish(header, format),
            ["format", name, version] => format = Some(binary(name, version, number)?),
            ["element", name, rows] => add_element(&mut header, name, rows)?,
            ["property", ref rest @ ..] => add_property(&mut header, rest)?,
            _ => return Err(foreign(&text, number)),
        }
    }
    let what = "the header does not end: there is no line `end_header`";
    Err(Fault::line(header.lines.max(1), what))
}

/// Whether a word can be a name: short, and of plain signs.
fn is_name(word: &str) -> bool {
    word.len() <= 64 && word.bytes().all(|byte| byte.is_ascii_graphic())
}

/// A line that no header has.
fn foreign(text: &str, line: usize) -> Fault {
    let what = format!("`{}` is no line of a PLY header", shown(text));
    Fault::line(line, what)
}

/// Whether a format is binary.
fn binary(name: &str, version: &str, line: usize) -> Result<bool, Fault> {
    match (name, version) {
        ("ascii", "1.0") => Ok(false),
        ("binary_little_endian", "1.0") => Ok(true),
        _ => Err(Fault::line(
            line,
            format!(
                "format {name} {version} is not read; ascii 1.0 and binary_little_endian 1.0 are"
            ),
        )),
    }
}

/// A header whose last line is there.
fn finish(mut header: Header, format: Option<bool>) -> Result<Header, Fault> {
    let Some(binary) = format else {
        return Err(Fault::line(header.lines, "the header has no line `format`"));
    };
    header.binary = binary;
    let bare = |element: &&Element| element.properties.is_empty() && element.rows > 0;
    match header.elements.iter().find(bare) {
        Some(element) => Err(Fault::line(
            element.line,
            format!("element {} has rows and no property", element.name),
        )),
        None => Ok(header),
    }
}

/// A line `element NAME ROWS`.
fn add_element(header: &mut Header, name: &str, rows: &str) -> Result<(), Fault> {
    let line = header.lines;
    let what = format!("element {name}: `{rows}` is no number of rows");
    let rows = rows.parse().map_err(|_| Fault::line(line, what))?;
    if header.elements.iter().any(|element| element.name == name) {
        return Err(Fault::line(line, format!("element {name} stands twice")));
    }
    if name == "tristrips" && rows > 0 {
        let what = "triangle strips are not read: export the mesh with an element `face`";
        return Err(Fault::line(line, what));
    }
    header.elements.push(Element {
        name: name.into(),
        rows,
        properties: Vec::new(),
        line,
    });
    Ok(())
}

/// The words of a line `property` after that word.
fn add_property(header: &mut Header, words: &[&str]) -> Result<(), Fault> {
    let fault = |what: String| Err(Fault::line(header.lines, what));
    let (count, of, name) = match *words {
        ["list", count, of, name] => (Some(count), of, name),
        [of, name] => (None, of, name),
        _ => {
            return fault(
                "a property is `property TYPE NAME` or `property list TYPE TYPE NAME`".into(),
            );
        }
    };
    let Some(kind) = Kind::of(of) else {
        return fault(format!("`{of}` is no type of number"));
    };
    let counts = count.map(Kind::of);
    if counts.is_some_and(|kind| !kind.is_some_and(Kind::whole)) {
        return fault(format!("the count of list {name} is no whole number"));
    }
    let Some(element) = header.elements.last_mut() else {
        return fault(format!("property {name} stands before any element"));
    };
    if element.properties.iter().any(|other| other.name == name) {
        return fault(format!(
            "property {name} stands twice in element {}",
            element.name
        ));
    }
    element.properties.push(Property {
        name: name.into(),
        kind,
        count: counts.flatten(),
    });
    Ok(())
}
