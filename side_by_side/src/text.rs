//! A case as text: written, and read back.
//!
//! Words are hexadecimal bits, counts and sizes are decimal, `3*0` stands for `0 0 0`, and `#` starts a remark. Each
//! name is followed by its values: sizes, positions, normals, texture, threshold, answer and work (how many words are
//! lent), and where there are any owners (a shuffle) and foreseen (number and place).
use crate::mesh::Case;
use std::fmt::Write;
use std::str::FromStr;

/// The text of a case.
pub fn write(case: &Case) -> String {
    let mesh = &case.mesh;
    let mut text = String::new();
    writeln!(text, "sizes {}", runs(&mesh.sizes)).unwrap();
    write_list(&mut text, "positions", &mesh.positions, 3);
    write_list(&mut text, "normals", &mesh.normals, 3);
    write_list(&mut text, "texture", &mesh.texture, 2);
    writeln!(text, "threshold {}", row(&[mesh.threshold])).unwrap();
    writeln!(text, "answer {}\nwork {}", mesh.answer, mesh.work).unwrap();
    if !case.owners.is_empty() {
        writeln!(text, "owners {}", runs(&case.owners)).unwrap();
    }
    if let Some((number, place)) = case.foreseen {
        writeln!(text, "foreseen {number} {place}").unwrap();
    }
    text
}

/// Small numbers, four and more equal ones in a row as `4*3`.
fn runs(list: &[u8]) -> String {
    let run = |run: &[u8]| match run.len() {
        count @ 4.. => format!("{count}*{}", run[0]),
        count => vec![run[0].to_string(); count].join(" "),
    };
    let runs: Vec<String> = list.chunk_by(|a, b| a == b).map(run).collect();
    runs.join(" ")
}

/// Writes a list's name, then its words, so many a line.
fn write_list(text: &mut String, name: &str, words: &[u32], wide: usize) {
    writeln!(text, "{name}").unwrap();
    for words in words.chunks(wide) {
        writeln!(text, "  {}", row(words)).unwrap();
    }
}

/// Words, and their numbers as a remark.
pub fn row(words: &[u32]) -> String {
    let bits: Vec<String> = words.iter().map(|word| format!("{word:08X}")).collect();
    let numbers: Vec<String> = words.iter().map(|&word| number(word)).collect();
    format!("{} # {}", bits.join(" "), numbers.join(" "))
}

/// The words of a slot, and what they say as a remark.
pub fn slot_row(words: &[u32]) -> String {
    let bits: Vec<String> = words.iter().map(|word| format!("{word:08X}")).collect();
    let numbers: Vec<String> = words[1..9].iter().map(|&word| number(word)).collect();
    let [present, way, origin, behind] = [words[0], words[9], words[10], words[11]];
    format!(
        "{} # {present} | {} | {way} | {origin} {behind}",
        bits.join(" "),
        numbers.join(" ")
    )
}

/// A number as one would write it.
pub fn number(word: u32) -> String {
    let number = f32::from_bits(word);
    let plain = number == 0.0 || (1e-4..1e7).contains(&number.abs());
    if plain {
        format!("{number}")
    } else {
        format!("{number:e}")
    }
}

/// The case that a text holds, or what is wrong with it.
pub fn read(text: &str) -> Result<Case, String> {
    let mut case = Case::default();
    let mut name = "";
    let mut foreseen: Vec<u32> = vec![];
    let lines = text
        .lines()
        .map(|line| line.split('#').next().unwrap_or_default());
    for token in lines.flat_map(str::split_whitespace) {
        if token.starts_with(|c: char| c.is_ascii_lowercase()) {
            name = token;
            continue;
        }
        match name {
            "sizes" => case.mesh.sizes.extend(run(token)?),
            "positions" => case.mesh.positions.push(bits(token)?),
            "normals" => case.mesh.normals.push(bits(token)?),
            "texture" => case.mesh.texture.push(bits(token)?),
            "threshold" => case.mesh.threshold = bits(token)?,
            "answer" => case.mesh.answer = decimal(token)?,
            "work" => case.mesh.work = decimal(token)?,
            "owners" => case.owners.extend(run(token)?),
            "foreseen" => foreseen.push(decimal(token)?),
            _ => {
                return Err(format!(
                    "'{token}' stands after '{name}', which is no list's name"
                ));
            }
        }
    }
    case.foreseen = foreseen.first().copied().zip(foreseen.get(1).copied());
    if case.owners.is_empty() || case.owners.len() == case.mesh.sizes.len() {
        Ok(case)
    } else {
        Err("a shuffle has as many owners as faces".into())
    }
}

/// A small number, or a run of equal ones.
fn run(token: &str) -> Result<Vec<u8>, String> {
    let (count, value) = token.split_once('*').unwrap_or(("1", token));
    Ok(vec![decimal(value)?; decimal(count)?])
}

/// A decimal number.
fn decimal<T: FromStr>(token: &str) -> Result<T, String> {
    token
        .parse()
        .map_err(|_| format!("'{token}' is no decimal number of this list"))
}

/// A word of eight hexadecimal digits.
fn bits(token: &str) -> Result<u32, String> {
    u32::from_str_radix(token, 16).map_err(|_| format!("'{token}' is no word"))
}
