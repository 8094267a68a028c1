//! The words of a command line.
use std::env::args;
use std::fs::read;

/// `--gate`, and options with a number; anything else is not understood.
pub fn numbers<const N: usize>(options: [&str; N]) -> Option<([Option<u64>; N], bool)> {
    let (mut found, mut gate) = ([None; N], false);
    let mut words = args().skip(1);
    while let Some(word) = words.next() {
        match options.iter().position(|option| *option == word) {
            Some(at) => found[at] = Some(words.next()?.parse().ok()?),
            None if word == "--gate" => gate = true,
            None => return None,
        }
    }
    Some((found, gate))
}

/// The files that are named behind the word `meshes`, where that is the first: each with its name without a folder, and what it holds.
pub fn meshes() -> Option<Result<Vec<Named>, String>> {
    let mut words = args().skip(1);
    (words.next()? == "meshes").then(|| words.map(named).collect())
}

/// A file's name, without a folder, and what it holds.
pub type Named = (String, Vec<u8>);

/// A file that is read.
fn named(path: String) -> Result<Named, String> {
    let file = read(&path).map_err(|what| format!("{path}: {what}"))?;
    let name = path.rsplit('/').next().unwrap_or_default();
    Ok((name.into(), file))
}
