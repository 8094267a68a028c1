//! Finds the proved archives, or makes them, and names them for the linker: libdokphalun.a, and with the feature `exports`
//! libexports.a too.
//!
//! An archive is taken from the folder that DOKPHALUN_ARCHIVE names. Else it is looked for in out/ of its crate (on x86-64,
//! where `rt lib` leaves it) and in target/archive of the repository, and taken if no source in crates/ is newer. Else
//! it is made: by `rt lib` in its crate, and on another machine than x86-64 by tools/native_archive.
//! Cargo shows nothing of what a build script says, so what they say goes to the terminal, where there is one.
use std::env::{var, var_os};
use std::fs::{self, File};
use std::io::{BufRead, BufReader, Write, pipe};
use std::path::{Path, PathBuf};
use std::process::Command;
use std::time::SystemTime;

fn main() {
    println!("cargo::rerun-if-env-changed=DOKPHALUN_ARCHIVE");
    let exports = var_os("CARGO_FEATURE_EXPORTS").map(|_| "exports");
    for library in ["dokphalun"].into_iter().chain(exports) {
        // each line of an error ends the build, and is shown
        if let Err(what) = link(library) {
            let lines = what.lines();
            lines.for_each(|line| println!("cargo::error={line}"));
        }
    }
}

/// The file of an archive.
fn file(library: &str) -> String {
    format!("lib{library}.a")
}

/// Names an archive for the linker: a copy, so that the linker finds no other of that name beside it.
fn link(library: &str) -> Result<(), String> {
    let archive = find(library)?;
    let made = PathBuf::from(var("OUT_DIR").map_err(|e| e.to_string())?);
    fs::copy(&archive, made.join(file(library)))
        .map_err(|e| format!("{} is not copied: {e}", archive.display()))?;
    println!("cargo::rerun-if-changed={}", archive.display());
    println!("cargo::rustc-link-search=native={}", made.display());
    println!("cargo::rustc-link-lib=static={library}");
    println!("cargo::rustc-env=DOKPHALUN_FOLDER={}", made.display());
    Ok(())
}

/// The archive: a named one, one in the repository that is no older than the sources, or one that is made.
fn find(library: &str) -> Result<PathBuf, String> {
    if let Some(named) = var_os("DOKPHALUN_ARCHIVE") {
        return named_archive(&PathBuf::from(named), &file(library));
    }
    let root = repository(library)?;
    let newest = newest_source(&root)?;
    let intel = var("CARGO_CFG_TARGET_ARCH").is_ok_and(|arch| arch == "x86_64");
    let own = format!("crates/{library}/out");
    let folders = match intel {
        true => vec![own.as_str(), "target/archive"],
        false => vec!["target/archive"],
    };
    let archives = folders
        .iter()
        .map(|folder| root.join(folder).join(file(library)));
    let fresh = |archive: &PathBuf| changed(archive).is_ok_and(|made| newest <= made);
    if let Some(archive) = archives.clone().find(fresh) {
        return Ok(archive);
    }
    let old = archives.clone().any(|archive| archive.is_file());
    make(&root, library, intel).map_err(|what| match old {
        true => format!("the archive is older than the sources in crates/.\n{what}"),
        false => what,
    })?;
    let made = archives.clone().find(|archive| archive.is_file());
    made.ok_or(format!("it was made, and is not in {}", folders.join(", ")))
}

/// The archive in the folder that DOKPHALUN_ARCHIVE names.
fn named_archive(folder: &Path, file: &str) -> Result<PathBuf, String> {
    let (shown, archive) = (folder.display(), folder.join(file));
    if folder.is_relative() {
        return Err(format!(
            "DOKPHALUN_ARCHIVE is {shown}: name the folder from / on"
        ));
    }
    match archive.is_file() {
        true => Ok(archive),
        false => Err(format!(
            "DOKPHALUN_ARCHIVE is {shown}, and there is no {file} in it"
        )),
    }
}

/// The repository that this crate stands in.
fn repository(library: &str) -> Result<PathBuf, String> {
    let here = PathBuf::from(var("CARGO_MANIFEST_DIR").unwrap_or_default());
    let root = here.join("../..");
    match root.join("crates.txt").is_file() {
        true => root.canonicalize().map_err(|e| e.to_string()),
        false => Err(format!(
            "no archive: {} is not in the repository, so {} is not made here.\n\
             Set DOKPHALUN_ARCHIVE to the folder that holds it.",
            here.display(),
            file(library)
        )),
    }
}

/// When a file was changed.
fn changed(file: &Path) -> std::io::Result<SystemTime> {
    fs::metadata(file)?.modified()
}

/// When the newest source of the proved crates was changed. Cargo runs this script again when one of them is.
fn newest_source(root: &Path) -> Result<SystemTime, String> {
    let said = |e: std::io::Error| format!("crates/ is not read: {e}");
    let mut newest = SystemTime::UNIX_EPOCH;
    for crates in fs::read_dir(root.join("crates")).map_err(said)? {
        let Ok(sources) = fs::read_dir(crates.map_err(said)?.path().join("src")) else {
            continue;
        };
        for source in sources {
            let source = source.map_err(said)?.path();
            println!("cargo::rerun-if-changed={}", source.display());
            newest = newest.max(changed(&source).map_err(|e| e.to_string())?);
        }
    }
    Ok(newest)
}

/// Makes the archive.
fn make(root: &Path, library: &str, intel: bool) -> Result<(), String> {
    let archive = file(library);
    if intel {
        return run(&root.join("crates").join(library), "rt", &["lib"], &archive);
    }
    let native = root.join("tools/native_archive");
    let out = root.join("target/archive").join(&archive);
    let words = [library, &out.to_string_lossy()];
    run(root, &native.to_string_lossy(), &words, &archive)
}

/// Runs a program in a folder of the repository. What it says is shown on the terminal as it comes, and again where it fails.
fn run(folder: &Path, program: &str, words: &[&str], archive: &str) -> Result<(), String> {
    let line = format!("{program} {}", words.join(" "));
    let mut terminal = File::options().write(true).open("/dev/tty").ok();
    show(
        &mut terminal,
        &format!("{archive} is not there yet, or old. `{line}`, in some minutes:"),
    );
    let unread = |e: std::io::Error| format!("no archive, and `{line}` is not heard: {e}");
    let (reader, writer) = pipe().map_err(unread)?;
    let mut child = Command::new(program)
        .args(words)
        .current_dir(folder)
        .stdin(std::process::Stdio::null())
        .stdout(writer.try_clone().map_err(unread)?)
        .stderr(writer)
        .spawn()
        .map_err(|e| {
            format!(
                "no archive, and `{line}` does not start: {e}.\n\
                 Install the Rattle kit (docs/DECISIONS.md names it), or set DOKPHALUN_ARCHIVE to a folder with {archive}."
            )
        })?;
    let mut said = String::new();
    for bytes in BufReader::new(reader).split(b'\n') {
        let text = String::from_utf8_lossy(&bytes.map_err(unread)?).into_owned();
        show(&mut terminal, &text);
        said += &format!("{text}\n");
    }
    let status = child.wait().map_err(unread)?;
    match status.success() {
        true => Ok(()),
        false => Err(format!(
            "no archive, and `{line}` failed ({status}):\n{said}"
        )),
    }
}

/// Shows a line on the terminal, over Cargo's own line of progress.
fn show(terminal: &mut Option<File>, line: &str) {
    if let Some(terminal) = terminal {
        let _ = write!(terminal, "\r\x1b[K{line}\n");
    }
}
