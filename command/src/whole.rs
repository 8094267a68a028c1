//! Files written whole: to a temporary file beside, then renamed, so that no half file is left.
use crate::stop::{Status, Stop};
use std::fs::{self, File};
use std::io::{self, Write};
use std::path::{Path, PathBuf};

/// A file that stands ready beside its place.
struct Ready<'a> {
    part: PathBuf,
    path: &'a Path,
}

/// Writes all files, or says which could not be written. None takes its place before all are ready.
pub fn write_all(files: &[(&Path, &[u8])]) -> Result<(), Stop> {
    let mut ready: Vec<Ready> = Vec::new();
    let done = files.iter().try_for_each(|&(path, bytes)| {
        // a folder or a device is not to be replaced
        if fs::metadata(path).is_ok_and(|there| !there.is_file()) {
            return Err(unwritten(path, io::Error::other("it is no plain file")));
        }
        let part = part(path);
        let made = put(&part, bytes);
        ready.push(Ready { part, path });
        made.map_err(|error| unwritten(path, error))
    });
    let done = done.and_then(|()| {
        let mut all = ready.iter();
        all.try_for_each(|one| {
            fs::rename(&one.part, one.path).map_err(|error| unwritten(one.path, error))
        })
    });
    if done.is_err() {
        // a part that was renamed is not there any more
        ready
            .iter()
            .for_each(|one| drop(fs::remove_file(&one.part)));
    }
    done
}

/// The name of the temporary file beside a file.
fn part(path: &Path) -> PathBuf {
    let mut name = path.as_os_str().to_owned();
    name.push(format!(".{}.part", std::process::id()));
    name.into()
}

/// Writes bytes and sees them on the disk.
fn put(part: &Path, bytes: &[u8]) -> io::Result<()> {
    let mut file = File::create_new(part)?;
    file.write_all(bytes)?;
    file.sync_all()
}

/// What is said of a file that could not be written.
fn unwritten(path: &Path, error: io::Error) -> Stop {
    Stop {
        status: Status::Unwritten,
        what: format!("{} is not written: {error}", path.display()),
    }
}
