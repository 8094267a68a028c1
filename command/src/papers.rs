//! The report and the picture that may be asked for.
use crate::picture::picture;
use crate::report::report;
use crate::say;
use crate::state::Known;
use crate::stop::Stop;
use crate::whole::write_all;
use std::path::{Path, PathBuf};

/// Where they are to be written.
#[derive(Default)]
pub struct Papers {
    pub report: Option<PathBuf>,
    pub picture: Option<PathBuf>,
    /// Whether the picture marks where frames come from.
    pub origins: bool,
}

impl Papers {
    /// Their paths.
    pub fn iter(&self) -> impl Iterator<Item = &PathBuf> {
        self.report.iter().chain(&self.picture)
    }

    /// Writes those that are asked for, and one file more. The picture has the name of the file that it is about.
    pub fn write(
        &self,
        known: &Known,
        about: &Path,
        more: Option<(&Path, &[u8])>,
    ) -> Result<(), Stop> {
        let name = about.file_name().unwrap_or_default().to_string_lossy();
        let report = self.report.as_ref().map(|path| (path, report(known)));
        let drawn = self
            .picture
            .as_ref()
            .map(|path| (path, picture(known, &name, self.origins)));
        let texts: Vec<_> = report.into_iter().chain(drawn).collect();
        let texts = texts
            .iter()
            .map(|(path, text)| (path.as_path(), text.as_bytes()));
        write_all(&more.into_iter().chain(texts).collect::<Vec<_>>())
    }

    /// Prints where they are.
    pub fn say(&self) {
        for (name, path) in [("report", &self.report), ("picture", &self.picture)] {
            path.iter().for_each(|path| say::line(name, path.display()));
        }
    }
}
