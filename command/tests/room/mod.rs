//! A folder for one test, and the command run in it.
use std::fs;
use std::path::PathBuf;
use std::process::Command;

/// A folder of its own for a test.
pub struct Room(PathBuf);

/// What a run left: its exit status, and all that it printed.
pub struct Ran {
    pub status: i32,
    pub said: String,
}

impl Room {
    /// An empty folder.
    pub fn new(name: &str) -> Room {
        let folder = PathBuf::from(env!("CARGO_TARGET_TMPDIR")).join(name);
        let _ = fs::remove_dir_all(&folder);
        fs::create_dir_all(&folder).unwrap();
        Room(folder)
    }

    /// Puts a file there.
    pub fn put(&self, name: &str, bytes: impl AsRef<[u8]>) {
        fs::write(self.0.join(name), bytes).unwrap();
    }

    /// The bytes of a file, if it is there.
    pub fn get(&self, name: &str) -> Option<Vec<u8>> {
        fs::read(self.0.join(name)).ok()
    }

    /// The bytes of a file that is there.
    pub fn bytes(&self, name: &str) -> Vec<u8> {
        self.get(name).unwrap_or_else(|| panic!("no file {name}"))
    }

    /// The text of a file that is there.
    pub fn text(&self, name: &str) -> String {
        String::from_utf8(self.bytes(name)).unwrap()
    }

    /// The names of all files there.
    pub fn names(&self) -> Vec<String> {
        let entries = fs::read_dir(&self.0).unwrap();
        let mut names: Vec<String> = entries
            .map(|entry| entry.unwrap().file_name().into_string().unwrap())
            .collect();
        names.sort();
        names
    }

    /// Runs the command with the words of a line.
    pub fn run(&self, line: &str) -> Ran {
        let output = Command::new(env!("CARGO_BIN_EXE_dokphalun"))
            .args(line.split_ascii_whitespace())
            .current_dir(&self.0)
            .output()
            .unwrap();
        let said = String::from_utf8([output.stdout, output.stderr].concat()).unwrap();
        let status = output.status.code().unwrap_or(-1);
        Ran { status, said }
    }
}

/// The rows of a table: three texts with bars between them, in which \n stands for a new line.
pub fn rows(table: &str) -> impl Iterator<Item = [String; 3]> {
    table.lines().map(|row| {
        let texts: Vec<String> = row
            .split(" | ")
            .map(|text| text.replace("\\n", "\n"))
            .collect();
        texts.try_into().expect("a row has three texts")
    })
}

impl Room {
    /// Runs each line of a table, and sees that it ends with its exit status and says its text.
    pub fn runs(&self, table: &str) {
        for [line, status, said] in rows(table) {
            self.run(&line).ends(status.parse().unwrap(), &said);
        }
    }
}

impl Ran {
    /// Sees that it ended with a status and said something.
    pub fn ends(&self, status: i32, said: &str) {
        let Ran {
            status: is,
            said: all,
        } = self;
        assert!(
            *is == status && all.contains(said),
            "status {is}, wanted {status} and `{said}`:\n{all}"
        );
    }
}
