//! C programs, compiled with the header and the archive.
use std::path::{Path, PathBuf};
use std::process::Command;

/// The repository.
pub fn root() -> PathBuf {
    Path::new(env!("CARGO_MANIFEST_DIR")).join("../..")
}

/// What compiles a C program, each warning an error; and its file.
pub fn compiling(source: &Path, name: &str) -> (Command, PathBuf) {
    let out = Path::new(env!("CARGO_TARGET_TMPDIR")).join(name);
    let archive = Path::new(dokphalun_sys::FOLDER).join("libdokphalun.a");
    let mut cc = Command::new("cc");
    cc.args(["-std=c99", "-Wall", "-Wextra", "-Werror", "-pedantic", "-I"])
        .arg(root().join("include"))
        .args([source, &archive])
        .arg("-o")
        .arg(&out);
    (cc, out)
}

/// Compiles a C program; its file.
pub fn compiled(source: &Path, name: &str) -> PathBuf {
    let (mut cc, out) = compiling(source, name);
    let built = cc.status().expect("no C compiler `cc` here");
    assert!(built.success(), "the C program does not compile");
    out
}
