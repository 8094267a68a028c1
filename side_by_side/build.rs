//! Builds the Rust crate from where its source stands, unchanged, and an altered copy of it.
//!
//! The crate: the folder of MIKKTSPACE_SRC, else ../shared/docs/src beside the repository; it holds src/lib.rs. It
//! becomes an rlib among this package's own products, with both corrected features. So does the altered copy (altered.rs),
//! which has request E6's rule and request E7's two words. A slip in it is tried by naming a patch in ALTERED_PATCH (altered/run).
#[path = "altered.rs"]
mod altered;

use std::env::var;
use std::fs::File;
use std::path::{Path, PathBuf};
use std::process::Command;

fn main() {
    let here = PathBuf::from(var("CARGO_MANIFEST_DIR").unwrap());
    let made = PathBuf::from(var("OUT_DIR").unwrap());
    println!("cargo:rerun-if-changed=altered.rs");
    let source = folder("MIKKTSPACE_SRC", here.join("../../shared/docs/src"));
    build_crate("bevy_mikktspace", &source, &made);
    let copy = altered::copy(&source, &made);
    println!("cargo:rerun-if-env-changed=ALTERED_PATCH");
    if let Ok(patch) = var("ALTERED_PATCH") {
        println!("cargo:rerun-if-changed={patch}");
        spoil(&copy, Path::new(&patch));
    }
    build_crate("mikktspace_altered", &copy, &made);
}

/// Puts a slip into the altered copy, on purpose.
fn spoil(copy: &Path, patch: &Path) {
    let patch = File::open(patch).expect("the file of ALTERED_PATCH");
    let mut command = Command::new("patch");
    let words = ["--quiet", "--strip=1", "--fuzz=0", "--directory"];
    let status = command.args(words).arg(copy).stdin(patch).status();
    let done = status.expect("patch does not start").success();
    assert!(done, "ALTERED_PATCH does not fit the altered copy");
}

/// The folder that an environment variable names, else the usual one.
fn folder(variable: &str, usual: PathBuf) -> PathBuf {
    println!("cargo:rerun-if-env-changed={variable}");
    var(variable).map_or(usual, PathBuf::from)
}

/// Compiles src/lib.rs of the crate, or of its altered copy, to an rlib of that name in `made`.
fn build_crate(name: &str, source: &Path, made: &Path) {
    let root = source.join("src/lib.rs");
    assert!(
        root.is_file(),
        "no crate to compare with: {} is not there",
        root.display()
    );
    if !source.starts_with(made) {
        println!("cargo:rerun-if-changed={}", source.display());
    }
    let status = Command::new(var("RUSTC").unwrap())
        .args([
            "--crate-name",
            name,
            "--crate-type",
            "rlib",
            "--edition",
            "2024",
        ])
        .args(["--cfg", "feature=\"std\""])
        .args(["--cfg", "feature=\"corrected-edge-sorting\""])
        .args(["--cfg", "feature=\"corrected-vertex-welding\""])
        .args([
            "-C",
            "opt-level=3",
            "--cap-lints",
            "allow",
            "--target",
            &var("TARGET").unwrap(),
        ])
        .arg("--out-dir")
        .arg(made)
        .arg(&root)
        .status()
        .expect("rustc does not start");
    assert!(status.success(), "the crate does not build");
    println!("cargo:rustc-link-search={}", made.display());
}
