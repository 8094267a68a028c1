//! How much stack the calls take, measured by a C program.
mod cc;

use cc::{compiled, root};
use std::process::Command;

/// What docs/PROGRAMMERS.md and the header say is enough.
const ENOUGH: usize = 12 * 1024;

#[test]
fn a_call_takes_little_stack() {
    let source = root().join("bindings/rust/tests/stack.c");
    let said = Command::new(compiled(&source, "stack")).output().unwrap();
    assert!(said.status.success(), "{}", said.status);
    let text = String::from_utf8_lossy(&said.stdout).into_owned();
    println!("bytes of stack, for one face and for 65,536:\n{text}");
    assert_eq!(text.lines().count(), 7);
    for line in text.lines() {
        let bytes = line.split(' ').skip(1).map(|word| word.parse().unwrap());
        assert!(bytes.clone().count() == 2, "{line}");
        assert!(
            bytes
                .into_iter()
                .all(|bytes: usize| (1..=ENOUGH).contains(&bytes)),
            "{line}"
        );
    }
}
