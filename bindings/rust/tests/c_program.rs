//! The C program of docs/PROGRAMMERS.md, compiled with the header and the archive, and run; and what the header warns of.
mod cc;

use cc::{compiled, compiling, root};
use std::fs;
use std::path::Path;
use std::process::Command;

/// What it prints.
const SAID: &str = "slot 0: tangent 1 0 0, origin 1, 1 behind\nslot 1: tangent 1 0 0, origin 1, 1 behind\n\
slot 2: tangent 1 0 0, origin 1, 1 behind\n\
slot 3: ABSENT\nslot 4: ABSENT\nslot 5: ABSENT\n\
slot 0: LOST\nslot 1: LOST\nslot 2: LOST\nslot 3: LOST\nslot 4: LOST\nslot 5: LOST\n";

/// The text between a line "```c" and the next "```".
fn program(page: &str) -> &str {
    let (_, after) = page.split_once("```c\n").expect("no C program");
    after.split_once("```\n").expect("it does not end").0
}

#[test]
fn the_c_program_of_the_page_runs() {
    let page = fs::read_to_string(root().join("docs/PROGRAMMERS.md")).unwrap();
    let source = Path::new(env!("CARGO_TARGET_TMPDIR")).join("page.c");
    fs::write(&source, program(&page)).unwrap();
    let said = Command::new(compiled(&source, "page")).output().unwrap();
    assert!(said.status.success());
    assert_eq!(String::from_utf8_lossy(&said.stdout), SAID);
}

/// What the C compiler has against a program that asks a list of no frame with a function of the header; nothing where it compiles.
fn against(function: &str) -> String {
    let source = Path::new(env!("CARGO_TARGET_TMPDIR")).join(format!("{function}.c"));
    let text = format!(
        "#include \"dokphalun.h\"\nint main(void)\n{{\n    const uint32_t words[12] = {{0}};\n    struct dokphalun_frame frame;\n    \
         return (int){function}(words, 0, &frame);\n}}\n"
    );
    fs::write(&source, text).unwrap();
    let (mut cc, _) = compiling(&source, function);
    let said = cc.output().expect("no C compiler `cc` here");
    String::from_utf8_lossy(&said.stderr).into_owned()
}

#[test]
fn what_goes_by_word_0_is_deprecated() {
    for (function, instead) in [
        ("dokphalun_slot", "dokphalun_judged_slot"),
        ("dokphalun_old_slot", "dokphalun_judged_old_slot"),
    ] {
        let said = against(function);
        let wanted = format!("it goes by word 0: use {instead}");
        assert!(said.contains(&wanted), "{said}");
        assert_eq!(against(instead), "");
    }
}
