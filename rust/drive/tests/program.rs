//! The program `complete` on the inputs of the vectors' `list` lines and on the examples: what it prints, to the byte.
//!
//! `tools/build` builds it.

use drive::bytes;
use std::fs;
use std::io::Write;
use std::path::PathBuf;
use std::process::{Command, Stdio};

const COMMANDS: &str = include_str!("../../vectors/base.commands");
const ANSWERS: &str = include_str!("../../vectors/base.answers");

fn root() -> PathBuf {
    PathBuf::from(env!("CARGO_MANIFEST_DIR")).join("../..")
}

/// What the program prints on an input.
fn printed(input: &[u8]) -> String {
    let mut program = Command::new(root().join("target/bin/complete"));
    let mut child = program.stdin(Stdio::piped()).stdout(Stdio::piped()).spawn().expect("`tools/build` comes first");
    let mut pipe = child.stdin.take().expect("a pipe");
    // the program reads no more than it needs to refuse, and may be gone before all is written
    let _ = pipe.write_all(input);
    drop(pipe);
    let output = child.wait_with_output().expect("the program ends");
    assert!(output.status.success());
    String::from_utf8(output.stdout).expect("a text")
}

#[test]
fn the_program_prints_every_listing_of_the_vectors() {
    let mut lines = 0;
    for (command, expected) in COMMANDS.lines().zip(ANSWERS.lines()) {
        if let Some(input) = command.strip_prefix("list ") {
            let text = printed(&bytes(input).expect("an input"));
            assert_eq!(text, expected.replace('|', "\n") + "\n", "list {input}");
            lines += 1;
        }
    }
    assert!(lines > 0);
}

#[test]
fn the_program_prints_every_listing_of_the_examples() {
    for folder in ["examples", "examples/limits"] {
        for entry in fs::read_dir(root().join(folder)).expect("the folder") {
            let path = entry.expect("an entry").path();
            if path.extension().is_some_and(|e| e == "sheet") {
                let text = fs::read_to_string(path.with_extension("listing")).expect("a listing");
                assert_eq!(printed(&fs::read(&path).expect("a sheet")), text, "{}", path.display());
            }
        }
    }
}
