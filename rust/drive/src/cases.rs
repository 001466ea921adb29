//! The cases of the gate's program `crates/cases`: what it reads, and what it must print. They are the files of `faults`, the tables of
//! `named`, the sheets of `examples/`, and the checks and completions of the vectors, each once.

use crate::{answer, bytes, faults, hex, named, MODEL};
use model::layout::{read_sheet, read_table, write_sheet, write_table};
use std::collections::BTreeSet;
use std::fs;
use std::path::PathBuf;

const COMMANDS: &str = include_str!("../../vectors/base.commands");
const ANSWERS: &str = include_str!("../../vectors/base.answers");

/// A case: its name, whose first letter tells what is asked, two files, and the answer.
pub struct Case {
    pub name: String,
    files: [Vec<u8>; 2],
    pub answer: String,
}

/// A file to be judged.
fn file(name: &str, file: Vec<u8>) -> Case {
    let answer = match (read_sheet(&file), read_table(&file)) {
        (Ok(_), _) => "sheet",
        (_, Ok(_)) => "table",
        _ => "neither",
    };
    Case { name: format!("file {name}"), files: [file, Vec::new()], answer: answer.to_string() }
}

/// A vector line as a case, if the program can be asked it: it lends buffers of full size.
fn call(name: &str, line: &str, answer: String) -> Option<Case> {
    let word = |text| bytes(text).expect("hexadecimal digits");
    match line.split(' ').collect::<Vec<_>>()[..] {
        ["check", sheet, table] => Some(Case { name: format!("table {name}"), files: [word(sheet), word(table)], answer }),
        ["complete", sheet, "51216", "65536"] => {
            Some(Case { name: format!("sheet {name}"), files: [word(sheet), Vec::new()], answer })
        }
        _ => None,
    }
}

/// A vector line that the model answers.
fn answered(name: &str, line: &str) -> Case {
    let told = answer(&MODEL, line).expect("a call");
    call(name, line, told).expect("a check or a completion")
}

/// The sheets of `examples/` by their paths there.
fn examples() -> Vec<Case> {
    let root = PathBuf::from(env!("CARGO_MANIFEST_DIR")).join("../../examples");
    let mut names = BTreeSet::new();
    for folder in ["", "limits/"] {
        for entry in fs::read_dir(root.join(folder)).expect("the folder") {
            let name = entry.expect("an entry").file_name().into_string().expect("a name");
            names.extend(name.strip_suffix(".txt").map(|name| format!("{folder}{name}")));
        }
    }
    let case = |name: &String| {
        let text = fs::read_to_string(root.join(format!("{name}.txt"))).expect("a text");
        let sheet = write_sheet(&model::text::sheet(&text).expect("an example is a sheet"));
        answered(&format!("examples/{name}"), &format!("complete {} 51216 65536", hex(&sheet)))
    };
    names.iter().map(case).collect()
}

/// The checks and completions of the vectors, by their lines, the first of equal ones.
fn vectors() -> Vec<Case> {
    let mut seen = BTreeSet::new();
    let lines = (1..).zip(COMMANDS.lines().zip(ANSWERS.lines()));
    let first = lines.filter(|(_, (line, _))| seen.insert(*line));
    first.filter_map(|(k, (line, told))| call(&format!("vectors {k}"), line, told.to_string())).collect()
}

/// All cases.
pub fn all() -> Vec<Case> {
    let files = [faults::sound(), faults::broken()].concat();
    let files = files.into_iter().map(|(name, bytes)| file(name, bytes));
    let check = |(name, sheet, table): named::Check| {
        answered(name, &format!("check {} {}", hex(&write_sheet(&sheet)), hex(&write_table(&table))))
    };
    let checks = [named::accepted(), named::refused()].concat();
    files.chain(checks.into_iter().map(check)).chain(examples()).chain(vectors()).collect()
}

/// What the program reads: name and files of each case, each behind its length in four bytes.
pub fn input(cases: &[Case]) -> Vec<u8> {
    let mut input = Vec::new();
    for case in cases {
        for part in [case.name.as_bytes(), &case.files[0], &case.files[1]] {
            input.extend((part.len() as u32).to_le_bytes());
            input.extend(part);
        }
    }
    input
}

/// What the program must print: a line a case.
pub fn output(cases: &[Case]) -> String {
    cases.iter().map(|case| format!("{}: {}\n", case.name, case.answer)).collect()
}

/// The program's folder.
pub fn folder() -> PathBuf {
    PathBuf::from(env!("CARGO_MANIFEST_DIR")).join("../../crates/cases")
}
