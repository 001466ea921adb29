//! The cases of the gate's program `crates/cases`: its files are what the source makes, and each case is what its name says.

use drive::cases::{all, folder, input, output};
use drive::{faults, named};
use model::layout::{read_sheet, read_table};
use std::collections::BTreeSet;
use std::fs;

#[test]
fn the_program_has_the_cases_of_the_source() {
    let cases = all();
    let anew = "the source of the cases has changed: write them anew by `cargo run --offline --bin cases`";
    assert!(fs::read(folder().join("stdin")).expect("stdin") == input(&cases), "{anew}");
    assert!(fs::read_to_string(folder().join("stdout")).expect("stdout") == output(&cases), "{anew}");
}

#[test]
fn no_name_stands_twice() {
    let names: Vec<String> = all().into_iter().map(|case| case.name).collect();
    assert_eq!(names.iter().collect::<BTreeSet<_>>().len(), names.len());
}

#[test]
fn files_are_sound_and_broken() {
    let fits = |bytes: &[u8]| read_sheet(bytes).is_ok() || read_table(bytes).is_ok();
    faults::sound().iter().for_each(|(name, bytes)| assert!(fits(bytes), "{name}"));
    faults::broken().iter().for_each(|(name, bytes)| assert!(!fits(bytes), "{name}"));
}

/// A refused table's fault is not of its layout, and all refusals of the check are among them, 5 and 6 by equations and by pairs.
#[test]
fn tables_are_accepted_and_refused() {
    let told = |(_, sheet, table): &named::Check| model::checking::check_read(sheet, table);
    named::accepted().iter().for_each(|check| assert_eq!(told(check), Ok(()), "{}", check.0));
    let met: BTreeSet<u32> = named::refused().iter().map(|check| told(check).expect_err(check.0).number).collect();
    assert_eq!(met, BTreeSet::from([2, 5, 6, 12, 13, 14, 15, 16]));
}
