//! Writes the bytes of a sheet that is given as text on standard input.
//!
//! `cargo run --offline --quiet -p model --bin sheet < sheet.txt > sheet.sheet`

use model::layout::write_sheet;
use model::text::sheet_of_bytes;
use std::io::{self, Read, Write};
use std::process::ExitCode;

fn main() -> io::Result<ExitCode> {
    let mut text = Vec::new();
    io::stdin().read_to_end(&mut text)?;
    match sheet_of_bytes(&text) {
        Ok(sheet) => {
            io::stdout().write_all(&write_sheet(&sheet))?;
            Ok(ExitCode::SUCCESS)
        }
        Err(fault) => {
            eprintln!("{fault}");
            Ok(ExitCode::FAILURE)
        }
    }
}
