//! Writes the bytes of a price list that is given as text on standard input.
//!
//! `cargo run --offline --quiet -p model --bin prices < prices.txt > prices.prices`

use model::prices::write_prices;
use model::text::prices_of_bytes;
use std::io::{self, Read, Write};
use std::process::ExitCode;

fn main() -> io::Result<ExitCode> {
    let mut text = Vec::new();
    io::stdin().read_to_end(&mut text)?;
    match prices_of_bytes(&text) {
        Ok(list) => {
            io::stdout().write_all(&write_prices(&list))?;
            Ok(ExitCode::SUCCESS)
        }
        Err(fault) => {
            eprintln!("{fault}");
            Ok(ExitCode::FAILURE)
        }
    }
}
