//! Writes what the gate's program `crates/cases` reads, and what it must print, anew: `cargo run --offline --bin cases`.

use drive::cases::{all, folder, input, output};
use std::{fs, io};

fn main() -> io::Result<()> {
    let cases = all();
    fs::write(folder().join("stdin"), input(&cases))?;
    fs::write(folder().join("stdout"), output(&cases))?;
    println!("{} cases", cases.len());
    Ok(())
}
