//! Answers vector lines from standard input, a line each, over the library; with `--model` over the model alone.

use drive::{answer, library::LIBRARY, MODEL};
use std::io::{self, BufRead, Write};

fn main() -> io::Result<()> {
    let calls = if std::env::args().any(|a| a == "--model") { MODEL } else { LIBRARY };
    let mut out = io::BufWriter::new(io::stdout().lock());
    for line in io::stdin().lock().lines() {
        let line = line?;
        match answer(&calls, &line) {
            Some(told) => writeln!(out, "{told}")?,
            None => writeln!(out, "no such call")?,
        }
    }
    out.flush()
}
