//! Normal words and completions by the library and by plain functions, in one run, as a ratio of speeds: above 1 the library is the
//! faster one. No figure here is tested.
//!
//! `cargo run --offline --release --bin bench`

use drive::random::Random;
use drive::{plain, plain_completion};
use grettalune::{TABLE_ROOM, WORK_ROOM};
use model::layout::{write_sheet, write_table, Line, Table};
use model::text::sheet;
use std::hint::black_box;
use std::time::{Duration, Instant};

const WORDS: usize = 10_000;
const ROUNDS: usize = 25;

/// A table whose lines all stand and have no lineage: queries read any table in the layout.
fn table(letters: u16, rules: Vec<(Vec<u8>, Vec<u8>)>) -> Vec<u8> {
    let line = |(left, right)| Line { left, right, steps: Vec::new(), stands: true };
    write_table(&Table { order: 0, letters, cited: 0, lines: rules.into_iter().map(line).collect() })
}

/// The either-zone rules over this many letters: the boundary goes, a zone said twice is said once.
fn zones(letters: u8) -> Vec<(Vec<u8>, Vec<u8>)> {
    let mut rules = vec![(vec![0, 0], vec![0])];
    for x in 1..letters {
        rules.push((vec![x, 0], vec![x]));
        rules.push((vec![0, x], vec![x]));
    }
    rules.extend((1..letters).map(|x| (vec![x, x], vec![x])));
    rules
}

/// The zones of 32 letters, and rules of three letters besides.
fn many() -> Vec<(Vec<u8>, Vec<u8>)> {
    let mut rules = zones(32);
    rules.extend((1..=16).map(|x| (vec![x, x + 1, x], vec![x, x + 1])));
    rules
}

fn timed(words: &[Vec<u8>], mut normal: impl FnMut(&[u8]) -> usize) -> Duration {
    let start = Instant::now();
    for w in words {
        black_box(normal(black_box(w)));
    }
    start.elapsed()
}

fn measure(name: &str, letters: u16, rules: Vec<(Vec<u8>, Vec<u8>)>) {
    let standing = rules.len();
    let table = table(letters, rules);
    let mut r = Random::new(7);
    let words: Vec<Vec<u8>> = (0..WORDS).map(|_| (0..64).map(|_| r.below(letters as usize) as u8).collect()).collect();
    let (mut out, mut other) = ([0; 128], [0; 128]);
    for w in &words {
        let told = grettalune::normal(&table, w, 65_535, &mut out).expect("each word has a normal word");
        assert_eq!(plain::normal(&table, w, 65_535, &mut other), Ok((told.length, told.count as u16)));
        assert_eq!(out, other);
    }
    let (mut library, mut rust) = (Duration::MAX, Duration::MAX);
    for _ in 0..ROUNDS {
        library = library.min(timed(&words, |w| grettalune::normal(&table, w, 65_535, &mut out).map_or(0, |a| a.length)));
        rust = rust.min(timed(&words, |w| plain::normal(&table, w, 65_535, &mut other).map_or(0, |a| a.0)));
    }
    let ratio = rust.as_secs_f64() / library.as_secs_f64();
    println!("normal words, {name}: {standing} standing rules, {WORDS} words of 64 letters: speed {ratio:.2} (library {library:.1?}, plain {rust:.1?})");
}

/// The time of a call, by so many of them.
fn time(calls: u32, mut call: impl FnMut()) -> Duration {
    let start = Instant::now();
    (0..calls).for_each(|_| call());
    start.elapsed() / calls
}

/// The completion of an example.
fn completion(name: &str) {
    let file = format!("{}/../../examples/{name}.txt", env!("CARGO_MANIFEST_DIR"));
    let text = std::fs::read_to_string(file).expect("an example");
    let bytes = write_sheet(&sheet(&text).expect("a sheet"));
    let (mut out, mut work) = (vec![0; TABLE_ROOM], vec![0; WORK_ROOM]);
    let told = grettalune::complete(&bytes, &mut out, &mut work).map_err(|f| f.number);
    let start = Instant::now();
    let (mut table, mut other) = (vec![0; TABLE_ROOM], vec![0; WORK_ROOM]);
    let said = plain_completion::complete(&bytes, &mut table, &mut other).map_err(|f| f.number);
    let calls = (20_000_000 / start.elapsed().as_nanos().max(1)).clamp(1, 2000) as u32;
    assert!(told == said && out == table && work == other, "{name}");
    let (mut library, mut rust) = (Duration::MAX, Duration::MAX);
    for _ in 0..ROUNDS {
        library = library.min(time(calls, || {
            let _ = black_box(grettalune::complete(black_box(&bytes), &mut out, &mut work));
        }));
        rust = rust.min(time(calls, || {
            let _ = black_box(plain_completion::complete(black_box(&bytes), &mut table, &mut other));
        }));
    }
    let ratio = rust.as_secs_f64() / library.as_secs_f64();
    let end = told.map_or_else(|n| format!("refusal {n}"), |n| format!("a table of {n} bytes"));
    println!("completion, {name}: {end}: speed {ratio:.2} (library {library:.1?}, plain {rust:.1?})");
}

fn main() {
    measure("either zone", 3, zones(3));
    measure("many zones", 32, many());
    println!("completion: the plain side reads sheets and writes tables by the model's functions, and does all else by its own");
    for name in ["either-zone", "inner-zone", "outer-zone", "jantzen", "jantzen-xy", "greendlinger", "plane"] {
        completion(name);
    }
    for name in ["allowance", "length", "side", "lines", "steps", "waiting", "closing"] {
        completion(&format!("limits/{name}"));
    }
}
