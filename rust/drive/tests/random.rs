//! Library and model on random calls: the same answer, and the same bytes in every buffer, also around what is lent. What is only read
//! is as it was.
//!
//! The short form runs always; the long form, 100,000 calls, by `cargo test --offline -- --ignored`. With `--nocapture` behind it each
//! form prints how often each call ended in which way.

use drive::ends::ENDS;
use drive::files::{asked_pair, checked, sheet_file, table_file};
use drive::random::{Buffer, Random};
use drive::{library::LIBRARY, Calls, MODEL};
use model::calls::Answer;
use model::checking::equations_join;
use model::layout::{read_sheet, read_table};
use std::collections::{BTreeMap, BTreeSet};
use std::fmt::Debug;
use std::hint::black_box;

/// The calls, in the order of `ENDS`. Each tells how it ended.
const CALLS: [fn(&mut Random) -> String; 9] = [compare, search, one, normal, pair, complete, check, same, list];

/// Makes a call by the library and by the model, on the same inputs and on copies of the outputs.
fn both<I: Clone + Debug + PartialEq, const N: usize>(
    inputs: I,
    outputs: [Buffer; N],
    call: impl Fn(&Calls, &I, &mut [Buffer; N]) -> Answer,
) -> Answer {
    let (mut out, mut expected) = (outputs.clone(), outputs);
    let lent = inputs.clone();
    let told = call(&LIBRARY, &lent, &mut out);
    assert!(*black_box(&lent) == inputs, "an input was changed: {inputs:?}");
    assert_eq!(told, call(&MODEL, &inputs, &mut expected), "{inputs:?}");
    assert!(out == expected, "other bytes in an output: {inputs:?}");
    told
}

/// How a call ended.
fn ended(answer: &Answer, say: impl FnOnce([u32; 4]) -> &'static str) -> String {
    match answer {
        Ok(values) => say(*values).to_string(),
        Err(f) => format!("refused {}", f.number),
    }
}

fn compare(r: &mut Random) -> String {
    let letters = r.letters();
    let (u, v) = r.queries(letters, &[]);
    let order = if r.once_in(20) { r.one_of(&[2, 256, 257, 65_535]) } else { r.below(2) as u16 };
    let n = if r.once_in(10) { r.one_of(&[0, 32, 33, 256 + letters, 65_535]) } else { letters };
    let told = both((u, v), [], |c, (u, v), []| (c.compare)(order, n, u, v));
    ended(&told, |v| ["less", "equal", "greater"][v[0] as usize])
}

fn search(r: &mut Random) -> String {
    let told = both(r.lent(), [], |c, (records, area, word), []| (c.search)(records, area, word));
    ended(&told, |v| ["none", "found"][v[0] as usize])
}

fn one(r: &mut Random) -> String {
    let (t, table) = table_file(r);
    let word = r.query(t.letters);
    let told = both((table, word), [r.buffer(128)], |c, (table, word), [out]| (c.one)(table, word, out.lent()));
    ended(&told, |v| ["irreducible", "replaced"][v[1] as usize])
}

fn normal(r: &mut Random) -> String {
    let (t, table) = table_file(r);
    let word = r.query(t.letters);
    let allowance = r.allowance(&word, &t.rules());
    let told = both((table, word), [r.buffer(128)], |c, (table, word), [out]| (c.normal)(table, word, allowance, out.lent()));
    ended(&told, |v| if v[1] == 0 { "irreducible" } else { "replaced" })
}

fn pair(r: &mut Random) -> String {
    let (table, [n, m, k]) = asked_pair(r);
    let told = both(table, [r.buffer(192)], |c, table, [out]| (c.pair)(table, n, m, k, out.lent()));
    ended(&told, |v| if v[0] == 0 { "no pair" } else { "a pair" })
}

fn complete(r: &mut Random) -> String {
    let buffers = [r.buffer(51_216), r.buffer(65_536)];
    let told = both(sheet_file(r), buffers, |c, sheet, [out, work]| (c.complete)(sheet, out.lent(), work.lent()));
    ended(&told, |_| "answered")
}

fn check(r: &mut Random) -> String {
    let (sheet, table) = checked(r);
    let told = both((sheet.clone(), table.clone()), [], |c, (sheet, table), []| (c.check)(sheet, table));
    let end = ended(&told, |_| "accepted");
    if end == "refused 5" || end == "refused 6" {
        end + if joined(&sheet, &table) { " by pairs" } else { " by equations" }
    } else {
        end
    }
}

/// The fifth condition holds, so that a refusal is the sixth's.
fn joined(sheet: &[u8], table: &[u8]) -> bool {
    let (sheet, table) = (read_sheet(sheet).expect("a sheet"), read_table(table).expect("a table"));
    equations_join(&sheet, &table.rules()).is_ok()
}

fn same(r: &mut Random) -> String {
    let (t, table) = table_file(r);
    let (u, v) = r.queries(t.letters, &t.rules());
    let allowance = r.allowance(&u, &t.rules());
    let told = both((table, u, v), [], |c, (table, u, v), []| (c.same)(table, u, v, allowance));
    ended(&told, |v| ["a different fare", "the same fare"][v[0] as usize])
}

fn list(r: &mut Random) -> String {
    let (_, table) = table_file(r);
    let told = both(table, [r.buffer(18_967)], |c, table, [out]| (c.list)(table, out.lent()));
    ended(&told, |_| "answered")
}

/// Makes n calls. Each must have ended in all of its ways and in no other, in each answer once in 100 calls at least and in each refusal
/// once in 2,000.
fn calls(n: usize, seed: u64) {
    let mut r = Random::new(seed);
    let mut met: BTreeMap<(&str, String), usize> = BTreeMap::new();
    for _ in 0..n {
        let k = r.below(CALLS.len());
        *met.entry((ENDS[k].0, CALLS[k](&mut r))).or_default() += 1;
    }
    met.iter().for_each(|((name, end), times)| println!("{name}, {end}: {times}"));
    for (name, ends) in ENDS {
        let own = met.iter().filter(|((call, _), _)| *call == name);
        let seen: BTreeSet<&str> = own.clone().map(|((_, end), _)| end.as_str()).collect();
        assert_eq!(seen, ends.iter().copied().collect(), "{name}");
        for ((_, end), &times) in own {
            let least = if end.starts_with("refused") { n / 2000 } else { n / 100 };
            assert!(times >= least, "{name}, {end}: only {times}");
        }
    }
}

#[test]
fn many_calls() {
    calls(20_000, 1);
}

#[test]
#[ignore = "the long form"]
fn a_hundred_thousand_calls() {
    calls(100_000, 2);
}
