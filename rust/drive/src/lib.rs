//! Vector lines: a call in, its answer out. The calls come from the library or from the model.

pub mod cases;
pub mod ends;
pub mod faults;
pub mod files;
pub mod library;
pub mod named;
pub mod plain;
pub mod plain_completion;
pub mod plain_orders;
pub mod random;
pub mod strained;

use model::calls::{Answer, Record};
use std::fmt::Write;

/// The public calls, whoever answers them.
pub struct Calls {
    pub compare: fn(u16, u16, &[u8], &[u8]) -> Answer,
    pub search: fn(&[Record], &[u8], &[u8]) -> Answer,
    pub one: fn(&[u8], &[u8], &mut [u8]) -> Answer,
    pub normal: fn(&[u8], &[u8], u16, &mut [u8]) -> Answer,
    pub pair: fn(&[u8], u32, u32, u32, &mut [u8]) -> Answer,
    pub complete: fn(&[u8], &mut [u8], &mut [u8]) -> Answer,
    pub check: fn(&[u8], &[u8]) -> Answer,
    pub same: fn(&[u8], &[u8], &[u8], u16) -> Answer,
    pub list: fn(&[u8], &mut [u8]) -> Answer,
}

/// The model's calls.
pub const MODEL: Calls = Calls {
    compare: model::calls::compare,
    search: model::calls::search,
    one: model::calls::one,
    normal: model::calls::normal,
    pair: model::calls::pair,
    complete: model::calls::complete,
    check: model::calls::check,
    same: model::calls::same,
    list: model::calls::list,
};

/// The bytes of a word or a file in hexadecimal.
pub fn bytes(text: &str) -> Option<Vec<u8>> {
    if text == "-" {
        return Some(Vec::new());
    }
    if text.len() & 1 == 1 || !text.is_ascii() {
        return None;
    }
    (0..text.len()).step_by(2).map(|i| u8::from_str_radix(&text[i..i + 2], 16).ok()).collect()
}

/// Bytes in hexadecimal, `-` where there are none.
pub fn hex(b: &[u8]) -> String {
    if b.is_empty() {
        return "-".to_string();
    }
    b.iter().fold(String::new(), |mut s, x| {
        let _ = write!(s, "{x:02x}");
        s
    })
}

fn records(text: &str) -> Option<Vec<Record>> {
    if text == "-" {
        return Some(Vec::new());
    }
    let record = |r: &str| {
        let mut numbers = r.split(',');
        let record = Record {
            offset: numbers.next()?.parse().ok()?,
            left: numbers.next()?.parse().ok()?,
            right: numbers.next()?.parse().ok()?,
            line: numbers.next()?.parse().ok()?,
        };
        numbers.next().is_none().then_some(record)
    };
    text.split(';').map(record).collect()
}

fn told(answer: Answer, say: impl FnOnce([u32; 4]) -> String) -> String {
    match answer {
        Ok(values) => say(values),
        Err(f) => format!("refused {} at {}", f.number, f.place),
    }
}

fn word_told(answer: Answer, out: &[u8]) -> String {
    told(answer, |v| format!("ok {} {}", v[1], hex(&out[..v[0] as usize])))
}

fn pair_told(answer: Answer, out: &[u8]) -> String {
    let part = |at: usize, n: u32| hex(&out[at..at + n as usize]);
    let shown = |v: [u32; 4]| format!("ok {} {} {}", part(0, v[0]), part(64, v[1]), part(128, v[2]));
    told(answer, |v| if v[0] == 0 { "no pair".to_string() } else { shown(v) })
}

/// What the program prints on an input.
pub fn listed(calls: &Calls, input: &[u8]) -> String {
    if input.len() > 4368 {
        return "refused 1 at 0\n".to_string();
    }
    let (mut table, mut work, mut text) = (vec![0; 51216], vec![0; 65536], vec![0; 18967]);
    let made = (calls.complete)(input, &mut table, &mut work);
    match made.and_then(|v| (calls.list)(&table[..v[0] as usize], &mut text)) {
        Ok(v) => String::from_utf8_lossy(&text[..v[0] as usize]).into_owned(),
        Err(f) => format!("refused {} at {}\n", f.number, f.place),
    }
}

/// Answers a line; `None` if it is no call.
pub fn answer(calls: &Calls, line: &str) -> Option<String> {
    let words: Vec<&str> = line.split_whitespace().collect();
    Some(match words[..] {
        ["compare", order, n, u, v] => {
            let got = (calls.compare)(order.parse().ok()?, n.parse().ok()?, &bytes(u)?, &bytes(v)?);
            told(got, |v| ["less", "equal", "greater"][v[0] as usize].to_string())
        }
        ["search", rules, area, word] => {
            let got = (calls.search)(&records(rules)?, &bytes(area)?, &bytes(word)?);
            told(got, |v| if v[0] == 0 { "none".to_string() } else { format!("at {} line {}", v[1], v[2]) })
        }
        ["one", table, word, room] => {
            let mut out = vec![0; room.parse().ok()?];
            word_told((calls.one)(&bytes(table)?, &bytes(word)?, &mut out), &out)
        }
        ["normal", table, word, allowance, room] => {
            let mut out = vec![0; room.parse().ok()?];
            word_told((calls.normal)(&bytes(table)?, &bytes(word)?, allowance.parse().ok()?, &mut out), &out)
        }
        ["pair", table, n, m, place, room] => {
            let mut out = vec![0; room.parse().ok()?];
            let got = (calls.pair)(&bytes(table)?, n.parse().ok()?, m.parse().ok()?, place.parse().ok()?, &mut out);
            pair_told(got, &out)
        }
        ["complete", sheet, room, work] => {
            let (mut out, mut work) = (vec![0; room.parse().ok()?], vec![0; work.parse().ok()?]);
            let got = (calls.complete)(&bytes(sheet)?, &mut out, &mut work);
            told(got, |v| format!("ok {}", hex(&out[..v[0] as usize])))
        }
        ["check", sheet, table] => told((calls.check)(&bytes(sheet)?, &bytes(table)?), |_| "ok".to_string()),
        ["same", table, u, v, allowance] => {
            let got = (calls.same)(&bytes(table)?, &bytes(u)?, &bytes(v)?, allowance.parse().ok()?);
            told(got, |v| if v[0] == 1 { "yes".to_string() } else { "no".to_string() })
        }
        ["list", input] => listed(calls, &bytes(input)?).trim_end().replace('\n', "|"),
        _ => return None,
    })
}
