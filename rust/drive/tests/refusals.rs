//! `docs/REFUSALS.md` against the library, the model, the header and the wrapper: each number's sentence and name, the calls that give it,
//! and its inputs, which are run. In an input's block the lines behind `=> ` are what is answered.

use drive::ends::given_by;
use drive::library::LIBRARY;
use drive::{answer, hex, listed, MODEL};
use model::layout::{write_sheet, write_table, Line, Sheet, Step, Table};
use model::text::sheet;

const PAGE: &str = include_str!("../../../docs/REFUSALS.md");
const HEADER: &str = include_str!("../../../include/grettalune.h");

/// How many numbers there are; no input gets `UNMET`.
const NUMBERS: u32 = 16;
const UNMET: u32 = 11;

/// A number's part of the page: its sentence, its row of name, calls and place, and its inputs with their answers.
struct Section {
    number: u32,
    sentence: String,
    row: [String; 3],
    advice: bool,
    blocks: Vec<(String, String)>,
}

fn section(text: &str) -> Section {
    let (number, sentence) = text.lines().next().and_then(|l| l.split_once(": ")).expect("a number and a sentence");
    let mut blocks = vec![(String::new(), String::new())];
    for line in text.lines() {
        let (input, told) = blocks.last_mut().expect("a block");
        match line.strip_prefix("    ") {
            Some(line) if line.starts_with("=> ") => *told += &format!("{}\n", &line[3..]),
            Some(line) => *input += &format!("{line}\n"),
            None if told.is_empty() => input.clear(),
            None => blocks.push((String::new(), String::new())),
        }
    }
    blocks.retain(|(_, told)| !told.is_empty());
    let row: Vec<String> = text.lines().nth(4).expect("a row").split('|').map(|cell| cell.trim().to_string()).collect();
    Section {
        number: number.parse().expect("a number"),
        sentence: sentence.to_string(),
        row: [1, 2, 3].map(|k| row[k].clone()),
        advice: text.contains("\nWhat to do: "),
        blocks,
    }
}

fn sections() -> Vec<Section> {
    PAGE.split("\n## ").skip(1).map(section).collect()
}

/// What a block's input is answered: a sheet as text is completed and listed, any other line is a call.
fn told(input: &str) -> [String; 2] {
    [LIBRARY, MODEL].map(|calls| {
        if input.starts_with("order ") {
            let sheet = sheet(input).unwrap_or_else(|fault| panic!("{fault}\n{input}"));
            listed(&calls, &write_sheet(&sheet))
        } else {
            answer(&calls, input).unwrap_or_else(|| panic!("no call: {input}")) + "\n"
        }
    })
}

fn a_sheet(letters: u16, equations: &[(&[u8], &[u8])]) -> String {
    let equations = equations.iter().map(|(l, r)| (l.to_vec(), r.to_vec())).collect();
    hex(&write_sheet(&Sheet { order: 0, letters, equations }))
}

/// A table whose lines all stand and have one step each, the equation 0 forward at 0, or none.
fn a_table(letters: u16, cited: usize, lines: &[(&[u8], &[u8], usize)]) -> String {
    let step = Step { reference: 0, back: false, place: 0 };
    let line =
        |&(l, r, steps): &(&[u8], &[u8], usize)| Line { left: l.to_vec(), right: r.to_vec(), steps: vec![step; steps], stands: true };
    hex(&write_table(&Table { order: 0, letters, cited, lines: lines.iter().map(line).collect() }))
}

/// The page's calls, as the model writes their files.
fn calls(number: u32) -> Vec<String> {
    let to_nothing = a_sheet(1, &[(&[0], &[])]);
    let gone: (&[u8], &[u8], usize) = (&[0], &[], 1);
    let call = match number {
        1 => "check - -".to_string(),
        2 => format!("check {} {}", a_sheet(1, &[]), a_table(2, 0, &[])),
        3 => "one - - 127".to_string(),
        4 => "compare 0 1 01 -".to_string(),
        5 => format!("normal {} 00 0 128", a_table(1, 1, &[gone])),
        6 => format!("normal {} 00 65535 128", a_table(1, 0, &[(&[0], &[0, 0], 0)])),
        12 => format!("check {} {}", a_sheet(1, &[]), a_table(1, 0, &[(&[0], &[], 0)])),
        13 => format!("check {} {}", a_sheet(1, &[]), a_table(1, 0, &[(&[], &[], 0)])),
        14 => format!("check {to_nothing} {}", a_table(1, 1, &[gone, gone])),
        15 => format!("check {to_nothing} {}", a_table(1, 1, &[])),
        16 => format!("check {} {}", a_sheet(2, &[(&[0, 0], &[1])]), a_table(2, 1, &[(&[0, 0], &[1], 1)])),
        _ => return Vec::new(),
    };
    vec![call + "\n"]
}

#[test]
fn every_number_has_its_section() {
    let numbers: Vec<u32> = sections().iter().map(|s| s.number).collect();
    assert_eq!(numbers, (1..=NUMBERS).collect::<Vec<_>>());
}

/// The first input of a section gets its number; all inputs are answered as the page says.
#[test]
fn every_input_is_run() {
    for s in sections() {
        for (input, expected) in &s.blocks {
            assert_eq!(told(input), [expected.as_str(); 2], "{}: {input}", s.number);
        }
        let first = s.blocks.first().map_or("", |(_, told)| told.as_str());
        if s.number == UNMET {
            assert_eq!(first, "");
        } else {
            assert!(first.starts_with(&format!("refused {} at ", s.number)), "{}: {first}", s.number);
        }
    }
}

#[test]
fn every_call_is_as_the_model_writes_it() {
    for s in sections() {
        let shown: Vec<String> =
            s.blocks.iter().map(|(input, _)| input.clone()).filter(|input| !input.starts_with("order ")).collect();
        assert_eq!(shown, calls(s.number), "{}", s.number);
    }
}

#[test]
fn the_calls_that_give_it() {
    for s in sections() {
        let names = given_by(s.number).iter().map(|name| format!("`{name}`")).collect::<Vec<_>>().join(", ");
        assert_eq!(s.row[1], if names.is_empty() { "no call" } else { &names }, "{}", s.number);
    }
}

#[test]
fn a_place_and_what_to_do() {
    for s in sections() {
        assert!(s.advice, "{}: what to do", s.number);
        assert_eq!(s.sentence.contains(" P "), s.row[2] != "0", "{}: {}", s.number, s.sentence);
    }
}

/// `  NAME = number, /* sentence */` in the header, and the wrapper's sentence.
#[test]
fn name_and_sentence_are_those_of_the_header_and_of_the_wrapper() {
    for s in sections() {
        let line = HEADER.lines().find(|l| l.contains(&format!(" = {} ", s.number)) || l.contains(&format!(" = {},", s.number)));
        let line = line.unwrap_or_else(|| panic!("{}: not in the header", s.number));
        assert_eq!(format!("`{}`", line.split_whitespace().next().unwrap_or("")), s.row[0]);
        assert_eq!(line.split_once("/* ").map(|(_, said)| said), Some(format!("{} */", s.sentence).as_str()));
        let place = if s.row[2] == "0" { 0 } else { 7 };
        let wrapper = grettalune::Refusal { number: s.number, place }.to_string();
        assert_eq!(wrapper, format!("refused {} at {place}: {}", s.number, s.sentence.replace(" P ", " 7 ")));
    }
}
