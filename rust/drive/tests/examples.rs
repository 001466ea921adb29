//! The sheets of `examples/`: their bytes, what the program prints for them, and the sets of rules that the papers print.

use drive::{library::LIBRARY, listed};
use model::layout::write_sheet;
use model::text::{read, sheet};
use std::collections::BTreeSet;
use std::fs;
use std::path::PathBuf;

fn path(name: &str) -> PathBuf {
    PathBuf::from(env!("CARGO_MANIFEST_DIR")).join("../../examples").join(name)
}

fn text(name: &str) -> String {
    fs::read_to_string(path(&format!("{name}.txt"))).expect("an example's text")
}

/// What the program prints for an example.
fn printed(name: &str) -> String {
    listed(&LIBRARY, &fs::read(path(&format!("{name}.sheet"))).expect("an example's sheet"))
}

/// The standing rules of an example as a set, in its own letters.
fn rules(name: &str) -> BTreeSet<String> {
    let letters = read(&text(name)).expect("a sheet").letters;
    let own = |c: char| if c == '-' { c } else { letters[if c.is_ascii_lowercase() { c as usize - 97 } else { c as usize - 39 }] };
    let word = |w: &str| -> String { w.chars().map(own).collect() };
    let rule = |line: &str| {
        let (left, right) = line.split_once(": ").expect("a number").1.split_once(" -> ").expect("an arrow");
        format!("{} {}", word(left), word(right))
    };
    printed(name).lines().skip(1).map(rule).collect()
}

fn set(rules: &[&str]) -> BTreeSet<String> {
    rules.iter().map(|r| r.to_string()).collect()
}

const EXAMPLES: [&str; 14] = [
    "either-zone",
    "inner-zone",
    "outer-zone",
    "jantzen",
    "jantzen-xy",
    "greendlinger",
    "plane",
    "limits/allowance",
    "limits/length",
    "limits/side",
    "limits/lines",
    "limits/steps",
    "limits/waiting",
    "limits/closing",
];

#[test]
fn every_sheet_is_its_text() {
    for name in EXAMPLES {
        let bytes = fs::read(path(&format!("{name}.sheet"))).expect("an example's sheet");
        assert_eq!(write_sheet(&sheet(&text(name)).expect("a sheet")), bytes, "{name}");
    }
}

#[test]
fn every_listing_is_as_printed() {
    for name in EXAMPLES {
        assert_eq!(printed(name), fs::read_to_string(path(&format!("{name}.listing"))).expect("a listing"), "{name}");
    }
}

#[test]
fn no_example_is_left_out() {
    for folder in ["", "limits"] {
        for entry in fs::read_dir(path(folder)).expect("the folder") {
            let name = entry.expect("an entry").path().with_extension("");
            let known = EXAMPLES.iter().any(|e| path(e) == name) || name.ends_with("limits") || name.ends_with("same_fare");
            assert!(known, "{}", name.display());
        }
    }
}

/// The limits, each by its number; the closing check refuses by 6.
#[test]
fn every_limit_is_met() {
    let numbers = [("allowance", 5), ("length", 6), ("side", 7), ("lines", 8), ("steps", 9), ("waiting", 10), ("closing", 6)];
    for (name, number) in numbers {
        assert_eq!(printed(&format!("limits/{name}")), format!("refused {number} at 0\n"), "{name}");
    }
}

/// The rules that the specification prints under "Examples".
#[test]
fn the_sets_of_the_specification() {
    let jantzen = ["aA -", "Aa -", "xX -", "Xx -", "aX xax", "Ax XXA", "AX xxA", "axx Xa"];
    assert_eq!(rules("jantzen"), set(&jantzen));
    let plane = ["aA -", "Aa -", "bB -", "Bb -", "ba ab", "bA Ab", "Ba aB", "BA AB"];
    assert_eq!(rules("plane"), set(&plane));
}

/// The three final listings of TM-0087, in its letters.
#[test]
fn the_sets_of_the_paper() {
    let jantzen = ["aA -", "Aa -", "xX -", "Xx -", "aX xax", "Ax XXA", "AX xxA", "axx Xa"];
    assert_eq!(rules("jantzen"), set(&jantzen));
    let greendlinger = ["aA -", "Aa -", "bB -", "Bb -", "cC -", "Cc -", "abc cba", "aC BCab", "Acb bcA", "AB CBAc"];
    assert_eq!(rules("greendlinger"), set(&greendlinger));
    let xy = ["ab x", "ba y", "ay xa", "bx yb", "yx xy", "xxy -", "axy xax", "axx xya", "by xxxxb"];
    assert_eq!(rules("jantzen-xy"), set(&xy));
}

/// Runs that tell a right order of the waiting entries from a wrong one.
#[test]
fn the_landmarks() {
    let lines: Vec<String> = printed("jantzen").lines().skip(1).map(|l| l.split(':').next().expect("a number").to_string()).collect();
    assert_eq!(lines, ["0", "1", "2", "3", "5", "8", "12", "13"]);
    assert!(printed("jantzen").starts_with("ok 8 rules 14 lines\n"));
    let one = write_sheet(&sheet("order shortlex\nletters a b\nabaa = -\n").expect("a sheet"));
    assert_eq!(listed(&LIBRARY, &one).lines().next().and_then(|t| t.split(' ').nth(3)), Some("10"));
}
