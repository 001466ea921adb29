//! The program under "Use" in README.md is the crate's first example, to the letter.

const README: &str = include_str!("../../../README.md");
const CRATE: &str = include_str!("../src/lib.rs");

#[test]
fn the_readme_shows_the_example() {
    let said = CRATE.lines().map_while(|l| l.strip_prefix("//!")).map(|l| l.strip_prefix(' ').unwrap_or(l));
    let example: Vec<&str> = said.skip_while(|l| *l != "```").skip(1).take_while(|l| *l != "```").collect();
    let shown: Vec<&str> = README.lines().map(|l| l.strip_prefix("    ").unwrap_or(l)).collect();
    assert!(example.len() > 5 && shown.windows(example.len()).any(|w| w == example), "{example:#?}");
}
