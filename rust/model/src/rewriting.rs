//! One replacement, the normal word, critical pairs.

use crate::{refused, Refusal, Word};

/// A rule: a line's number and its two words.
#[derive(Clone, Debug)]
pub struct Rule {
    pub line: usize,
    pub left: Word,
    pub right: Word,
}

/// The left word stands in the word at this place.
pub fn stands_at(left: &[u8], word: &[u8], place: usize) -> bool {
    place <= word.len() && word[place..].starts_with(left)
}

/// The left word stands in the word somewhere.
pub fn stands_in(left: &[u8], word: &[u8]) -> bool {
    (0..=word.len()).any(|p| stands_at(left, word, p))
}

/// The replacement due: the earliest place, and there the rule that is listed first.
pub fn due<'a>(rules: &'a [Rule], word: &[u8]) -> Option<(usize, &'a Rule)> {
    (0..=word.len()).find_map(|p| rules.iter().find(|r| stands_at(&r.left, word, p)).map(|r| (p, r)))
}

/// The word with `cut` letters from the place on replaced.
pub fn replaced(word: &[u8], place: usize, cut: usize, by: &[u8]) -> Word {
    [&word[..place], by, &word[place + cut..]].concat()
}

/// The way to a normal word: the word, and each replacement's line and place.
pub struct Way {
    pub word: Word,
    pub steps: Vec<(usize, usize)>,
}

/// The normal word under an allowance.
pub fn normal(rules: &[Rule], word: &[u8], allowance: usize) -> Result<Way, Refusal> {
    let mut way = Way { word: word.to_vec(), steps: Vec::new() };
    while let Some((place, rule)) = due(rules, &way.word) {
        if way.steps.len() == allowance {
            return refused(5, 0);
        }
        let next = replaced(&way.word, place, rule.left.len(), &rule.right);
        if next.len() > 128 {
            return refused(6, 0);
        }
        way.word = next;
        way.steps.push((rule.line, place));
    }
    Ok(way)
}

/// A critical pair: the peak and its two reducts.
#[derive(Clone, Debug, PartialEq, Eq)]
pub struct Pair {
    pub peak: Word,
    pub first: Word,
    pub second: Word,
}

/// The critical pair of two rules at a place, if there is one.
pub fn pair(n: &Rule, m: &Rule, place: usize) -> Option<Pair> {
    if place >= n.left.len() || (place == 0 && n.line >= m.line) {
        return None;
    }
    let under = &n.left[place..];
    if under.iter().zip(&m.left).any(|(a, b)| a != b) {
        return None;
    }
    let mut peak = n.left.clone();
    if m.left.len() > under.len() {
        peak.extend(&m.left[under.len()..]);
    }
    let first = replaced(&peak, 0, n.left.len(), &n.right);
    let second = replaced(&peak, place, m.left.len(), &m.right);
    Some(Pair { peak, first, second })
}
