//! Sheets, each with a table whose lines are its equations as they stand, on which the check's normal words take long or grow: chains,
//! directions and left words are in order, and then 5 or 6 is due to equations or to pairs, or nearly so.

use crate::random::Random;
use model::layout::{Line, Sheet, Step, Table};

type Equations = Vec<(Vec<u8>, Vec<u8>)>;

/// An order, how many letters are used, the equations that are lines too, and the others.
struct Strain(u16, usize, Equations, Equations);

/// A sheet that strains the check, and its table. At times more letters are counted than are used, below them and above.
pub fn strained(r: &mut Random) -> (Sheet, Table) {
    let Strain(order, used, mut rules, mut others) = match r.below(3) {
        0 => counting(r),
        1 => doubling(r),
        _ => growing(r),
    };
    let letters = if r.once_in(3) { used + r.below(33 - used) } else { used };
    let below = r.below(letters - used + 1) as u8;
    for (left, right) in rules.iter_mut().chain(&mut others) {
        left.iter_mut().chain(right).for_each(|a| *a += below);
    }
    let (letters, cited) = (letters as u16, rules.len() + others.len());
    let lines = (0..).zip(&rules).map(|(k, rule)| as_it_stands(k, rule)).collect();
    (Sheet { order, letters, equations: [rules, others].concat() }, Table { order, letters, cited, lines })
}

/// The line of an equation, left to right.
fn as_it_stands(k: usize, (left, right): &(Vec<u8>, Vec<u8>)) -> Line {
    let step = Step { reference: k, back: false, place: 0 };
    Line { left: left.clone(), right: right.clone(), steps: vec![step], stands: true }
}

/// A word from its parts, a letter and how often.
fn word(parts: &[(u8, usize)]) -> Vec<u8> {
    parts.iter().flat_map(|&(a, n)| vec![a; n]).collect()
}

/// Shortlex: the letters a and b before a c are a number in binary, and each rule takes 1 off it. The equations of 13 digits need up to
/// 4,096 replacements, which is the allowance, and one of 14 needs more. At times another equation of 13 digits does; at times only the
/// overlap of d..de and ea..ac does, whose first reduct is a number with all high digits 1.
fn counting(r: &mut Random) -> Strain {
    let digits = r.one_of(&[11, 12, 13, 13, 13, 14]);
    let mut rules: Equations = (0..digits).map(|k| (word(&[(1, 1), (0, k), (2, 1)]), word(&[(0, 1), (1, k), (2, 1)]))).collect();
    let mut others = Equations::new();
    if r.once_in(2) {
        let number = [r.word_of(2, digits), vec![2]].concat();
        others.push((number, word(&[(0, digits), (2, 1)])));
    }
    if !r.once_in(3) {
        let high = 2 + r.below(digits - 3);
        let low = digits - high - r.once_in(4) as usize;
        rules.push((word(&[(3, high - 1), (4, 1)]), word(&[(1, high)])));
        rules.push((word(&[(4, 1), (0, low), (2, 1)]), word(&[(0, low + 1), (2, 1)])));
        if r.once_in(2) {
            rules.push((word(&[(3, high - 1), (0, low + 1), (2, 1)]), word(&[(0, high + low), (2, 1)])));
        }
    }
    Strain(0, 5, rules, others)
}

/// Kachinuki: each d moves to the right over all letters and doubles them, and c, b, a are sorted. Two d before many letters use up the
/// allowance, three pass 128 letters.
fn doubling(r: &mut Random) -> Strain {
    let exchanged = |x: u8, y: u8| (vec![x, y], vec![y, x]);
    let doubled = |x: u8| (vec![3, x], vec![x, x, 3]);
    let rules = vec![exchanged(2, 1), exchanged(2, 0), exchanged(1, 0), doubled(2), doubled(1), doubled(0)];
    let (d, most) = (1 + r.below(3), 4 + r.below(7));
    let long = word(&[(3, d), (2, most), (1, r.below(most + 1)), (0, most - r.below(2))]);
    let other = if r.once_in(2) { long.clone() } else { r.word(4, 32) };
    Strain(1, 4, rules, vec![(long, other)])
}

/// Kachinuki: b becomes many letters a. At times an equation with some b passes 128 letters; at times only the overlap of cd and dc..c
/// does, whose first reduct has letters c behind its letters b.
fn growing(r: &mut Random) -> Strain {
    let size = 24 + r.below(9);
    let mut rules = vec![(vec![1], word(&[(0, size)]))];
    let mut others = Equations::new();
    if r.once_in(2) {
        let long = word(&[(1, 3 + r.below(4))]);
        others.push((long.clone(), long));
    }
    if !r.once_in(3) {
        rules.push((vec![2, 3], word(&[(1, 128 / size - r.below(2))])));
        rules.push((word(&[(3, 1), (2, 1 + r.below(31))]), r.word(3, 3)));
    }
    Strain(1, 4, rules, others)
}
