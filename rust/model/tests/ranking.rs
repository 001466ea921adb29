//! The ranking on small cases, and its refusals in their order.

use model::calls::rank;
use model::layout::{write_table, Line, Table};
use model::prices::{write_prices, Price, PriceList};

/// The rules ba to ab, and c to a word of 32 letters a.
fn table() -> Vec<u8> {
    let line = |left: &[u8], right: &[u8]| Line { left: left.to_vec(), right: right.to_vec(), steps: vec![], stands: true };
    let lines = vec![line(&[1, 0], &[0, 1]), line(&[2], &[0; 32])];
    write_table(&Table { order: 0, letters: 3, cited: 0, lines })
}

fn prices(all: &[(&[u8], u32)]) -> Vec<u8> {
    let prices = all.iter().map(|&(word, fare)| Price { word: word.to_vec(), fare }).collect();
    write_prices(&PriceList { order: 0, letters: 3, prices })
}

/// The places told, or the refusal's number and place; a refusal writes nothing, and an answer nothing behind it.
fn told(prices: &[u8], journeys: &[&[u8]], allowance: u16) -> Result<(Vec<u8>, Vec<u8>), (u32, u32)> {
    let lengths: Vec<u8> = journeys.iter().map(|j| j.len() as u8).collect();
    let (mut priced, mut unpriced) = ([99; 65], [99; 65]);
    let values = rank(&table(), prices, &journeys.concat(), &lengths, allowance, &mut priced, &mut unpriced);
    let [a, b, _, _] = values.as_ref().map_or([0; 4], |v| v.map(|n| n as usize));
    assert!(priced[a..].iter().chain(&unpriced[b..]).all(|&p| p == 99));
    values.map(|_| (priced[..a].to_vec(), unpriced[..b].to_vec())).map_err(|f| (f.number, f.place))
}

#[test]
fn by_rising_fare_and_then_as_given() {
    let list = prices(&[(&[0, 1], 300), (&[], 500), (&[0], 200), (&[1], 300)]);
    let journeys: [&[u8]; 8] = [&[], &[1], &[1, 1], &[1, 0], &[0], &[0, 1], &[0, 0], &[]];
    assert_eq!(told(&list, &journeys, 1), Ok((vec![4, 1, 3, 5, 0, 7], vec![2, 6])));
    assert_eq!(told(&list, &[], 0), Ok((vec![], vec![])));
    assert_eq!(told(&prices(&[]), &[&[1], &[0]], 0), Ok((vec![], vec![0, 1])));
}

#[test]
fn one_word_twice() {
    assert_eq!(told(&prices(&[(&[0, 1], 300), (&[1, 0], 300)]), &[&[1, 0]], 1), Ok((vec![0], vec![])));
    let list = prices(&[(&[0, 1], 300), (&[0], 1), (&[1, 0], 300), (&[0, 1], 301), (&[1, 0], 302)]);
    assert_eq!(told(&list, &[], 1), Err((17, 3)));
}

/// All price words are reduced before two fares are looked for, and these before any journey.
#[test]
fn refusals_in_turn() {
    let two_fares: [(&[u8], u32); 2] = [(&[0, 1], 300), (&[1, 0], 301)];
    let long: (&[u8], u32) = (&[2, 2, 2, 2, 2], 0);
    assert_eq!(told(&prices(&two_fares), &[&[3]], 0), Err((5, 0)));
    assert_eq!(told(&prices(&[two_fares[0], two_fares[1], long]), &[&[3]], 9), Err((6, 0)));
    assert_eq!(told(&prices(&two_fares), &[&[3]], 1), Err((17, 1)));
    assert_eq!(told(&prices(&[two_fares[0]]), &[&[0], &[3], &[1, 0]], 0), Err((4, 0)));
    assert_eq!(told(&prices(&[two_fares[0]]), &[&[0], &[1, 0], &[3]], 0), Err((5, 0)));
    assert_eq!(told(&prices(&[two_fares[0]]), &[&[2; 5], &[3]], 9), Err((6, 0)));
    assert_eq!(told(&prices(&[]), &[&[0; 65]], 0), Err((4, 0)));
    assert_eq!(told(&prices(&[]), &[&[0; 64]], 0), Ok((vec![], vec![0])));
}

#[test]
fn journeys_that_are_none() {
    let (mut priced, mut unpriced) = ([0; 64], [0; 64]);
    let mut number = |letters: &[u8], lengths: &[u8], list: &[u8]| {
        rank(&table(), list, letters, lengths, 0, &mut priced, &mut unpriced).map_or_else(|f| f.number, |_| 0)
    };
    let (list, mut other) = (prices(&[]), prices(&[]));
    other[4] = 4;
    assert_eq!(number(&[0; 64], &[1; 64], &list), 0);
    assert_eq!(number(&[0; 65], &[1; 65], &list), 1);
    assert_eq!(number(&[0; 3], &[1, 1], &other), 1);
    assert_eq!(number(&[0; 3], &[1, 3], &list), 1);
    assert_eq!(number(&[0; 3], &[1, 2], &other), 2);
}

#[test]
fn outputs_that_are_too_small() {
    let number = |a: usize, b: usize| rank(&[], &[], &[], &[], 0, &mut vec![0; a], &mut vec![0; b]).map_or_else(|f| f.number, |_| 0);
    assert_eq!((number(63, 64), number(64, 63), number(64, 64)), (3, 3, 1));
}
