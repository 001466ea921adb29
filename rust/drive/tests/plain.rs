//! The plain comparison of the benchmark against the model's, which goes by the blocks.

use drive::plain_orders::compare;
use drive::random::Random;

fn agree(u: &[u8], v: &[u8]) {
    for order in 0..2 {
        assert_eq!(compare(order, u, v), model::orders::compare(order, u, v), "order {order}, {u:?} and {v:?}");
    }
}

/// All words of so many letters or fewer.
fn words(letters: u8, most: usize) -> Vec<Vec<u8>> {
    let mut all = vec![Vec::new()];
    let mut last = 0;
    for _ in 0..most {
        let next: Vec<Vec<u8>> = all[last..].iter().flat_map(|w| (0..letters).map(move |a| [w.as_slice(), &[a]].concat())).collect();
        last = all.len();
        all.extend(next);
    }
    all
}

#[test]
fn short_words() {
    for all in [words(2, 7), words(3, 5), words(4, 4)] {
        for u in &all {
            all.iter().for_each(|v| agree(u, v));
        }
    }
}

#[test]
fn random_words() {
    let mut r = Random::new(3);
    for _ in 0..200_000 {
        let letters = 1 + r.below(32) as u16;
        let u = r.word(letters, 128);
        let v = if r.once_in(2) { r.near(&u, letters) } else { r.word(letters, 128) };
        agree(&u, &v);
    }
}
