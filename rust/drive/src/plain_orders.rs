//! Comparing words as a plain Rust function, for the benchmark's other side: shortlex directly, kachinuki by the first letters, letter
//! by letter and with nothing allocated.

use std::cmp::Ordering;

/// Compares two words in the order of this code.
pub fn compare(order: u16, u: &[u8], v: &[u8]) -> Ordering {
    if order == 0 {
        u.len().cmp(&v.len()).then_with(|| u.cmp(v))
    } else {
        kachinuki(u, v)
    }
}

/// Equal first letters go together. Of two others the smaller goes alone, and if what is then left is equal, its word was the greater.
fn kachinuki(mut t: &[u8], mut u: &[u8]) -> Ordering {
    let mut equal = Ordering::Equal;
    while let ([s, after_s @ ..], [r, after_r @ ..]) = (t, u) {
        if s == r {
            (t, u) = (after_s, after_r);
        } else if s > r {
            (u, equal) = (after_r, Ordering::Less);
        } else {
            (t, equal) = (after_s, Ordering::Greater);
        }
    }
    t.len().cmp(&u.len()).then(equal)
}
