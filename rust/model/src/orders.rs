//! Shortlex, and kachinuki by its blocks.

use std::cmp::Ordering;

/// Compares two words in the order of this code.
pub fn compare(order: u16, u: &[u8], v: &[u8]) -> Ordering {
    if order == 0 {
        shortlex(u, v)
    } else {
        kachinuki(u, v)
    }
}

fn shortlex(u: &[u8], v: &[u8]) -> Ordering {
    u.len().cmp(&v.len()).then(u.cmp(v))
}

/// The greatest letter of either word: fewer is smaller; then the blocks, from the last to the first.
fn kachinuki(u: &[u8], v: &[u8]) -> Ordering {
    let Some(&greatest) = u.iter().chain(v).max() else {
        return Ordering::Equal;
    };
    let us: Vec<&[u8]> = u.split(|&a| a == greatest).collect();
    let vs: Vec<&[u8]> = v.split(|&a| a == greatest).collect();
    if us.len() != vs.len() {
        return us.len().cmp(&vs.len());
    }
    for (x, y) in us.iter().zip(&vs).rev() {
        let told = kachinuki(x, y);
        if told != Ordering::Equal {
            return told;
        }
    }
    Ordering::Equal
}
