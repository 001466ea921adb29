//! The normal word as a plain Rust function of the library's algorithm: judge the table's bytes, then search from the first
//! place at each turn. The benchmark's other side.

fn u16_at(b: &[u8], p: usize) -> usize {
    b[p] as usize + 256 * b[p + 1] as usize
}

fn step_fits(s: &[u8], bound: usize) -> bool {
    u16_at(s, 0) < bound && s[2] <= 1 && s[3] <= 128
}

fn lines_fit(b: &[u8], words: usize, steps: usize) -> bool {
    let (mut letters, mut passed) = (0, 0);
    let area = &b[words..];
    for j in 0..u16_at(b, 6) {
        let r = &b[16 + 8 * j..16 + 8 * j + 8];
        let count = u16_at(r, 4);
        let size = r[2] as usize + r[3] as usize;
        if u16_at(r, 0) != letters
            || r[2] > 32
            || r[3] > 32
            || letters + size > area.len()
            || r[6] > 1
            || r[7] != 0
            || passed + count > steps
        {
            return false;
        }
        let own = &b[words - 4 * steps + 4 * passed..][..4 * count];
        if !own.chunks(4).all(|s| step_fits(s, u16_at(b, 8) + j)) {
            return false;
        }
        letters += size;
        passed += count;
    }
    letters == area.len() && passed == steps
}

/// The bytes are a table.
fn table_fits(b: &[u8]) -> bool {
    if b.len() < 16 {
        return false;
    }
    let (lines, steps, words) = (u16_at(b, 6), u16_at(b, 10), u16_at(b, 12));
    u16_at(b, 0) == 2
        && u16_at(b, 2) <= 1
        && (1..=32).contains(&u16_at(b, 4))
        && lines <= 256
        && u16_at(b, 8) <= 64
        && steps <= 8192
        && words == 16 + 8 * lines + 4 * steps
        && u16_at(b, 14) == b.len()
        && words <= b.len()
        && lines_fit(b, words, steps)
        && b[words..].iter().all(|&a| (a as usize) < u16_at(b, 4))
}

/// The word begins with the left word, letter by letter.
pub fn begins(word: &[u8], left: &[u8]) -> bool {
    left.len() <= word.len() && left.iter().zip(word).all(|(a, b)| a == b)
}

/// The place and the record of the replacement due.
fn due<'a>(records: &'a [u8], area: &[u8], word: &[u8]) -> Option<(usize, &'a [u8])> {
    for p in 0..=word.len() {
        for r in records.chunks_exact(8) {
            let (at, left) = (u16_at(r, 0), r[2] as usize);
            if r[6] == 1 && begins(&word[p..], &area[at..at + left]) {
                return Some((p, r));
            }
        }
    }
    None
}

/// The length and the count of the normal word, or a refusal's number.
pub fn normal(table: &[u8], word: &[u8], allowance: u16, out: &mut [u8]) -> Result<(usize, u16), u32> {
    if out.len() < 128 {
        return Err(3);
    }
    if !table_fits(table) {
        return Err(1);
    }
    if word.len() > 64 || word.iter().any(|&a| a as usize >= u16_at(table, 4)) {
        return Err(4);
    }
    let records = &table[16..16 + 8 * u16_at(table, 6)];
    let area = &table[u16_at(table, 12)..];
    let (mut now, mut next) = ([0u8; 128], [0u8; 128]);
    let (mut size, mut count) = (word.len(), 0);
    now[..size].copy_from_slice(word);
    while let Some((p, r)) = due(records, area, &now[..size]) {
        let (at, left, right) = (u16_at(r, 0), r[2] as usize, r[3] as usize);
        if count == allowance {
            return Err(5);
        }
        if size - left + right > 128 {
            return Err(6);
        }
        next[..p].copy_from_slice(&now[..p]);
        next[p..p + right].copy_from_slice(&area[at + left..at + left + right]);
        next[p + right..size - left + right].copy_from_slice(&now[p + left..size]);
        size = size - left + right;
        count += 1;
        now[..size].copy_from_slice(&next[..size]);
    }
    out[..size].copy_from_slice(&now[..size]);
    Ok((size, count))
}
