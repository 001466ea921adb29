//! Every way in which each of the nine calls can end. The random calls must meet them all and no other, and `docs/REFUSALS.md` names them.

/// A call's name, and its ends. 11 is for orders that are not total.
pub const ENDS: [(&str, &[&str]); 9] = [
    ("compare", &["less", "equal", "greater", "refused 1", "refused 4"]),
    ("search", &["none", "found", "refused 1", "refused 4"]),
    ("one", &["irreducible", "replaced", "refused 1", "refused 3", "refused 4"]),
    ("normal", &["irreducible", "replaced", "refused 1", "refused 3", "refused 4", "refused 5", "refused 6"]),
    ("pair", &["no pair", "a pair", "refused 1", "refused 3"]),
    ("complete", COMPLETE),
    ("check", CHECK),
    ("same", &["the same fare", "a different fare", "refused 1", "refused 4", "refused 5", "refused 6"]),
    ("list", &["answered", "refused 1", "refused 3"]),
];

const COMPLETE: &[&str] =
    &["answered", "refused 1", "refused 3", "refused 5", "refused 6", "refused 7", "refused 8", "refused 9", "refused 10"];

const CHECK: &[&str] = &[
    "accepted",
    "refused 1",
    "refused 2",
    "refused 12",
    "refused 13",
    "refused 14",
    "refused 15",
    "refused 16",
    "refused 5 by equations",
    "refused 6 by equations",
    "refused 5 by pairs",
    "refused 6 by pairs",
];

/// The calls that give a refusal.
pub fn given_by(number: u32) -> Vec<&'static str> {
    let gives = |end: &&str| end.split(' ').take(2).eq(["refused", &number.to_string()]);
    ENDS.iter().filter(|(_, ends)| ends.iter().any(&gives)).map(|(name, _)| *name).collect()
}
