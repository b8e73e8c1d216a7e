//! 02, request 3: "go from the last key to the first and drop a key when it is implied by those still there".
use super::decide::{proof, verdict, Pattern, Verdict};
use super::records::{Key, Line, Profile};
use super::wrong;

/// The numbers in `WRONG_LINES`.
const FIRST_TO_LAST: usize = 24;
const BEFORE_FORGOTTEN: usize = 25;

/// The profile with these of its keys alone: "a profile with the same labels", of the same edition.
fn with_keys(profile: &Profile, keys: Vec<Key>) -> Profile {
    Profile { keys, ..profile.clone() }
}

pub fn is_implied(key: &Key, profile: &Profile) -> bool {
    matches!(verdict(&Pattern::of(key), profile), Verdict::Implied)
}

/// The profile without its key n.
pub fn without(profile: &Profile, n: usize) -> Profile {
    let mut keys = profile.keys.clone();
    keys.remove(n);
    with_keys(profile, keys)
}

/// The reduced profile, and the numbers that the dropped keys had, ascending.
pub fn reduction(profile: &Profile) -> (Profile, Vec<usize>) {
    let count = profile.keys.len();
    let mut there = vec![true; count];
    let order: Vec<usize> = if wrong(FIRST_TO_LAST) { (0..count).collect() } else { (0..count).rev().collect() };
    for n in order {
        let asked_of = |other: &usize| *other != n && there[*other] && !(wrong(BEFORE_FORGOTTEN) && *other < n);
        let others = (0..count).filter(asked_of).map(|other| profile.keys[other].clone()).collect();
        there[n] = !is_implied(&profile.keys[n], &with_keys(profile, others));
    }
    let kept = (0..count).filter(|&n| there[n]).map(|n| profile.keys[n].clone()).collect();
    (with_keys(profile, kept), (0..count).filter(|&n| !there[n]).collect())
}

/// "a proof for each dropped key from the final keys": the final profile and the dropped key; none for a number that was not dropped.
pub fn dropped_key(profile: &Profile, n: usize) -> Option<(Profile, Key)> {
    let (reduced, dropped) = reduction(profile);
    let key = profile.keys.get(n).filter(|_| dropped.contains(&n))?;
    Some((reduced, key.clone()))
}

/// The lines of such a proof. Some wrong lines of the reference leave a dropped key without one.
pub fn dropped_proof(reduced: &Profile, key: &Key) -> Vec<Line> {
    let lines = proof(key, reduced);
    assert!(lines.is_some() || !wrong(0), "a dropped key does not follow from the final keys");
    lines.unwrap_or_default()
}
