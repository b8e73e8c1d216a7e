//! Keys near a question that is not implied which do follow: `advise`.
use super::paths::{join, Path};
use super::records::*;
use super::reduce::is_implied;
use super::shown::*;
use super::text::{print_typed, typed_of};

/// "At most 16."
pub const MOST_ADVICE: usize = 16;

/// "For i = 1 .. |T| - 1: (C.T[..i], (T[i..], S)); where C ends and T begins with `_*` one `_*` is left out."
fn cuts(key: &Key) -> Vec<Key> {
    let last = key.target.len() + wrong_shown(CUT_AT_END) as usize;
    let context = |at: usize| match wrong_shown(BOTH_ANY_PATHS) {
        true => [&key.context, &key.target[..at]].concat(),
        false => join(&key.context, &key.target[..at]),
    };
    (1..last).map(|at| Key { context: context(at), target: key.target[at..].to_vec(), paths: key.paths.clone() }).collect()
}

/// The key paths of all keys of the profile in their order, each once, without those of the question.
fn other_paths(key: &Key, profile: &Profile) -> Vec<Path> {
    let mut found: Vec<Path> = Vec::new();
    for path in profile.keys.iter().flat_map(|each| &each.paths) {
        if !key.paths.contains(path) && !found.contains(path) {
            found.push(path.clone());
        }
    }
    found
}

/// "(C, (T, S and P)) with the key paths in record order."
fn with_path(key: &Key, path: Path) -> Key {
    let mut longer = key.clone();
    longer.paths.push(path);
    if !wrong_shown(ADDED_LAST) {
        longer.paths.sort_by_key(|each| (each.len(), each.clone()));
    }
    longer
}

/// All candidates in their order; "a candidate that the question reader refuses is passed over", and so is the question itself.
pub fn candidates(key: &Key, profile: &Profile) -> Vec<Key> {
    let added = other_paths(key, profile).into_iter().map(|path| with_path(key, path));
    let is_asked = |near: &Key| *near != *key && key_fault(near, KEY_SIZES, &profile.classes).is_none();
    cuts(key).into_iter().chain(added).filter(is_asked).collect()
}

/// The candidates that are implied, "at most 16, none twice".
pub fn advised(key: &Key, profile: &Profile) -> Vec<Key> {
    let most = MOST_ADVICE + wrong_shown(SEVENTEENTH) as usize;
    let mut found: Vec<Key> = Vec::new();
    for near in candidates(key, profile) {
        if found.len() < most && !found.contains(&near) && is_implied(&near, profile) {
            found.push(near);
        }
    }
    found
}

pub fn advise(profile: &[u8], question: &[u8]) -> Result<Vec<u8>, Refusal> {
    let profile = read_profile(profile)?;
    let key = read_question(question, &profile.classes)?;
    if is_implied(&key, &profile) {
        return Ok(b"implied\n".to_vec());
    }
    let line = |near: &Key| [print_typed(&typed_of(&profile.labels, near)), b"\n".to_vec()].concat();
    let lines: Vec<u8> = advised(&key, &profile).iter().flat_map(line).collect();
    Ok(if lines.is_empty() { b"nothing near\n".to_vec() } else { lines })
}
