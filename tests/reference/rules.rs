//! The rules of inference (01, "Rules of inference"), each a sentence about keys.
use super::paths::{is_included, is_simple, join, Class, Path, ANY_PATH};
use super::records::{Key, Line, Profile, NONE, SECOND_EDITION};
use super::wrong;

/// Whether a line follows after the lines before it.
pub fn follows(line: &Line, before: &[Line], profile: &Profile) -> bool {
    let new = &line.key;
    let first = before.get(line.first as usize).map(|earlier| &earlier.key);
    let second = before.get(line.second as usize).map(|earlier| &earlier.key);
    let first_unused = line.first == NONE;
    let second_unused = line.second == NONE;
    match line.rule {
        0 => second_unused && profile.keys.get(line.first as usize) == Some(new),
        1 => first_unused && second_unused && new.target.is_empty(),
        2..=8 => second_unused && first.map_or(false, |old| follows_from_one(line.rule, old, new, profile)),
        9 => match (first, second) {
            (Some(first), Some(second)) => interaction(first, second, new),
            _ => false,
        },
        10 => first_unused && second_unused && one_attribute(new, profile),
        _ => false,
    }
}

/// "A tenth rule accepts without premise any key whose target is a single attribute label", in edition 2.
fn one_attribute(new: &Key, profile: &Profile) -> bool {
    let is_attribute = |&label: &u8| profile.classes.of(label) == Some(Class::Attribute);
    (profile.edition == SECOND_EDITION || wrong(16)) && new.target.len() == 1 && new.target.iter().all(is_attribute)
}

fn follows_from_one(rule: u8, old: &Key, new: &Key, profile: &Profile) -> bool {
    let same_context = new.context == old.context;
    let same_target = new.target == old.target;
    let same_paths = new.paths == old.paths;
    match rule {
        2 => same_context && same_target && prefix_epsilon(&old.paths, &new.paths),
        3 => same_context && same_target && old.paths.iter().all(|path| new.paths.contains(path)),
        4 => same_context && subnodes(old, new),
        5 => same_target && same_paths && is_included(&new.context, &old.context, &profile.classes),
        6 => same_context && same_paths && is_included(&new.target, &old.target, &profile.classes),
        7 => same_paths && context_target(old, new),
        8 => same_context && subnodes_epsilon(old, new),
        _ => false,
    }
}

/// "S and the new set both hold the empty path; each path of S begins some path of the new set."
fn prefix_epsilon(old: &[Path], new: &[Path]) -> bool {
    let holds_empty = |paths: &[Path]| paths.iter().any(|path| path.is_empty());
    holds_empty(old) && holds_empty(new) && old.iter().all(|p| new.iter().any(|path| path.starts_with(p)))
}

/// The ways to write T = X.P with P simple: cuts only, since P has no any-path to fall together
/// with one of X.
fn simple_ends(target: &[u8]) -> Vec<(Path, Path)> {
    (0..=target.len())
        .map(|cut| (target[..cut].to_vec(), target[cut..].to_vec()))
        .filter(|(_, p)| is_simple(p))
        .collect()
}

/// "T = X.P, P simple, S = {p}; gives (C, (X, {P.p}))."
fn subnodes(old: &Key, new: &Key) -> bool {
    old.paths.len() == 1
        && simple_ends(&old.target)
            .iter()
            .any(|(x, p)| new.target == *x && new.paths == [join(p, &old.paths[0])])
}

/// "T = X.P, P simple, S = {empty, p}, where p may itself be empty; gives (C, (X, {empty, P.p}))."
fn subnodes_epsilon(old: &Key, new: &Key) -> bool {
    let empty: Path = Vec::new();
    let candidates: Vec<&Path> = old.paths.iter().chain(std::iter::once(&empty)).collect();
    candidates.iter().any(|&p| {
        is_set(&old.paths, &[empty.clone(), p.clone()])
            && !(wrong(5) && old.paths.len() < 2)
            && simple_ends(&old.target)
                .iter()
                .any(|(x, end)| new.target == *x && is_set(&new.paths, &[empty.clone(), join(end, p)]))
    })
}

/// Whether two lists have the same members.
fn is_set(xs: &[Path], ys: &[Path]) -> bool {
    xs.iter().all(|x| ys.contains(x)) && ys.iter().all(|y| xs.contains(y))
}

/// "X and Y exist with X.Y = T; gives (C.X, (Y, S)). A single `_*` may split into two."
fn context_target(old: &Key, new: &Key) -> bool {
    let target = &old.target;
    let mut ways: Vec<(Path, Path)> = Vec::new();
    for cut in 0..=target.len() {
        ways.push((target[..cut].to_vec(), target[cut..].to_vec()));
        if cut < target.len() && target[cut] == ANY_PATH {
            ways.push((target[..=cut].to_vec(), target[cut..].to_vec()));
        }
    }
    ways.iter().any(|(x, y)| new.context == join(&old.context, x) && new.target == *y)
}

/// "First premise (C, (X, {P.p for p in S2})), second (C.X, (P, S2)), P simple; gives (C, (X.P, S2))."
fn interaction(first: &Key, second: &Key, new: &Key) -> bool {
    let (c, x) = (&first.context, &first.target);
    let (p, s2) = (&second.target, &second.paths);
    let lifted: Vec<Path> = s2.iter().map(|path| join(p, path)).collect();
    is_simple(p)
        && (second.context == join(c, x) || wrong(6))
        && is_set(&first.paths, &lifted)
        && new.context == *c
        && new.target == join(x, p)
        && new.paths == *s2
}
