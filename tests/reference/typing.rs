//! Lines as they are typed by hand (02, request 1): key paths in any order, keys that a question may not have, names that are no label's,
//! signs lost, doubled, exchanged or put in.
use super::random::Random;
use super::records::{Key, Label, KEY_SIZES};
use super::text::*;

/// A byte of the grammar, or one that no line has.
const SIGNS: &[u8] = b".,(){}_*#@ aZ9-";
const NO_SIGNS: &[u8] = &[0, b'\t', b'\n', b'\r', b'!', b'[', b'`', b'~', 128, 255];

/// The key as a line, its paths in any order; of five lines two hold a key with one or two faults, and one has wrong signs.
pub fn typed_line(random: &mut Random, labels: &[Label], key: &Key) -> Vec<u8> {
    let mut typed = typed_of(labels, key);
    shuffle(random, &mut typed.paths);
    let drawn = random.below(10);
    if drawn < 4 {
        (0..1 + random.below(2)).for_each(|_| mistype(random, labels, &mut typed));
    }
    let mut line = print_typed(&typed);
    if drawn >= 3 && drawn < 6 {
        (0..1 + random.below(2)).for_each(|_| line = other_signs(random, &line));
    }
    line
}

pub fn shuffle(random: &mut Random, paths: &mut [TypedPath]) {
    for last in (1..paths.len()).rev() {
        paths.swap(last, random.below(last + 1));
    }
}

/// Context, target or a key path.
fn some_path<'a>(random: &mut Random, key: &'a mut TypedKey) -> &'a mut TypedPath {
    let chosen = random.below(2 + key.paths.len());
    match chosen {
        0 => &mut key.context,
        1 => &mut key.target,
        _ => &mut key.paths[chosen - 2],
    }
}

/// One fault in a key of the grammar: one that 18, 4, 5 or 6 refuses, now and then 17 (a name of 33 bytes).
fn mistype(random: &mut Random, labels: &[Label], key: &mut TypedKey) {
    let symbol = any_symbol(random, labels);
    let length = KEY_SIZES.path + random.below(2);
    match random.below(9) {
        0 => key.paths.clear(),
        1 => {
            let again = key.paths.first().cloned().unwrap_or_default();
            let at = random.below(key.paths.len() + 1);
            key.paths.insert(at, again);
        }
        2 => {
            let count = KEY_SIZES.count + random.below(2);
            let shorter = |at: usize| vec![symbol.clone(); at];
            key.paths = (0..count).rev().map(shorter).collect();
        }
        3 => some_path(random, key).resize(length, symbol),
        4 => {
            let path = some_path(random, key);
            let at = random.below(path.len() + 1);
            path.splice(at..at, [Typed::AnyPath, Typed::AnyPath]);
        }
        5 => {
            let name = other_name(random, labels);
            let typed = if random.chance(1, 2) { Typed::Element(name) } else { Typed::Attribute(name) };
            some_path(random, key).push(typed);
        }
        6 => exchange_class(random, key),
        _ => {
            let path = some_path(random, key);
            let at = random.below(path.len() + 1);
            path.insert(at, symbol);
        }
    }
}

fn any_symbol(random: &mut Random, labels: &[Label]) -> Typed {
    match (random.below(4), random.below(labels.len().max(1))) {
        (0, _) => Typed::AnyPath,
        (1, _) => Typed::Text,
        (_, at) => match labels.get(at) {
            Some(label) if label.class == 2 => Typed::Attribute(label.name.clone()),
            Some(label) => Typed::Element(label.name.clone()),
            None => Typed::AnyPath,
        },
    }
}

/// A name that is hardly a label's: a label's name with a byte more, a byte less, or the other case; the longest, and one byte more.
fn other_name(random: &mut Random, labels: &[Label]) -> Vec<u8> {
    let mut name = labels.first().map_or(b"n".to_vec(), |label| label.name.clone());
    match random.below(5) {
        0 => name.push(random.one_of(&[b'a', b'-', b'_', b'0'])),
        1 if name.len() > 1 => name.truncate(name.len() - 1),
        2 => name[0] ^= 32,
        3 => name.resize(32, b'x'),
        _ => name.resize(33, b'x'),
    }
    name
}

fn exchange_class(random: &mut Random, key: &mut TypedKey) {
    if let Some(last) = some_path(random, key).last_mut() {
        *last = match last.clone() {
            Typed::Element(name) => Typed::Attribute(name),
            Typed::Attribute(name) => Typed::Element(name),
            other => other,
        };
    }
}

/// A line with one sign other than it was.
fn other_signs(random: &mut Random, line: &[u8]) -> Vec<u8> {
    let mut out = line.to_vec();
    let at = random.below(line.len().max(1)).min(line.len());
    let sign = if random.chance(1, 5) { random.one_of(NO_SIGNS) } else { random.one_of(SIGNS) };
    let comma = line.iter().rposition(|&byte| byte == b',').unwrap_or(0);
    match random.below(10) {
        0 => out.truncate(at),
        1 if !out.is_empty() => {
            out.remove(at);
        }
        2 if at + 1 < out.len() => out.swap(at, at + 1),
        3 if comma > 0 && comma + 1 < out.len() => {
            out.remove(comma + 1);
        }
        4 => out.insert(comma, b' '),
        5 => out.push(sign),
        6 => out.insert(0, sign),
        7 => out.extend_from_slice(line),
        8 if !out.is_empty() => out[at] = sign,
        _ => out.insert(at, sign),
    }
    out
}
