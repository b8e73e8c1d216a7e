//! Profiles, paths, proofs, and questions that take many steps.
use crate::reference::paths::{Classes, Path, ANY_PATH, FIRST_DECLARED, LAST_DECLARED};
use crate::reference::records::{key_record, write_profile, write_proof, Key, Label, Line, Profile};
use crate::reference::records::{BARE_PATH_SYMBOLS, FIRST_EDITION, KEY_SIZES, LINE_SIZES, NONE, PROFILE_KEYS, PROOF_LINES};

const ELEMENT: u8 = 1;
const EPSILON: u8 = 1;
const SUPERKEY: u8 = 3;
const CONTEXT_PATH: u8 = 5;

fn profile(labels: Vec<Label>, keys: Vec<Key>) -> Vec<u8> {
    write_profile(&Profile { edition: FIRST_EDITION, labels, keys, classes: Classes::none() })
}

fn simple_key(context: &[u8], target: &[u8], path: &[u8]) -> Key {
    Key { context: context.to_vec(), target: target.to_vec(), paths: vec![path.to_vec()] }
}

/// The largest profile: all labels with names of 32 bytes that differ in the last three alone, and 64 keys of 8 symbols and 4 key paths.
pub fn full_profile() -> Vec<u8> {
    let name = |number: u8| format!("{}{:03}", "n".repeat(29), number).into_bytes();
    let labels = (FIRST_DECLARED..=LAST_DECLARED).map(|number| Label { number, class: ELEMENT, name: name(number) }).collect();
    let from = |start: u8| -> Path { (start..start + KEY_SIZES.path as u8).collect() };
    let key = |n: usize| {
        let start = FIRST_DECLARED + n as u8;
        let paths = (0..KEY_SIZES.count as u8).map(|branch| from(start + branch)).collect();
        Key { context: from(start), target: from(start), paths }
    };
    profile(labels, (0..PROFILE_KEYS).map(key).collect())
}

/// So many symbols, an any-path before each label.
pub fn any_before_each(label: u8, symbols: usize) -> Path {
    [ANY_PATH, label].repeat(symbols / 2)
}

pub fn bare_path_of(label: u8) -> Path {
    vec![label; BARE_PATH_SYMBOLS]
}

pub fn bare_path_any(label: u8) -> Path {
    any_before_each(label, BARE_PATH_SYMBOLS)
}

/// Ends with another label than all before.
pub fn bare_path_other(label: u8, last: u8) -> Path {
    let mut path = bare_path_any(label);
    path[BARE_PATH_SYMBOLS - 1] = last;
    path
}

/// The labels of the questions below: C, T and the key paths have none in common, so that a key lets one spot step, to one node.
const C_START: u8 = 2;
const T_START: u8 = 10;
const P_START: u8 = 18;
const P_END: u8 = 26;

fn plain_labels() -> Vec<Label> {
    (C_START..P_END).map(|number| Label { number, class: ELEMENT, name: format!("e{}", number).into_bytes() }).collect()
}

fn target_of(rungs: usize) -> Path {
    (T_START..T_START + rungs as u8).collect()
}

/// A key whose key path lands on every mark and whose context is nowhere: it costs a search and gives no step.
fn idle_key(n: usize) -> Key {
    let width = (P_END - P_START) as usize;
    simple_key(&[P_START + (n / width) as u8, P_START + (n % width) as u8], &[ANY_PATH], &[])
}

/// The key that lets place i + 1 of T step to place i: from there the rest of T leads to t, which is marked.
fn rung(target: &[u8], i: usize) -> Key {
    simple_key(&[ANY_PATH], &target[i..=i], &target[i + 1..])
}

/// A question on which each step goes one symbol up, and a profile of so many keys in the order that is worst for a search from the front:
/// keys that give no step, then the rungs, the first needed last. Without it the question is not implied.
pub fn ladder(keys: usize, implied: bool) -> (Vec<u8>, Vec<u8>) {
    let target = target_of(keys.min(KEY_SIZES.path));
    let context: Path = (C_START..T_START).collect();
    let below: Path = (P_START..P_END).collect();
    let turned = |n: usize| [&below[n..], &below[..n]].concat();
    let question = Key { context, target: target.clone(), paths: vec![vec![], turned(0), turned(1), turned(2)] };
    let mut all: Vec<Key> = (0..keys - target.len()).map(idle_key).collect();
    all.extend((0..target.len()).rev().map(|i| rung(&target, i)));
    if !implied {
        all[keys - 1] = idle_key(keys - 1);
    }
    (profile(plain_labels(), all), key_record(&question))
}

/// A proof whose first line is by rule 1; each further one repeats the one before by a rule that allows it, which makes the checker look up
/// the farthest premise that there is. The last line, by rule 1 again, is the question.
fn repeated(first: Key, rule: u8, question: &Key) -> Vec<u8> {
    let epsilon = |key: &Key| Line { rule: EPSILON, first: NONE, second: NONE, key: key.clone() };
    let mut lines = vec![epsilon(&first)];
    for before in 0..PROOF_LINES - 2 {
        lines.push(Line { rule, first: before as u16, second: NONE, key: first.clone() });
    }
    lines.push(epsilon(question));
    write_proof(&lines)
}

/// A question with empty target.
fn asked_at_once() -> Key {
    simple_key(&[], &[], &[C_START])
}

/// Profile, question and a proof of 256 lines that test inclusion of paths of 32 symbols.
pub fn proof_of_contexts() -> [Vec<u8>; 3] {
    let first = simple_key(&any_before_each(C_START, LINE_SIZES.path), &[], &[C_START]);
    let question = asked_at_once();
    [profile(plain_labels(), Vec::new()), key_record(&question), repeated(first, CONTEXT_PATH, &question)]
}

/// As many key paths of 3 symbols as 256 lines have room for.
const WIDE_SET: u8 = 48;

/// Profile, question and a proof of 256 lines that compare sets of 48 key paths.
pub fn proof_of_sets() -> [Vec<u8>; 3] {
    let width = P_END - C_START;
    let path = |n: u8| vec![C_START, C_START + n / width, C_START + n % width];
    let first = Key { context: Vec::new(), target: Vec::new(), paths: (0..WIDE_SET).map(path).collect() };
    let question = asked_at_once();
    [profile(plain_labels(), Vec::new()), key_record(&question), repeated(first, SUPERKEY, &question)]
}
