//! Profiles as text and back: whatever is accepted is shown, made again as the same bytes, and shown again as the same text.
use crate::reference::cases::cases;
use crate::reference::made::lines_of;
use crate::reference::random::Random;
use crate::reference::records::*;
use crate::reference::shown::Showing;
use crate::reference::text::{print_typed, read_typed};
use crate::reference::typing::shuffle;
use crate::runner::Runner;
use std::collections::HashSet;

/// So many cases of the stream are looked through for profiles, at most.
const STREAM: usize = 40_000;
const MOST_LABELS: usize = 199;
const NAME_BYTES: usize = 32;

/// The greatest number of labels with the longest names: of four one is an attribute, the others are elements.
pub fn most_labels() -> Vec<Label> {
    let label = |number: usize| {
        let mut name = format!("Label{}", number).into_bytes();
        name.resize(NAME_BYTES, b'-');
        Label { number: number as u8, class: if number % 4 == 0 { 2 } else { 1 }, name }
    };
    (2..2 + MOST_LABELS).map(label).collect()
}

/// The longest keys there are, each other than the others: paths of 8 symbols, the key paths end in attributes.
pub fn longest_keys(count: usize) -> Vec<Key> {
    let key = |number: usize| {
        let context = (0..8).map(|bit| if number >> bit & 1 == 1 { 199 } else { 198 }).collect();
        let path = |last: u8| [vec![197; 7], vec![last]].concat();
        Key { context, target: vec![195; 8], paths: [100, 104, 108, 112].map(path).to_vec() }
    };
    (0..count).map(key).collect()
}

fn limits() -> Vec<Vec<u8>> {
    let labels: Vec<u8> = most_labels().iter().flat_map(label_record).collect();
    let keys = |count: usize| longest_keys(count).iter().flat_map(key_record).collect::<Vec<u8>>();
    let second = edition_record(SECOND_EDITION);
    vec![
        Vec::new(),
        second.clone(),
        labels.clone(),
        [second.clone(), labels.clone()].concat(),
        [labels.clone(), keys(64)].concat(),
        [second, labels.clone(), keys(64)].concat(),
        [labels.clone(), keys(65)].concat(),
        [labels, keys(64), vec![9; 6_000]].concat(),
    ]
}

/// The text with the key paths of its key lines in other orders.
pub fn shuffled(random: &mut Random, text: &[u8]) -> Vec<u8> {
    let again = |line: &[u8]| match read_typed(line) {
        None => line.to_vec(),
        Some(mut typed) => {
            shuffle(random, &mut typed.paths);
            print_typed(&typed)
        }
    };
    let lines: Vec<Vec<u8>> = lines_of(text).into_iter().map(again).collect();
    lines.iter().flat_map(|line| [line.as_slice(), b"\n"].concat()).collect()
}

fn count_accepted(runner: &mut Runner, profile: &Profile) {
    runner.count("profiles accepted");
    if profile.edition == SECOND_EDITION {
        runner.count("profiles of edition 2");
    }
    if profile.keys.len() == PROFILE_KEYS {
        runner.count("profiles of 64 keys");
    }
    if profile.labels.len() == MOST_LABELS {
        runner.count("profiles of 199 labels");
    }
    if profile.labels.iter().any(|label| label.name.len() == NAME_BYTES) {
        runner.count("profiles with names of 32 bytes");
    }
}

/// There, back, and there again; and back with key paths typed in other orders.
fn ask_accepted(runner: &mut Runner, random: &mut Random, bytes: &[u8]) {
    let text = runner.hold(Showing::Profile, &[bytes]).text;
    let made = runner.hold(Showing::Made, &[&text]).out;
    runner.demand(made.as_deref() == Some(bytes), "make of what is shown is the same bytes");
    let again = runner.hold(Showing::Profile, &[&made.unwrap_or_default()]).text;
    runner.demand(again == text, "what is made is shown as the same text");
    let other = shuffled(random, &text);
    if other != text {
        runner.count("profiles with key paths in another order");
        let made = runner.hold(Showing::Made, &[&other]).out;
        runner.demand(made.as_deref() == Some(bytes), "make sorts the key paths");
    }
}

/// So many accepted profiles, no two the same, and half as many refused ones at most.
pub fn ask(runner: &mut Runner, seed: u64, count: usize) {
    let mut random = Random::new(seed);
    let mut seen = HashSet::new();
    let (mut accepted, mut refused) = (0, 0);
    for bytes in limits().into_iter().chain(cases(seed, STREAM).map(|case| case.inputs[0].clone())) {
        if accepted == count {
            break;
        }
        if !seen.insert(bytes.clone()) {
            continue;
        }
        match read_profile(&bytes) {
            Ok(profile) => {
                accepted += 1;
                count_accepted(runner, &profile);
                ask_accepted(runner, &mut random, &bytes);
            }
            Err(_) if refused < count / 2 => {
                refused += 1;
                runner.hold(Showing::Profile, &[&bytes]);
            }
            Err(_) => {}
        }
    }
}
