//! Advice: the whole list, and each key of it through `text` and `decide`, which have to find it implied.
use crate::reference::advice::MOST_ADVICE;
use crate::reference::damage::{damaged, spoiled};
use crate::reference::generate::*;
use crate::reference::paths::{join, Classes, ANY_PATH};
use crate::reference::random::Random;
use crate::reference::records::*;
use crate::reference::shown::Showing;
use crate::runner::Runner;

/// A question from which a key of the profile is not far: the end of its context goes to the target, or a key path is left out, or both.
fn loosened(random: &mut Random, key: &Key) -> Key {
    let mut near = key.clone();
    if !near.context.is_empty() && random.chance(2, 3) {
        let cut = random.below(near.context.len());
        let moved = near.context.split_off(cut);
        near.target = join(&moved, &near.target);
    }
    if near.paths.len() > 1 && random.chance(2, 3) {
        near.paths.remove(random.below(near.paths.len()));
    }
    if random.chance(1, 8) {
        near.target = join(&[ANY_PATH], &near.target);
    }
    near
}

fn any_question(random: &mut Random) -> (Profile, Key) {
    let asked = asked(random);
    let keys = &asked.profile.keys;
    if keys.is_empty() || random.chance(1, 4) {
        return (asked.profile, asked.question);
    }
    let chosen = random.below(keys.len());
    let near = loosened(random, &keys[chosen]);
    let question = if is_good(&near, &asked.world.classes) { near } else { asked.question };
    (asked.profile, question)
}

/// What `advise` prints, each of its keys made a question and decided.
fn advise(runner: &mut Runner, profile: &[u8], question: &[u8]) {
    let text = runner.hold(Showing::Advice, &[profile, question]).text;
    let lines: Vec<&[u8]> = text.split(|&byte| byte == b'\n').filter(|line| line.starts_with(b"(")).collect();
    match lines.len() {
        0 => {}
        1 => runner.count("advice of 1 key"),
        MOST_ADVICE => runner.count("advice of 16 keys"),
        _ => runner.count("advice of several keys"),
    }
    let read = read_profile(profile).and_then(|read| read_question(question, &read.classes));
    for line in lines {
        runner.put("line", line);
        let said = runner.program(&["text", "key"], &["profile", "line", "near"]);
        runner.demand(said.starts_with(b"key "), &format!("text key of {}", String::from_utf8_lossy(line)));
        let said = runner.program(&["decide"], &["profile", "near", "evidence"]);
        runner.demand(said.starts_with(b"implied "), &format!("decide says implied of {}", String::from_utf8_lossy(line)));
        runner.count("keys decided");
        let near = read_key(runner.get("near").get(4..).unwrap_or(&[]));
        let is_cut = near.map(|near| near.paths) == read.as_ref().ok().map(|key| key.paths.clone());
        runner.count(if is_cut { "cuts advised" } else { "key paths advised" });
    }
}

/// Elements below 30, attributes from there on.
fn many_labels() -> Vec<Label> {
    let label = |number: u8| Label { number, class: if number < 30 { 1 } else { 2 }, name: format!("n{}", number).into_bytes() };
    (2..=50).map(label).collect()
}

/// Profiles whose keys are the question's with one key path more, so many of them: over 16 are left out. Behind them keys from which cuts
/// follow.
fn ask_many(runner: &mut Runner) {
    let asked = Key { context: vec![2], target: vec![3, 4, 5], paths: vec![vec![6], vec![7, 31]] };
    let more = |at: usize| if at % 2 == 0 { vec![49 - at as u8 / 2] } else { vec![8 + at as u8 / 2, 32] };
    let with_more = |at: usize| {
        let mut paths = [asked.paths.clone(), vec![more(at)]].concat();
        in_order(&mut paths);
        Key { paths, ..asked.clone() }
    };
    let cut = |at: usize| {
        let (above, below) = asked.target.split_at(at);
        Key { context: [&asked.context, above].concat(), target: below.to_vec(), paths: asked.paths.clone() }
    };
    for (count, cuts) in [1, 2, 14, 15, 16, 17, 18, 40].iter().flat_map(|&count| [0, 1, 2].map(|cuts| (count, cuts))) {
        let keys = (0..count).map(with_more).chain((1..=cuts).map(cut)).collect();
        let profile = Profile { edition: FIRST_EDITION, labels: many_labels(), keys, classes: Classes::none() };
        advise(runner, &write_profile(&profile), &key_record(&asked));
    }
}

/// Questions at the limits: a cut whose context is too long, four key paths already, a target that takes no key path, any-paths that come
/// together.
fn ask_limits(runner: &mut Runner) {
    let labels = vec![
        Label { number: 2, class: 1, name: b"element-name-of-32-bytes-ABCDEFG".to_vec() },
        Label { number: 3, class: 2, name: b"q".to_vec() },
    ];
    let key = |context: &[u8], target: &[u8], paths: &[&[u8]]| {
        Key { context: context.to_vec(), target: target.to_vec(), paths: paths.iter().map(|path| path.to_vec()).collect() }
    };
    let keys = vec![
        key(&[0], &[2], &[&[3]]),
        key(&[0], &[2, 2], &[&[3], &[2, 3]]),
        key(&[], &[0, 2], &[&[], &[1], &[2], &[3]]),
        key(&[0], &[2, 2, 2], &[&[2, 2, 3]]),
    ];
    let questions = [
        key(&[2; 7], &[2, 2, 2], &[&[3]]),
        key(&[2; 8], &[2, 2, 2], &[&[3]]),
        key(&[2, 0], &[0, 2], &[&[3]]),
        key(&[0], &[0, 2, 2], &[&[3]]),
        key(&[0], &[2, 0, 2], &[&[3]]),
        key(&[0, 2], &[2; 8], &[&[1], &[2], &[3], &[2, 3]]),
        key(&[], &[0, 2], &[&[], &[1], &[2]]),
        key(&[], &[0, 2], &[&[1], &[2], &[3]]),
        key(&[], &[2, 3], &[&[]]),
        key(&[], &[0, 3], &[&[]]),
        key(&[2], &[2, 2], &[&[2, 2, 2, 2, 2, 2, 2, 3]]),
    ];
    for edition in [FIRST_EDITION, SECOND_EDITION] {
        for taken in 0..=keys.len() {
            let keys = keys[..taken].to_vec();
            let profile = write_profile(&Profile { edition, labels: labels.clone(), keys, classes: Classes::none() });
            questions.iter().for_each(|question| advise(runner, &profile, &key_record(question)));
        }
    }
}

pub fn ask(runner: &mut Runner, seed: u64, count: usize) {
    let mut random = Random::new(seed);
    ask_many(runner);
    ask_limits(runner);
    for _ in 0..count {
        let (profile, question) = any_question(&mut random);
        let world = World::of(&profile);
        let mut inputs = [write_profile(&profile), key_record(&question)];
        let input = random.below(2);
        match random.below(24) {
            0 => inputs[input] = damaged(&mut random, &inputs[input]),
            1 => inputs[input] = spoiled(&mut random, &world, &inputs[input]),
            _ => {}
        }
        advise(runner, &inputs[0], &inputs[1]);
    }
}
