//! Proofs laid out: those that `decide` writes, trimmed and not, derivations by every rule, and damaged ones.
use crate::profiles::most_labels;
use crate::reference::damage::{damaged, spoiled};
use crate::reference::derivations::derivation;
use crate::reference::generate::{asked, is_good, Asked};
use crate::reference::random::Random;
use crate::reference::records::*;
use crate::reference::reduce::is_implied;
use crate::reference::rules::follows;
use crate::reference::shown::Showing;
use crate::reference::trim::{premises, with_premises};
use crate::runner::Runner;

/// How many lines a derivation is drawn with: most about 10 and some about 100, where the numbers get wider, or as many as there may be,
/// which takes long to draw.
const LENGTHS: [usize; 7] = [2, 6, 10, 11, 12, 16, 24];
const LONG_LENGTHS: [usize; 4] = [103, 106, 112, PROOF_LINES];
const ONE_LONG_OF: usize = 15;

/// The lines of a derivation that follow, up to the last whose key may be asked. Those that a slip spoiled fall away, with what was drawn
/// from them.
fn sound(lines: &[Line], profile: &Profile) -> Vec<Line> {
    let mut kept: Vec<Line> = Vec::new();
    let mut place: Vec<Option<u16>> = Vec::new();
    for line in lines {
        let has_premises = premises(line).iter().all(|&premise| place.get(premise).map_or(false, |at| at.is_some()));
        let number = |old: u16| place.get(old as usize).copied().flatten().unwrap_or(old);
        let moved = with_premises(line, &number);
        let is_kept = has_premises && follows(&moved, &kept, profile) && key_fault(&moved.key, LINE_SIZES, &profile.classes).is_none();
        place.push(Some(kept.len() as u16).filter(|_| is_kept));
        kept.extend(Some(moved).filter(|_| is_kept));
    }
    let last = kept.iter().rposition(|line| is_good(&line.key, &profile.classes));
    kept.truncate(last.map_or(0, |last| last + 1));
    kept
}

/// Shows a proof, and counts what it has if it is accepted.
fn show(runner: &mut Runner, profile: &[u8], question: &[u8], proof: &[u8]) {
    let found = runner.hold(Showing::Proof, &[profile, question, proof]).text;
    if found.starts_with(b"refused ") {
        return;
    }
    let read = read_profile(profile).and_then(|profile| read_proof(proof, &profile.classes, &|_, _| true));
    let lines = read.unwrap_or_default();
    for line in &lines {
        runner.count(&format!("lines by rule {}", line.rule));
    }
    match lines.len() {
        10 => runner.count("proofs with 10 lines"),
        11..=100 => runner.count("proofs with over 10 lines"),
        101.. => runner.count("proofs with over 100 lines"),
        _ => {}
    }
}

/// The proof that `decide` writes, and the same trimmed.
fn ask_decided(runner: &mut Runner, asked: &Asked) {
    let (profile, question) = (write_profile(&asked.profile), key_record(&asked.question));
    runner.put("profile", &profile);
    runner.put("question", &question);
    let said = runner.program(&["decide"], &["profile", "question", "proof"]);
    assert!(said.starts_with(b"implied "), "decide: {}", String::from_utf8_lossy(&said));
    runner.count("proofs decided");
    let proof = runner.get("proof");
    show(runner, &profile, &question, &proof);
    let said = runner.program(&["trim"], &["profile", "question", "proof", "trimmed"]);
    assert!(said.starts_with(b"trimmed "), "trim: {}", String::from_utf8_lossy(&said));
    runner.count("proofs trimmed");
    let trimmed = runner.get("trimmed");
    show(runner, &profile, &question, &trimmed);
}

fn ask_derived(runner: &mut Runner, random: &mut Random, asked: &Asked, length: usize) {
    let lines = derivation(random, asked, length);
    let lines = if random.chance(1, 10) { lines } else { sound(&lines, &asked.profile) };
    let question = key_record(lines.last().map_or(&asked.question, |line| &line.key));
    let mut inputs = [write_profile(&asked.profile), question, write_proof(&lines)];
    let input = random.below(6);
    match random.below(3) {
        0 if input < 3 => inputs[input] = damaged(random, &inputs[input]),
        1 if input < 3 => inputs[input] = spoiled(random, &asked.world, &inputs[input]),
        _ => {}
    }
    let [profile, question, proof] = &inputs;
    show(runner, profile, question, proof);
}

/// A proof whose keys are as wide as they may be, with narrow ones between them; and one of as many lines as there may be.
fn ask_wide(runner: &mut Runner) {
    let labels = most_labels();
    let profile: Vec<u8> = labels.iter().flat_map(label_record).collect();
    let path = |number: usize| (0..16).map(|bit| if number >> (15 - bit) & 1 == 1 { 199 } else { 198 }).collect();
    let wide = |count: usize| Key { context: vec![197; 32], target: Vec::new(), paths: (0..count).map(path).collect() };
    let narrow = Key { context: Vec::new(), target: Vec::new(), paths: vec![Vec::new()] };
    let line = |key: &Key| Line { rule: 1, first: NONE, second: NONE, key: key.clone() };
    let lines = [line(&narrow), line(&wide(64)), line(&wide(3)), line(&narrow)];
    show(runner, &profile, &key_record(&narrow), &write_proof(&lines));
    show(runner, &profile, &key_record(&narrow), &write_proof(&vec![line(&narrow); PROOF_LINES]));
    show(runner, &profile, &key_record(&narrow), &write_proof(&vec![line(&narrow); PROOF_LINES + 1]));
    show(runner, &profile, &key_record(&narrow), &write_proof(&[]));
}

/// So many decided questions, and twice as many derivations.
pub fn ask(runner: &mut Runner, seed: u64, count: usize) {
    let mut random = Random::new(seed);
    ask_wide(runner);
    let (mut decided, mut derived) = (0, 0);
    while decided < count || derived < 2 * count {
        let asked = asked(&mut random);
        if decided < count && is_implied(&asked.question, &asked.profile) {
            decided += 1;
            ask_decided(runner, &asked);
        }
        if derived < 2 * count {
            derived += 1;
            let length = if random.chance(1, ONE_LONG_OF) { random.one_of(&LONG_LENGTHS) } else { random.one_of(&LENGTHS) };
            ask_derived(runner, &mut random, &asked, length);
        }
    }
}
