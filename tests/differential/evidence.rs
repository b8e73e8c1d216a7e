//! The second pass: the evidence that `replay` wrote for its decisions and for dropped keys goes through its own checkers and through the
//! reference's, and trees are tried against each answer `implied` and each dropped key.
use crate::counts::{LEAST, PRESENT, WHOLE_RUN};
use crate::files::Differences;
use crate::reference::cases::{cases, Cases};
use crate::reference::operations::dropped_question;
use crate::reference::random::Random;
use crate::reference::records::*;
use crate::reference::refute::search;
use crate::reference::stream::*;
use std::fs::File;
use std::io::{BufRead, BufReader};

/// The check cases of a run: for each answer `implied` its proof, for each `not implied` its tree, and for each dropped key its proof,
/// with the reduced profile and that key's record.
pub struct EvidenceCases {
    cases: Cases,
    answers: BufReader<File>,
    seed: u64,
    /// So many proofs and so many trees the run has to have.
    least: usize,
}

/// Of the cases of a seed and the file of `replay`'s answers.
pub fn evidence_cases(seed: u64, count: usize, found: &str) -> std::io::Result<EvidenceCases> {
    let least = if count >= WHOLE_RUN && PRESENT.contains(&DECIDE) { LEAST } else { 0 };
    Ok(EvidenceCases { cases: cases(seed, count), answers: BufReader::new(File::open(found)?), seed, least })
}

/// The check of what was answered to a case; none where that has no evidence.
fn check_of(case: Case, found: Answer) -> Option<Case> {
    let Case { operation, number, room, inputs: [profile, question, _] } = case;
    let check = |operation: u8, profile: Vec<u8>, question: Vec<u8>| {
        Some(Case { operation, number: 0, room, inputs: [profile, question, found.bytes.clone()] })
    };
    match operation {
        DECIDE if found.line.starts_with("implied ") => check(CHECK_PROOF, profile, question),
        DECIDE if found.line.starts_with("not implied ") => check(CHECK_TREE, profile, question),
        DROPPED_PROOF if !found.bytes.is_empty() => {
            let (reduced, key) = dropped_question(&profile, number as usize)?;
            check(CHECK_PROOF, reduced, key)
        }
        _ => None,
    }
}

impl Iterator for EvidenceCases {
    type Item = Case;

    fn next(&mut self) -> Option<Case> {
        loop {
            let case = self.cases.next()?;
            let found = read_answer(&mut self.answers)?;
            if let Some(check) = check_of(case, found) {
                return Some(check);
            }
        }
    }
}

/// What the second pass saw.
#[derive(Default)]
struct Seen {
    proofs: usize,
    trees: usize,
    tried: usize,
    breaking: usize,
    refuting: usize,
}

fn word(line: &str) -> Answer {
    Answer { line: line.to_string(), bytes: Vec::new() }
}

/// Whether an answer says `accepted`: a proof without more, a tree with the question's witness.
fn says_accepted(case: &Case, answer: Option<&Answer>) -> bool {
    let line = answer.map_or("", |answer| answer.line.as_str());
    match case.operation {
        CHECK_PROOF => line == "accepted",
        _ => line.starts_with("accepted "),
    }
}

/// Reads `replay`'s answers to the check cases: it and the reference have to accept each piece of evidence, with one witness.
pub fn is_accepted(check_cases: EvidenceCases, found: &mut dyn BufRead, differences: &mut Differences) -> bool {
    let mut random = Random::new(check_cases.seed);
    let least = check_cases.least;
    let mut seen = Seen::default();
    for (number, case) in check_cases.enumerate() {
        let answers = [read_answer(found), Some(answer(&case))];
        for (whose, each) in ["replay's checker", "the reference's checker"].iter().zip(&answers) {
            if !says_accepted(&case, each.as_ref()) {
                let title = format!("evidence {} is not accepted by {}", number, whose);
                differences.add(&title, &case, &word("accepted"), each.as_ref());
            }
        }
        if answers[0] != answers[1] {
            differences.add(&format!("evidence {} has two witnesses", number), &case, &answer(&case), answers[0].as_ref());
        }
        if case.operation == CHECK_TREE {
            seen.trees += 1;
        } else {
            seen.proofs += 1;
            refute(&mut random, &case, &mut seen, differences);
        }
    }
    print_seen(&seen, differences.count);
    let is_ended = found.fill_buf().map_or(false, |rest| rest.is_empty());
    differences.count == 0 && is_ended && seen.proofs >= least && seen.trees >= least
}

/// Looks for a tree that keeps the profile and breaks a question that was answered `implied`.
fn refute(random: &mut Random, case: &Case, seen: &mut Seen, differences: &mut Differences) {
    let [profile, question, _] = &case.inputs;
    let read = read_profile(profile).and_then(|profile| Ok((read_question(question, &profile.classes)?, profile)));
    let (key, labels) = match read {
        Ok(pair) => pair,
        Err(_) => return,
    };
    let search = search(random, &labels, &key);
    seen.tried += search.tried;
    seen.breaking += search.breaking;
    if let Some(nodes) = search.found {
        seen.refuting += 1;
        let inputs = [profile.clone(), question.clone(), write_tree(&nodes, WIDE_NODE_KIND)];
        let against = Case { operation: CHECK_TREE, inputs, ..case.clone() };
        differences.add("a tree refutes an answer `implied`", &against, &word("a refusal"), Some(&word("accepted")));
    }
}

fn print_seen(seen: &Seen, faults: usize) {
    if !PRESENT.contains(&DECIDE) {
        println!("replay does not have decide yet");
    }
    println!("{} proofs and {} trees that replay wrote, each through replay's checker and the reference's", seen.proofs, seen.trees);
    println!(
        "{} trees tried against answers `implied`: {} break the question, {} of these keep the profile",
        seen.tried, seen.breaking, seen.refuting
    );
    println!("{} faults", faults);
}
