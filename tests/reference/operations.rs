//! The public operations on bytes, with every refusal in 01's order: 14, then profile, question,
//! tree or proof; then 10, or 12 before 13. 11 is retired (02, request 8) and never given.
use super::campaign::reported;
use super::decide::{counterexample, proof, verdict, Pattern, Verdict};
use super::listing::block;
use super::paths::is_included;
use super::records::*;
use super::reduce::{dropped_key, dropped_proof, reduction};
use super::rules::follows;
use super::salvage::{salvage_block, salvaged};
use super::text::{print_typed, read_text, typed_of};
use super::trees::Tree;
use super::trim::trimmed;
use super::witness::Witness;
use super::wrong;

/// The most nodes a written tree has (02, request 8): root, C, T and 4 key paths of 8 symbols, with u at q
/// and a filler attribute for each: 2 * 9 once and 2 * 40 twice.
const MOST_NODES: usize = 178;

/// What the decider answers, with the bytes that it writes to the front of the answer buffer.
#[derive(Clone, PartialEq, Eq, Debug)]
pub enum Decision {
    Implied(Vec<u8>),
    NotImplied(Vec<u8>),
}

fn check_answer(size: usize) -> Result<(), Refusal> {
    if size < ANSWER_BYTES {
        return refuse(14, ANSWER, 0);
    }
    Ok(())
}

pub fn rewrite(profile: &[u8], answer: usize) -> Result<Vec<u8>, Refusal> {
    check_answer(answer)?;
    Ok(write_profile(&read_profile(profile)?))
}

/// "If that refuses, or there is no record n, it answers the empty part alone."
pub fn body(profile: &[u8], n: usize) -> &[u8] {
    let n = if wrong(13) { n + 1 } else { n };
    match read_profile(profile) {
        Ok(_) => body_of_record(profile, n).unwrap_or(&[]),
        Err(_) => &[],
    }
}

pub fn include(profile: &[u8], p: &[u8], q: &[u8]) -> Result<bool, Refusal> {
    let profile = read_profile(profile)?;
    read_bare_path(p, QUESTION, &profile.classes)?;
    read_bare_path(q, TREE_OR_PROOF, &profile.classes)?;
    Ok(is_included(p, q, &profile.classes))
}

/// The first witness where the tree breaks the key; none where it keeps it.
pub fn keep(profile: &[u8], question: &[u8], tree: &[u8]) -> Result<Option<Witness>, Refusal> {
    let profile = read_profile(profile)?;
    let key = read_question(question, &profile.classes)?;
    let nodes = read_tree(tree, &profile)?;
    Ok(Tree::new(&nodes, &profile.classes).first_witness(&key))
}

/// The question and the lines of a proof of it that is accepted.
pub fn accepted_proof(profile: &[u8], question: &[u8], proof: &[u8]) -> Result<(Key, Vec<Line>), Refusal> {
    let profile = read_profile(profile)?;
    let key = read_question(question, &profile.classes)?;
    let lines = read_proof(proof, &profile.classes, &|line, before| follows(line, before, &profile))?;
    match lines.last() {
        None => refuse(10, TREE_OR_PROOF, 0),
        Some(last) if last.key != key => refuse(10, TREE_OR_PROOF, lines.len() - 1),
        Some(_) => Ok((key, lines)),
    }
}

pub fn check_proof(profile: &[u8], question: &[u8], proof: &[u8]) -> Result<(), Refusal> {
    accepted_proof(profile, question, proof).map(|_| ())
}

/// "A proof that is not accepted is refused with the checker's number."
pub fn trim(profile: &[u8], question: &[u8], proof: &[u8], answer: usize) -> Result<Vec<u8>, Refusal> {
    check_answer(answer)?;
    let (key, lines) = accepted_proof(profile, question, proof)?;
    Ok(write_proof(&trimmed(&lines, &key)))
}

/// A refusal of the counterexample check: "12 carries it for the lowest broken key" (02, request 9), no other has a witness.
#[derive(Clone, PartialEq, Eq, Debug)]
pub struct Objection {
    pub refusal: Refusal,
    pub witness: Option<Witness>,
}

impl From<Refusal> for Objection {
    fn from(refusal: Refusal) -> Objection {
        Objection { refusal, witness: None }
    }
}

/// Accepted with the question's first witness.
pub fn check_counterexample(profile: &[u8], question: &[u8], tree: &[u8]) -> Result<Witness, Objection> {
    let profile = read_profile(profile)?;
    let key = read_question(question, &profile.classes)?;
    let nodes = read_tree(tree, &profile)?;
    let tree = Tree::new(&nodes, &profile.classes);
    let tried = if wrong(12) { 1.min(profile.keys.len()) } else { profile.keys.len() };
    for (number, key) in profile.keys[..tried].iter().enumerate() {
        if let Some(witness) = tree.first_witness(key) {
            let refusal = Refusal { number: 12, input: PROFILE, record: number as u32 };
            return Err(Objection { refusal, witness: Some(witness) });
        }
    }
    match tree.first_witness(&key) {
        Some(witness) => Ok(witness),
        None => Err(Refusal { number: 13, input: TREE_OR_PROOF, record: 0 }.into()),
    }
}

pub fn decide(profile: &[u8], question: &[u8], answer: usize) -> Result<Decision, Refusal> {
    check_answer(answer)?;
    let profile = read_profile(profile)?;
    let key = read_question(question, &profile.classes)?;
    let pattern = Pattern::of(&key);
    match verdict(&pattern, &profile) {
        Verdict::Implied => {
            let lines = proof(&key, &profile).expect("the argument's search agrees with the steps");
            Ok(Decision::Implied(write_proof(&lines)))
        }
        Verdict::NotImplied { u } => {
            let nodes = counterexample(&pattern, u, &profile);
            assert!(nodes.len() <= MOST_NODES, "a written tree of {} nodes", nodes.len());
            Ok(Decision::NotImplied(write_tree(&nodes, WIDE_NODE_KIND)))
        }
    }
}

pub fn list(profile: &[u8], tree: &[u8], k: u64, answer: usize) -> Result<Vec<u8>, Refusal> {
    check_answer(answer)?;
    let profile = read_profile(profile)?;
    let nodes = read_tree(tree, &profile)?;
    Ok(block(&nodes, &profile.classes, k))
}

/// The reduced profile, written, and the numbers of the dropped keys (02, request 3).
pub fn reduce(profile: &[u8], answer: usize) -> Result<(Vec<u8>, Vec<usize>), Refusal> {
    check_answer(answer)?;
    let (reduced, dropped) = reduction(&read_profile(profile)?);
    Ok((write_profile(&reduced), dropped))
}

/// A proof of the dropped key n from the final keys: "for a number not dropped a call gives 0 bytes".
pub fn prove_dropped(profile: &[u8], n: usize, answer: usize) -> Result<Vec<u8>, Refusal> {
    check_answer(answer)?;
    let found = dropped_key(&read_profile(profile)?, n);
    Ok(found.map_or(Vec::new(), |(reduced, key)| write_proof(&dropped_proof(&reduced, &key))))
}

/// What the proof of the dropped key n is checked against: the reduced profile, and the key's record as the question; none for
/// a number that was not dropped.
pub fn dropped_question(profile: &[u8], n: usize) -> Option<(Vec<u8>, Vec<u8>)> {
    let (reduced, key) = dropped_key(&read_profile(profile).ok()?, n)?;
    Some((write_profile(&reduced), key_record(&key)))
}

/// The record of the key that a line says (02, request 1): "17 not a line of the grammar, 18 name not in the profile or there with the
/// other class; they come with input 2 before 4, 17 first".
pub fn read_line(profile: &[u8], line: &[u8], answer: usize) -> Result<Vec<u8>, Refusal> {
    check_answer(answer)?;
    let profile = read_profile(profile)?;
    let found = read_text(line, &profile).and_then(|key| key_fault(&key, KEY_SIZES, &profile.classes).map_or(Ok(key), Err));
    found.map(|key| key_record(&key)).or_else(|number| refuse(number, QUESTION, 0))
}

pub fn write_line(profile: &[u8], question: &[u8], answer: usize) -> Result<Vec<u8>, Refusal> {
    check_answer(answer)?;
    let profile = read_profile(profile)?;
    let key = read_question(question, &profile.classes)?;
    Ok(print_typed(&typed_of(&profile.labels, &key)))
}

/// What is left of a damaged tree, written in records of its kind (02, request 7).
pub fn salvage(profile: &[u8], tree: &[u8], answer: usize) -> Result<Vec<u8>, Refusal> {
    check_answer(answer)?;
    let left = salvaged(tree, &read_profile(profile)?)?;
    Ok(write_tree(&left.nodes, left.kind))
}

/// Block k of the listing of what was dropped.
pub fn list_salvage(profile: &[u8], tree: &[u8], k: u64, answer: usize) -> Result<Vec<u8>, Refusal> {
    check_answer(answer)?;
    let profile = read_profile(profile)?;
    Ok(salvage_block(&salvaged(tree, &profile)?, &profile, k))
}

/// The report of a campaign (02, request 12): the names, the profile, and the inputs in the names' order (`campaign::framed`).
pub fn report(list: &[u8], profile: &[u8], segments: &[u8], answer: usize) -> Result<Vec<u8>, Refusal> {
    check_answer(answer)?;
    reported(list, profile, segments)
}
