//! What 01 promises of the operations together, held on the reference alone.
use crate::reference::campaign::{kept_and_broken, outcome, refused_by_number, unread, Outcome as Counted};
use crate::reference::decide::proof;
use crate::reference::derivations::{derivation, padded};
use crate::reference::exports::export;
use crate::reference::generate::*;
use crate::reference::operations::*;
use crate::reference::random::Random;
use crate::reference::records::*;
use crate::reference::reduce::{is_implied, reduction, without};
use crate::reference::refute::search;
use crate::reference::rules::follows;
use crate::reference::salvage::{outcomes, salvaged, Outcome};
use crate::reference::text::{print_typed, read_typed};
use crate::reference::trees::Tree;
use crate::reference::trim::premises;
use crate::reference::typing::typed_line;
use std::collections::BTreeMap;

const DERIVED_LINES: usize = 6;
const SMALL_TREE: usize = 14;
/// So many of a profile's keys are tried by definition, which is slow.
const KEYS_BY_DEFINITION: usize = 3;
/// Of so many questions one tree at least has to break a key, and one proof to become shorter: what nobody finds is not compared.
const QUESTIONS_TO_A_FIND: usize = 10;
/// Of so many questions' profiles one key at least has to be dropped.
const QUESTIONS_TO_A_DROPPED_KEY: usize = 2;

/// What was compared: first witnesses, proofs that trimming made shorter, keys that reducing dropped, lines that were and were not read,
/// exports that were damaged and left something.
#[derive(Default)]
struct Finds {
    witnesses: usize,
    shorter: usize,
    dropped: usize,
    lines: usize,
    no_lines: usize,
    salvaged: usize,
}

pub fn is_consistent(seed: u64, count: usize) -> bool {
    let mut random = Random::new(seed);
    let mut counts: BTreeMap<String, usize> = BTreeMap::new();
    let mut failed = 0;
    let mut finds = Finds::default();
    for number in 0..count {
        let asked = asked(&mut random);
        let found = trees_and_lines(&mut random, &asked, &mut finds)
            .and_then(|_| trimming(&mut random, &asked, &mut finds))
            .and_then(|_| lean_profile(&mut random, &asked, &mut finds.dropped))
            .and_then(|_| plain_text(&mut random, &asked, &mut finds))
            .and_then(|_| salvaging(&mut random, &asked, &mut finds))
            .and_then(|_| counting(&mut random, &asked))
            .and_then(|_| decision(&mut random, &asked));
        if let Err(fault) = &found {
            failed += 1;
            println!("question {} of seed {}: {}", number, seed, fault);
        }
        *counts.entry(found.unwrap_or_else(|fault| fault)).or_insert(0) += 1;
    }
    let list: Vec<String> = counts.iter().map(|(name, count)| format!("{} {}", name, count)).collect();
    let Finds { witnesses, shorter, dropped, lines, no_lines, salvaged } = finds;
    println!("the reference itself: {} questions, {} fail: {}", count, failed, list.join(" · "));
    println!(
        "the reference itself: {} first witnesses, {} proofs made shorter, {} dropped keys, {} typed lines and {} that are none, {} trees \
         salvaged",
        witnesses, shorter, dropped, lines, no_lines, salvaged
    );
    let fewest = [witnesses, shorter, lines, no_lines, salvaged].into_iter().min();
    failed == 0 && fewest >= Some(count / QUESTIONS_TO_A_FIND) && dropped >= count / QUESTIONS_TO_A_DROPPED_KEY
}

/// Rewriting changes nothing, a written tree is read, value equality by numbers, the fast tree test and the fast search for the first
/// witness are the definitions, and no tree that keeps the profile breaks a line that follows. Counts the witnesses.
fn trees_and_lines(random: &mut Random, asked: &Asked, finds: &mut Finds) -> Result<(), String> {
    let profile = write_profile(&asked.profile);
    if rewrite(&profile, ANSWER_BYTES) != Ok(profile.clone()) {
        return Err("rewriting changes the profile".to_string());
    }
    let size = 1 + random.below(SMALL_TREE);
    let kind = node_kind(random);
    let nodes = tree_of_edition(random, &asked.world, size, kind);
    if read_tree(&write_tree(&nodes, kind), &asked.profile) != Ok(nodes.clone()) {
        return Err("a written tree is not read".to_string());
    }
    let table = Tree::new(&nodes, &asked.profile.classes);
    let differs = |x: usize, y: usize| (table.worth[x] == table.worth[y]) != table.is_equal_by_definition(x, y);
    if (0..nodes.len()).any(|x| (0..nodes.len()).any(|y| differs(x, y))) {
        return Err("value equality by numbers differs from the definition".to_string());
    }
    let near = key_on(random, &asked.world, &nodes);
    for key in asked.profile.keys.iter().take(KEYS_BY_DEFINITION).chain([&asked.question, &near]) {
        if table.keeps(key) != table.keeps_by_definition(key) {
            return Err("the fast tree test differs from the definition".to_string());
        }
        let witness = table.first_witness(key);
        if witness != table.first_witness_by_definition(key) || witness.is_none() != table.keeps(key) {
            return Err("the first witness differs from the definition".to_string());
        }
        finds.witnesses += witness.is_some() as usize;
    }
    let keeps_profile = asked.profile.keys.iter().all(|key| table.keeps(key));
    let lines = derivation(random, asked, DERIVED_LINES);
    for (number, line) in lines.iter().enumerate() {
        if !follows(line, &lines[..number], &asked.profile) {
            break;
        }
        if keeps_profile && !table.keeps(&line.key) {
            return Err(format!("a tree keeps the profile and breaks a line of rule {}", line.rule));
        }
    }
    Ok(())
}

/// 02, request 3: none of the kept keys follows from the others that are kept, reducing again changes nothing, each dropped key has a
/// proof from the kept ones, and a tree keeps all keys exactly when it keeps those. Counts the dropped keys.
fn lean_profile(random: &mut Random, asked: &Asked, count: &mut usize) -> Result<(), String> {
    let profile = related(random, asked);
    let (reduced, dropped) = reduction(&profile);
    *count += dropped.len();
    if (0..reduced.keys.len()).any(|n| is_implied(&reduced.keys[n], &without(&reduced, n))) {
        return Err("a kept key follows from the other kept ones".to_string());
    }
    let (bytes, written) = (write_profile(&profile), write_profile(&reduced));
    if reduce(&bytes, ANSWER_BYTES) != Ok((written.clone(), dropped.clone())) {
        return Err("the reduced profile is not what is written".to_string());
    }
    if reduce(&written, ANSWER_BYTES) != Ok((written.clone(), Vec::new())) {
        return Err("reducing the reduced profile changes it".to_string());
    }
    for n in 0..=profile.keys.len() {
        let found = prove_dropped(&bytes, n, ANSWER_BYTES).map_err(|_| "a good profile is refused".to_string())?;
        let is_proved = |key: &Key| check_proof(&written, &key_record(key), &found) == Ok(());
        if dropped.contains(&n) != profile.keys.get(n).map_or(false, is_proved) || dropped.contains(&n) == found.is_empty() {
            return Err("the proof of a dropped key is refused, or one that is kept has a proof".to_string());
        }
    }
    let nodes = tree_of_edition(random, &asked.world, SMALL_TREE, NODE_KIND);
    let table = Tree::new(&nodes, &profile.classes);
    let keeps = |profile: &Profile| profile.keys.iter().all(|key| table.keeps(key));
    if keeps(&profile) != keeps(&reduced) {
        return Err("a tree tells the reduced profile from the old one".to_string());
    }
    Ok(())
}

/// 02, request 1: "17 refuses exactly what is not one of its lines, a line has one reading, and what is written reads back as the same
/// key": what a line says, printed, is that line, and what is refused by 17 alone has no reading. A line of a key, its paths in any order,
/// is written again as the key's own line.
fn plain_text(random: &mut Random, asked: &Asked, finds: &mut Finds) -> Result<(), String> {
    let (profile, question) = (write_profile(&asked.profile), key_record(&asked.question));
    let line = write_line(&profile, &question, ANSWER_BYTES).map_err(|_| "a good question is not written".to_string())?;
    if read_line(&profile, &line, ANSWER_BYTES) != Ok(question) {
        return Err("what is written does not read back".to_string());
    }
    let typed = typed_line(random, &asked.profile.labels, &asked.question);
    let (reading, answer) = (read_typed(&typed), read_line(&profile, &typed, ANSWER_BYTES));
    let is_refused_by_17 = answer == refuse(17, QUESTION, 0);
    finds.lines += reading.is_some() as usize;
    finds.no_lines += reading.is_none() as usize;
    if reading.is_none() != is_refused_by_17 {
        return Err("17 refuses a line, or not what is none".to_string());
    }
    if reading.map_or(false, |key| print_typed(&key) != typed) {
        return Err("a line is read as another line".to_string());
    }
    if let Ok(record) = answer {
        let again = write_line(&profile, &record, ANSWER_BYTES);
        if again.and_then(|line| read_line(&profile, &line, ANSWER_BYTES)) != Ok(record) {
            return Err("a typed line's key does not read back".to_string());
        }
    }
    Ok(())
}

/// 02, request 7: what is left is a tree; "A sound file comes out the same, with an empty list; salvaging twice changes nothing more. Every
/// kept node has the label and value it had." The first dropped record is the one that the tree's reader refuses, by its reason, and what
/// stands below a dropped record is dropped.
fn salvaging(random: &mut Random, asked: &Asked, finds: &mut Finds) -> Result<(), String> {
    let profile = &asked.profile;
    let (_, bytes) = export(random, asked, SMALL_TREE);
    let (left, read) = match (salvaged(&bytes, profile), read_tree(&bytes, profile)) {
        (Err(_), Ok(_)) => return Err("a sound file is not salvaged".to_string()),
        (Err(_), Err(_)) => return Ok(()),
        (Ok(left), read) => (left, read),
    };
    finds.salvaged += !left.dropped.is_empty() as usize;
    let written = write_tree(&left.nodes, left.kind);
    if read_tree(&written, profile) != Ok(left.nodes.clone()) {
        return Err("what is left is no tree".to_string());
    }
    let first = left.dropped.first().map(|&(record, number)| Refusal { number, input: TREE_OR_PROOF, record: record as u32 });
    if read.clone().err() != first || (first.is_none() && written != bytes) {
        return Err("the first dropped record is not the one that is refused, or a sound file comes out otherwise".to_string());
    }
    if salvaged(&written, profile).map(|again| (again.nodes, again.dropped)) != Ok((left.nodes.clone(), Vec::new())) {
        return Err("salvaging twice changes something more".to_string());
    }
    let all = outcomes(&bytes, left.kind, profile);
    let is_kept = |record: u16| matches!(all.get(record as usize), Some(Outcome::Kept(_)));
    let kept: Vec<Node> = all.iter().filter_map(|each| if let Outcome::Kept(node) = each { Some(*node) } else { None }).collect();
    let same = |(old, new): (&Node, &Node)| old.label == new.label && old.value == new.value;
    if kept.len() != left.nodes.len() || !kept.iter().zip(&left.nodes).all(same) {
        return Err("a kept node has another label or value".to_string());
    }
    if kept.iter().skip(1).any(|node| !is_kept(node.parent)) {
        return Err("a node below a dropped record is kept".to_string());
    }
    Ok(())
}

/// 02, request 12: "for each key kept, broken, refused and unread together make the number of inputs"; and a key is kept by as many as keep
/// it by definition.
fn counting(random: &mut Random, asked: &Asked) -> Result<(), String> {
    let profile = &asked.profile;
    let inputs: Vec<Option<Vec<u8>>> = (0..random.below(5))
        .map(|_| if random.chance(1, 5) { None } else { Some(export(random, asked, SMALL_TREE).1) })
        .collect();
    let all: Vec<Counted> = inputs.iter().map(|segment| outcome(segment.as_deref(), profile)).collect();
    let apart = refused_by_number(&all).iter().map(|(_, count)| count).sum::<usize>() + unread(&all);
    for (number, key) in profile.keys.iter().enumerate().take(KEYS_BY_DEFINITION) {
        let (kept, broken) = kept_and_broken(&all, number);
        if kept + broken + apart != inputs.len() {
            return Err("the counts of a key do not make the number of inputs".to_string());
        }
        let read = inputs.iter().flatten().filter_map(|bytes| read_tree(bytes, profile).ok());
        let keeping = read.filter(|nodes| Tree::new(nodes, &profile.classes).keeps_by_definition(key)).count();
        if keeping != kept {
            return Err("a count is not that of the inputs that keep the key".to_string());
        }
    }
    Ok(())
}

/// 02, request 10: "The result is accepted for the same profile and question, no line in it is unused, no key occurs twice, and trimming it
/// again gives the same bytes"; "The key numbers that rule 0 cites stay"; a proof that is not accepted is refused as the check refuses it.
fn trimming(random: &mut Random, asked: &Asked, finds: &mut Finds) -> Result<(), String> {
    let lines = match evidence(asked) {
        Evidence::Proof(lines) if random.chance(1, 2) => lines,
        _ => derivation(random, asked, DERIVED_LINES),
    };
    let last = lines.last().map_or(&asked.question, |line| &line.key);
    let (profile, question) = (write_profile(&asked.profile), key_record(last));
    let all = padded(random, asked, &lines);
    let proof = write_proof(&all);
    let left = match (check_proof(&profile, &question, &proof), trim(&profile, &question, &proof, ANSWER_BYTES)) {
        (Err(one), Err(other)) if one == other => return Ok(()),
        (Ok(()), Ok(left)) => left,
        _ => return Err("trimming refuses otherwise than the proof check".to_string()),
    };
    finds.shorter += (left.len() < proof.len()) as usize;
    if check_proof(&profile, &question, &left) != Ok(()) {
        return Err("a trimmed proof is refused".to_string());
    }
    let kept = read_proof(&left, &asked.profile.classes, &|_, _| true).map_err(|_| "a trimmed proof is not read".to_string())?;
    let is_used = |at: usize| at + 1 == kept.len() || kept[at + 1..].iter().any(|line| premises(line).contains(&at));
    if !(0..kept.len()).all(is_used) {
        return Err("a trimmed proof has a line that nothing uses".to_string());
    }
    if (0..kept.len()).any(|at| kept[..at].iter().any(|line| line.key == kept[at].key)) {
        return Err("a trimmed proof has a key twice".to_string());
    }
    if kept.iter().any(|line| line.rule == 0 && !all.contains(line)) {
        return Err("a trimmed proof cites another key".to_string());
    }
    if trim(&profile, &question, &left, ANSWER_BYTES) != Ok(left.clone()) {
        return Err("trimming again changes the proof".to_string());
    }
    Ok(())
}

/// The evidence is accepted, both searches for steps agree, and the search for a tree against the question
/// finds none where it is implied and one where it is not: a search that finds nothing shows nothing.
fn decision(random: &mut Random, asked: &Asked) -> Result<String, String> {
    let (profile, question) = (write_profile(&asked.profile), key_record(&asked.question));
    let is_refuted = search(random, &asked.profile, &asked.question).found.is_some();
    match decide(&profile, &question, ANSWER_BYTES) {
        Ok(Decision::Implied(proof)) => {
            if check_proof(&profile, &question, &proof) != Ok(()) {
                return Err("the proof is refused".to_string());
            }
            if is_refuted {
                return Err("a tree refutes an implied question".to_string());
            }
            Ok("implied".to_string())
        }
        Ok(Decision::NotImplied(tree)) => {
            if check_counterexample(&profile, &question, &tree).is_err() {
                return Err("the counterexample is refused".to_string());
            }
            if !is_refuted {
                return Err("the search for trees misses a question that is not implied".to_string());
            }
            if proof(&asked.question, &asked.profile).is_some() {
                return Err("the argument's search differs from the steps".to_string());
            }
            Ok("not implied".to_string())
        }
        Err(_) => Err("a good question is refused".to_string()),
    }
}
