//! The cases of the table.
use crate::cases::{Case, Operation};
use crate::inputs::{bare_path_any, bare_path_of, bare_path_other, full_profile, ladder, proof_of_contexts, proof_of_sets};
use crate::reference::examples::{bench_profile, question};
use crate::reference::operations::{decide, Decision};
use crate::reference::records::{ANSWER_BYTES, PROFILE_KEYS, TREE_NODES};
use crate::trees::*;

const RUN: u8 = 2;
const PORT: u8 = 3;
const FEW_NODES: usize = 512;
const EVERYWHERE: &str = "(_*,(_*,{e}))";
const EQUAL_AND_DIFFERENT: &str = "(_*,(_*,{@id,@seq}))";
/// 8 symbols: membership calls itself for each label and each symbol.
const DEEP_TARGET: &str = "(e,(_*.run._*.run._*.run._*.run,{e}))";
const DEEP_CONTEXT: &str = "(_*.run._*.run._*.run._*.run,(_*,{e}))";
const NO_TARGET: &str = "(_*,(_*.port,{e}))";
const IN_A_PORT: &str = "(port,(frame,{@seq}))";
const BELOW_A_RUN: &str = "(run.port,(frame,{@seq}))";
const IN_THE_TREE: &str = "(e,(port.frame,{@seq}))";
const FOUR_PATHS: &str = "(e,(frame,{@id,@seq,stamp.@id,stamp.@seq}))";
const ELEMENTS: [&str; 4] = ["run", "port", "frame", "stamp"];
const BLOCKS: [usize; 2] = [0, 4];

/// A profile with as many keys as it may have.
fn full_of(keys: Vec<String>) -> Vec<u8> {
    let words: Vec<&str> = keys.iter().map(String::as_str).collect();
    assert_eq!(words.len(), PROFILE_KEYS);
    bench_profile(&words)
}

fn segment_profile() -> Vec<u8> {
    full_of(segment_keys())
}

fn profiles() -> Vec<Case> {
    let rewrite = |input, profile| Case::new(Operation::Rewrite, input, [profile, vec![], vec![]], "rewritten");
    vec![
        rewrite("64 keys, 6 labels", segment_profile()),
        rewrite("64 keys of full size, 199 labels of 32 bytes", full_profile()),
    ]
}

fn inclusions() -> Vec<Case> {
    let include = |input, p, q, wanted| Case::new(Operation::Include, input, [bench_profile(&[]), p, q], wanted);
    vec![
        include("32 labels in 16 any-paths", bare_path_of(RUN), bare_path_any(RUN), "included"),
        include("16 any-paths in 16 any-paths", bare_path_any(RUN), bare_path_any(RUN), "included"),
        include("the same, last label another", bare_path_any(RUN), bare_path_other(RUN, PORT), "not included"),
    ]
}

/// Name, question, tree and the verdict, which stands derived by hand beside it.
type TreeCase = (&'static str, &'static str, fn(usize) -> Table, &'static str);

const TREE_CASES: [TreeCase; 16] = [
    // Frames of two ports agree, and no port reaches both; below one port @seq differs.
    ("segment, one key", IN_A_PORT, segment, "kept"),
    // No two elements of a chain have equally many nodes below them.
    ("chain, {.}", EVERYWHERE, chain, "kept"),
    // The tops of the chains are equal, and the root reaches both.
    ("twin chains, {.}", EVERYWHERE, twin_chains, "broken"),
    // "some one-to-one pairing": so are the elements with many attributes at their ends.
    ("fat twin chains, {.}", EVERYWHERE, fat_twin_chains, "broken"),
    // Two teeth without anything below them are equal, and the root reaches both.
    ("comb of equal teeth, {.}", EVERYWHERE, comb_of_equal, "broken"),
    // No two teeth are equal, and no two elements have equally many nodes below them.
    ("comb of different teeth, {.}", EVERYWHERE, comb_of_different, "kept"),
    ("star of equal leaves, {.}", EVERYWHERE, star_of_equal, "broken"),
    ("star of different leaves, {.}", EVERYWHERE, star_of_different, "kept"),
    // All agree on @id and no two on @seq; the root and the attributes themselves have neither.
    ("chain, {@id,@seq}", EQUAL_AND_DIFFERENT, dressed_chain, "kept"),
    ("comb, {@id,@seq}", EQUAL_AND_DIFFERENT, dressed_comb, "kept"),
    ("star, {@id,@seq}", EQUAL_AND_DIFFERENT, dressed_star, "kept"),
    // There is no port.
    ("broom, {.}", NO_TARGET, broom, "kept"),
    // No two @seq are equal.
    ("two fans, {@id,@seq}", EQUAL_AND_DIFFERENT, fans, "kept"),
    // All frames agree, and each has a port of its own as its only context.
    ("ports of one frame, {@seq}", IN_A_PORT, ports_of_one, "kept"),
    // No two frames have the same four digits: there are fewer than 6 * 6 * 6 * 6.
    ("grid, {@id,@seq,stamp.@id,stamp.@seq}", FOUR_PATHS, grid, "kept"),
    // Two frames that share an @id share no @seq, and the other way round.
    ("shared by half, {@id,@seq}", EQUAL_AND_DIFFERENT, shared_by_half, "kept"),
];

fn keep((name, key, tree, wanted): TreeCase, nodes: usize) -> Case {
    let tree = tree(nodes);
    let input = format!("{}, {} nodes", name, tree.nodes.len());
    Case::new(Operation::Keep, input, [bench_profile(&[]), question(key), tree.bytes()], wanted)
}

fn tree_tests() -> Vec<Case> {
    TREE_CASES.into_iter().flat_map(|case| [TREE_NODES, FEW_NODES].map(|nodes| keep(case, nodes))).collect()
}

/// Not timed: trees and keys that make the recursions go deepest. The ends of the forked chain are equal, and the root reaches both.
pub fn deep_cases() -> Vec<Case> {
    let check = |input, keys: &[&str], asked, tree: Table, wanted| {
        Case::new(Operation::CheckCounterexample, input, [bench_profile(keys), question(asked), tree.bytes()], wanted)
    };
    let forked = || forked_chain(TREE_NODES);
    vec![
        keep(("forked chain, target of 8 symbols", DEEP_TARGET, forked_chain, "broken"), TREE_NODES),
        keep(("forked chain, context of 8 symbols", DEEP_CONTEXT, forked_chain, "broken"), TREE_NODES),
        check("forked chain, target of 8 symbols", &[DEEP_TARGET], DEEP_TARGET, forked(), "refused"),
        check("forked chain, context of 8 symbols", &[DEEP_CONTEXT], DEEP_CONTEXT, forked(), "refused"),
        check("twin chains", &[], EVERYWHERE, twin_chains(TREE_NODES), "accepted"),
    ]
}

/// 64 keys of any-paths, no two of them equal, under a context that a chain of runs never has: it ends in a port.
fn any_path_keys() -> Vec<String> {
    let words = || ELEMENTS.into_iter();
    let targets = words().flat_map(|a| words().flat_map(move |b| words().map(move |c| format!("_*.{}.{}.{}", a, b, c))));
    targets.map(|target| format!("(_*.run._*.run._*.run._*.port,({},{{e}}))", target)).collect()
}

/// There is no port, so the keys are kept; the ends of the forked chain are equal, and the root reaches both.
fn any_paths_on_a_chain() -> Case {
    let tree = forked_chain(TREE_NODES);
    let input = format!("forked chain, 64 keys of any-paths, {} nodes", tree.nodes.len());
    let inputs = [full_of(any_path_keys()), question(EVERYWHERE), tree.bytes()];
    Case::new(Operation::CheckCounterexample, input, inputs, "accepted")
}

/// The segment keeps the keys, and breaks the question: @seq 0 stands in two ports.
fn counterexamples() -> Vec<Case> {
    let tree = segment(TREE_NODES);
    let check = |input: &str, profile| {
        let input = format!("segment, {}, {} nodes", input, tree.nodes.len());
        Case::new(Operation::CheckCounterexample, input, [profile, question(IN_THE_TREE), tree.bytes()], "accepted")
    };
    vec![check("one key", bench_profile(&[IN_A_PORT])), check("64 keys", segment_profile()), any_paths_on_a_chain()]
}

/// The reference's own proof of a question with 8 steps.
fn proof_of_steps() -> [Vec<u8>; 3] {
    let (profile, question) = ladder(PROFILE_KEYS, true);
    match decide(&profile, &question, ANSWER_BYTES) {
        Ok(Decision::Implied(proof)) => [profile, question, proof],
        _ => panic!("the ladder's question is implied"),
    }
}

fn proofs() -> Vec<Case> {
    let check = |input, inputs| Case::new(Operation::CheckProof, input, inputs, "accepted");
    vec![
        check("256 lines, contexts of 32 symbols", proof_of_contexts()),
        check("256 lines, 48 key paths", proof_of_sets()),
        check("64 keys, the proof of 8 steps", proof_of_steps()),
    ]
}

/// The segment's keys hold for a port wherever it stands, and tell frames apart by @seq in one port alone.
fn decisions_of_the_segment() -> Vec<Case> {
    let decide = |typed, asked, wanted| {
        Case::new(Operation::Decide, format!("64 keys of the segment, {}", typed), [segment_profile(), question(asked), vec![]], wanted)
    };
    vec![
        decide("(run.port, (frame, {@seq}))", BELOW_A_RUN, "implied"),
        decide("(., (port.frame, {@seq}))", IN_THE_TREE, "not implied"),
    ]
}

fn decisions() -> Vec<Case> {
    let mut cases = decisions_of_the_segment();
    for (keys, input) in [(1, "1 key, 1 step"), (8, "8 keys, 8 steps"), (PROFILE_KEYS, "64 keys, 8 steps, 56 keys idle")] {
        for (implied, wanted) in [(true, "implied"), (false, "not implied")] {
            let (profile, question) = ladder(keys, implied);
            cases.push(Case::new(Operation::Decide, input, [profile, question, vec![]], wanted));
        }
    }
    cases
}

/// Each key is asked of those still there: a search for each.
fn reductions() -> Vec<Case> {
    let reduce = |input, profile| Case::new(Operation::Reduce, input, [profile, vec![], vec![]], "reduced");
    vec![
        reduce("64 keys of the segment", segment_profile()),
        reduce("8 keys of 8 steps", ladder(8, true).0),
        reduce("64 keys, 8 steps, 56 keys idle", ladder(PROFILE_KEYS, true).0),
    ]
}

fn trimmings() -> Vec<Case> {
    let trim = |input, inputs| Case::new(Operation::Trim, input, inputs, "trimmed");
    vec![
        trim("256 lines, contexts of 32 symbols", proof_of_contexts()),
        trim("256 lines, 48 key paths", proof_of_sets()),
        trim("64 keys, the proof of 8 steps", proof_of_steps()),
    ]
}

fn listings() -> Vec<Case> {
    let list = |block| {
        let input = format!("block {} of a chain of 4096 nodes", block);
        let inputs = [bench_profile(&[]), chain(TREE_NODES).bytes(), vec![]];
        Case { block, ..Case::new(Operation::ListBlock, input, inputs, "listed") }
    };
    BLOCKS.into_iter().map(list).collect()
}

pub fn cases() -> Vec<Case> {
    [profiles(), inclusions(), tree_tests(), counterexamples(), proofs(), decisions(), listings(), reductions(), trimmings()].into_iter().flatten().collect()
}
