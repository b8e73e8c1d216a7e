//! The second implementation of document 01 and of the requests of 02 that have landed, written from the
//! documents alone (with the readings of docs/DECISIONS.md) and from no code or definition of the product,
//! so that a misunderstanding has to be made twice to stay unseen. Plain Rust, the standard library only.
//!
//! paths: words, joins, validity, inclusion · records: the inputs, checked from the front ·
//! trees: value equality, keys kept · witness: why a key is broken · rules: proof lines · decide: pattern, verdict, evidence ·
//! reduce: lean profiles · listing: blocks of lines · trim: shorter proofs · text: keys in plain text ·
//! salvage: what is left of a damaged tree · campaign: counts over a list of trees ·
//! operations: the public operations with all refusals in 01's order ·
//! shown, made, drawn, advice: what the programs `show`, `make` and `advise` print ·
//! generate, damage, derivations, typing, exports: random and damaged inputs · refute: trees against an implied question ·
//! cases, stream: the cases of a run and their frames.
#![allow(dead_code)]

pub mod advice;
pub mod campaign;
pub mod cases;
pub mod damage;
pub mod decide;
pub mod derivations;
pub mod drawn;
pub mod encode;
pub mod examples;
pub mod exports;
pub mod generate;
pub mod listing;
pub mod made;
pub mod operations;
pub mod paths;
pub mod random;
pub mod records;
pub mod reduce;
pub mod refute;
pub mod rules;
pub mod salvage;
pub mod shown;
pub mod stream;
pub mod text;
pub mod trees;
pub mod trim;
pub mod typing;
pub mod witness;

use self::stream::*;
use std::sync::atomic::{AtomicUsize, Ordering};

/// A comparison that cannot fail shows nothing. So the reference has lines that can be made wrong,
/// one at a time, by an argument of the program; 0 is the true reference.
static WRONG: AtomicUsize = AtomicUsize::new(0);

/// What each wrong line does, by its number less one, and the operations of whose answers in the
/// stream of seed 1 it changes some.
pub const WRONG_LINES: [(&[u8], &str); 33] = [
    (
        &[INCLUDE, KEEP, CHECK_PROOF, CHECK_TREE, DECIDE, REDUCE, DROPPED_PROOF, TRIM, SALVAGE_LISTING, CAMPAIGN],
        "membership: an any-path consumes at least one label",
    ),
    (&[INCLUDE], "inclusion: 201 and 202 are left out of the labels"),
    (&[KEEP, CHECK_TREE, SALVAGE_LISTING, CAMPAIGN], "value equality: attributes and other children are one list"),
    (&[KEEP, CHECK_TREE, SALVAGE_LISTING, CAMPAIGN], "tree test: two targets need only one key path in common"),
    (&[CHECK_PROOF, DECIDE, DROPPED_PROOF, TRIM], "rule 8 wants two key paths in the premise"),
    (&[CHECK_PROOF, TRIM], "rule 9 does not look at the second premise's context"),
    (&[DECIDE, REDUCE], "pattern: with the empty path, t alone is marked and not what lies below"),
    (&[DECIDE], "u is the highest node that leads to q, not the lowest"),
    (&[DECIDE], "second copy: the filler attribute of a marked node keeps its own number"),
    (
        &[
            REWRITE,
            INCLUDE,
            KEEP,
            CHECK_PROOF,
            CHECK_TREE,
            DECIDE,
            LIST,
            READ_LINE,
            WRITE_LINE,
            REDUCE,
            DROPPED_PROOF,
            TRIM,
            SALVAGE,
            SALVAGE_LISTING,
            CAMPAIGN,
        ],
        "records: 5 is given before 4",
    ),
    (&[LIST, SALVAGE_LISTING], "listing: a block has 1,023 lines"),
    (&[CHECK_TREE], "counterexample check: the first profile key alone is tried"),
    (&[BODY], "body: the first record has number 1"),
    (&[KEEP, CHECK_TREE, SALVAGE_LISTING, CAMPAIGN], "value equality: attributes in table order"),
    (&[KEEP, CHECK_TREE, SALVAGE_LISTING, CAMPAIGN], "value equality: values compared in their low two bytes"),
    (&[CHECK_PROOF, TRIM], "rule 10 in edition 1"),
    (&[KEEP, CHECK_TREE, LIST, SALVAGE, SALVAGE_LISTING, CAMPAIGN], "16 only for declared labels: 202 may be repeated"),
    (&[DECIDE, REDUCE, DROPPED_PROOF], "pattern of edition 2: an attribute steps to its parent only if that is q"),
    (
        &[
            REWRITE,
            BODY,
            INCLUDE,
            KEEP,
            CHECK_PROOF,
            CHECK_TREE,
            DECIDE,
            LIST,
            READ_LINE,
            WRITE_LINE,
            REDUCE,
            DROPPED_PROOF,
            TRIM,
            SALVAGE,
            SALVAGE_LISTING,
            CAMPAIGN,
        ],
        "15 looks at the key before alone",
    ),
    (&[KEEP, CHECK_TREE, SALVAGE_LISTING], "witness: the nearest context"),
    (&[KEEP, CHECK_TREE, SALVAGE_LISTING], "witness: pairs in the order of the way down"),
    (&[TRIM], "trimming: premises are not pointed to the earliest"),
    (&[TRIM], "trimming: ends at the last line with the question's key"),
    (&[REDUCE, DROPPED_PROOF], "reduction: from the first key to the last"),
    (&[REDUCE, DROPPED_PROOF], "reduction: a key is asked of the kept ones behind it alone, those before it are forgotten"),
    (&[READ_LINE], "text: 18 before 17"),
    (&[READ_LINE], "text: the class of a name is not asked"),
    (&[READ_LINE], "text: paths stay as typed"),
    (&[SALVAGE, SALVAGE_LISTING], "salvage: parents are read as new numbers"),
    (&[SALVAGE, SALVAGE_LISTING], "salvage: a dropped attribute counts for 16"),
    (&[SALVAGE, SALVAGE_LISTING], "salvage: stops at 2"),
    (&[CAMPAIGN], "campaign: a refused segment counts as broken"),
    (&[CAMPAIGN], "campaign: a repeated name counts once"),
];

pub fn choose_wrong_line(number: usize) {
    WRONG.store(number, Ordering::Relaxed);
}

pub fn wrong(number: usize) -> bool {
    WRONG.load(Ordering::Relaxed) == number
}
