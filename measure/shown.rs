//! Inputs for `show`, `make` and `advise`: as large, and as dear, as they may be.
//!
//! shown FOLDER   writes NAME.profile, NAME.question and NAME.evidence for each of them
#![allow(dead_code)]
mod inputs;
#[path = "../tests/reference/mod.rs"]
mod reference;
mod trees;

use inputs::{full_profile, ladder, proof_of_contexts, proof_of_sets};
use reference::examples::{bench_profile, question};
use reference::paths::{Classes, ANY_PATH};
use reference::records::{key_record, write_profile, Key, Label, Profile, FIRST_EDITION, KEY_SIZES, PROFILE_KEYS, TREE_NODES};
use std::fs;
use std::path::Path;
use trees::{segment, segment_keys, twin_chains};

const ELEMENT: u8 = 1;
const FIRST_LABEL: u8 = 2;
const LABELS: u8 = 24;

/// The n-th pair of labels.
fn pair(n: usize) -> Vec<u8> {
    let width = LABELS as usize;
    vec![FIRST_LABEL + (n / width % width) as u8, FIRST_LABEL + (n % width) as u8]
}

/// 64 keys with 4 key paths each, no two the same, so that each is tried; their contexts are nowhere, so that none gives a step. Of the
/// question's target every cut is tried.
fn most_candidates() -> (Vec<u8>, Vec<u8>) {
    let labels = (FIRST_LABEL..FIRST_LABEL + LABELS).map(|number| Label { number, class: ELEMENT, name: format!("e{}", number).into_bytes() });
    let key = |n: usize| {
        let paths = (0..KEY_SIZES.count).map(|i| pair(KEY_SIZES.count * n + i)).collect();
        Key { context: pair(n), target: vec![ANY_PATH], paths }
    };
    let keys = (0..PROFILE_KEYS).map(key).collect();
    let profile = Profile { edition: FIRST_EDITION, labels: labels.collect(), keys, classes: Classes::none() };
    let target = (FIRST_LABEL..FIRST_LABEL + KEY_SIZES.path as u8).collect();
    let asked = Key { context: vec![], target, paths: vec![vec![FIRST_LABEL]] };
    (write_profile(&profile), key_record(&asked))
}

fn main() {
    let folder = std::env::args().nth(1).expect("usage: shown FOLDER");
    let put = |name: &str, kind: &str, bytes: &[u8]| {
        fs::write(Path::new(&folder).join(format!("{}.{}", name, kind)), bytes).expect("the folder takes files")
    };
    let put_all = |name: &str, inputs: [Vec<u8>; 3]| {
        for (kind, bytes) in ["profile", "question", "evidence"].iter().zip(inputs) {
            put(name, kind, &bytes);
        }
    };
    put("full", "profile", &full_profile());
    put_all("contexts", proof_of_contexts());
    put_all("sets", proof_of_sets());
    let (profile, asked) = ladder(PROFILE_KEYS, true);
    put_all("steps", [profile, asked, vec![]]);
    let keys = segment_keys();
    let keys: Vec<&str> = keys.iter().map(String::as_str).collect();
    put_all("segment", [bench_profile(&keys), question("(e,(port.frame,{@seq}))"), segment(TREE_NODES).bytes()]);
    put_all("chains", [bench_profile(&[]), question("(_*,(_*,{e}))"), twin_chains(TREE_NODES).bytes()]);
    let (profile, asked) = most_candidates();
    put_all("candidates", [profile, asked, vec![]]);
}
