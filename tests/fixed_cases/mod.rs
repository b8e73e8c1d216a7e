//! The fixed cases, by what they are about.
pub mod expectations;
pub mod notation;
pub mod programs;

mod bodies_and_paths;
mod campaigns;
mod chains;
mod counterexamples;
mod cuts;
mod decisions;
mod doubled;
mod drawn;
mod editions;
mod lean;
mod lines;
mod listings;
mod nodes;
mod order;
mod profiles;
mod proofs;
mod rules;
mod salvages;
mod texts;
mod trees;
mod trimmings;
mod witnesses;

use expectations::{Cases, Fixed};

/// All cases; each name is used once, so that a difference names its case.
pub fn all() -> Vec<Fixed> {
    let mut found = Vec::new();
    let topics: [(&'static str, &[fn(&mut Cases)]); 12] = [
        ("inputs", &[profiles::put, order::put, nodes::put, lines::put, bodies_and_paths::put, cuts::put]),
        ("trees", &[trees::put, listings::put]),
        ("checks", &[rules::put, proofs::put, counterexamples::put]),
        ("decisions", &[decisions::put, chains::put]),
        ("editions", &[editions::put]),
        ("doubled keys", &[doubled::put]),
        ("witnesses", &[witnesses::put]),
        ("lean profiles", &[lean::put]),
        ("trimmed proofs", &[trimmings::put]),
        ("keys in plain text", &[texts::put]),
        ("salvage", &[salvages::put]),
        ("campaigns", &[campaigns::put]),
    ];
    for (topic, parts) in topics.iter() {
        let mut cases = Cases::of(topic);
        parts.iter().for_each(|put| put(&mut cases));
        found.extend(cases.all);
    }
    let mut names: Vec<&str> = found.iter().map(|fixed| fixed.name.as_str()).collect();
    names.sort_unstable();
    if let Some(twice) = names.windows(2).find(|two| two[0] == two[1]) {
        panic!("two cases have the name {}", twice[0]);
    }
    found
}
