//! Inputs: sound inputs cut at every byte. The rule is the same for each: a cut at a record's end leaves whole records, any other
//! cut leaves a last record that is shorter than 4 or runs past the end, which is 1 at that record.
use super::bodies_and_paths::SMALL;
use super::expectations::Cases;
use super::notation::*;

pub fn put(cases: &mut Cases) {
    profile_cuts(cases);
    question_cuts(cases);
    tree_cuts(cases, KIND_3);
    tree_cuts(cases, KIND_5);
    proof_cuts(cases);
}

/// "An empty profile is accepted", labels alone too, and so is each number of the keys.
fn profile_cuts(cases: &mut Cases) {
    let small = hex(SMALL);
    let ends = [0, 7, 15, 25, 38];
    assert_eq!(small.len(), 38);
    for cut in 0..=38 {
        let kept = &small[..cut];
        let name = format!("profile cut at {}", cut);
        // The record that the cut leaves unfinished comes after those that end before it.
        let whole = ends.iter().filter(|&&end| end > 0 && end <= cut).count();
        let third = if cut >= 25 { "00 01 02 01 01 06" } else { "" };
        if ends.contains(&cut) {
            cases.put_bytes(&name, rewrite(kept), "rewritten", kept);
            cases.put_bytes(&format!("{}: body of record 2", name), body(kept, 2), "body", &hex(third));
        } else {
            cases.put(&name, rewrite(kept), &format!("refused 1 1 {}", whole));
            cases.put_bytes(&format!("{}: body of record 0", name), body(kept, 0), "body", &[]);
        }
    }
}

/// "question is empty" is 1 as well.
fn question_cuts(cases: &mut Cases) {
    let question = key("(port,(_*.frame,{stamp,@seq}))");
    assert_eq!(question.len(), 14);
    for cut in 0..14 {
        cases.put(&format!("question cut at {}", cut), decide(&labels(BENCH), &question[..cut]), "refused 1 2 0");
    }
    cases.put("question not cut", decide(&labels(BENCH), &question), "not implied 198");
}

/// Six nodes of 9 or of 11 bytes. An empty tree is 8.
fn tree_cuts(cases: &mut Cases, of: NodeKind) {
    let lines = ["0 - 203 -", "1 0 3 -", "2 1 6 0", "3 1 4 -", "4 3 1 258", "5 0 202 65535"];
    let whole = of.tree(&lines.join("/"));
    assert_eq!(whole.len(), 6 * of.bytes);
    let (labels, question) = (labels(BENCH), key("(e,(port,{@id}))"));
    for cut in 0..=whole.len() {
        let kept = &whole[..cut];
        let name = format!("tree of kind {} cut at {}", of.kind, cut);
        let nodes = cut / of.bytes;
        let refused = if cut == 0 { "refused 8 3 0".to_string() } else { format!("refused 1 3 {}", nodes) };
        if cut > 0 && cut % of.bytes == 0 {
            let listed = format!("nodes {}\n{}\n", nodes, lines[..nodes].join("\n"));
            cases.put(&format!("{} (keep)", name), keep(&labels, &question, kept), "kept");
            cases.put(&format!("{} (tree)", name), check_tree(&labels, &question, kept), "refused 13 3 0");
            cases.put_bytes(&format!("{} (list)", name), list(&labels, kept, 0), "listed", listed.as_bytes());
        } else {
            cases.put(&format!("{} (keep)", name), keep(&labels, &question, kept), &refused);
            cases.put(&format!("{} (tree)", name), check_tree(&labels, &question, kept), &refused);
            cases.put(&format!("{} (list)", name), list(&labels, kept, 0), &refused);
        }
    }
}

/// Three lines of 15 bytes; the second has the question's key already. An empty proof is 10.
fn proof_cuts(cases: &mut Cases) {
    let asked = "(e,(e,{port.@id}))";
    let profile = profile(&["(e,(port,{@id}))"]);
    let lines = proof(&["0 0 - (e,(port,{@id}))", "4 0 - (e,(e,{port.@id}))", "3 1 - (e,(e,{port.@id}))"]);
    assert_eq!(lines.len(), 45);
    for cut in 0..=45 {
        let wanted = match cut {
            0 => "refused 10 3 0".to_string(),
            15 => "refused 10 3 0".to_string(),
            30 | 45 => "accepted".to_string(),
            _ => format!("refused 1 3 {}", cut / 15),
        };
        cases.put(&format!("proof cut at {}", cut), check_proof(&profile, &key(asked), &lines[..cut]), &wanted);
    }
}
