//! The order of refusals, and each fault of nodes and proof lines.
use crate::reference::operations::*;
use crate::reference::records::*;
use crate::{all, hex, simple_key, Tally, LA, LB, Q0, ROOM, ROOT_NODE};

/// One fault of each number in one record, then in two, and which is given.
pub fn order(tally: &mut Tally) {
    let labels = all(&[LA, LB]);
    let key = |context: &[u8], target: &[u8], paths: &[&[u8]]| {
        let paths = paths.iter().map(|path| path.to_vec()).collect();
        key_record(&Key { context: context.to_vec(), target: target.to_vec(), paths })
    };
    let of = |record: Vec<u8>| rewrite(&[labels.clone(), record].concat(), ROOM);
    tally.refused("6", of(key(&[6], &[2], &[&[]])), (6, 1, 2));
    tally.refused("6 by the empty path", of(key(&[], &[6], &[&[], &[2]])), (6, 1, 2));
    tally.refused("6, any-path after an attribute", of(key(&[6], &[0], &[&[]])), (6, 1, 2));
    tally.refused("4 before 6", of(key(&[6], &[9], &[&[]])), (4, 1, 2));
    tally.refused("5 before 6", of(key(&[6], &[2], &[&[2], &[]])), (5, 1, 2));
    tally.refused("repeated", of(key(&[], &[2], &[&[2], &[2]])), (5, 1, 2));
    tally.refused("4 before 5", of(key(&[9], &[2], &[&[2], &[]])), (4, 1, 2));
    tally.refused("4 in a path beyond the number", of(key(&[], &[], &[&[], &[2], &[2, 2], &[2, 2, 2], &[9]])), (4, 1, 2));
    tally.refused("0 in a key path", of(key(&[], &[], &[&[0]])), (4, 1, 2));
    tally.refused("doubled 0", of(key(&[0, 0], &[], &[&[]])), (4, 1, 2));
    tally.same("0 then 0 over the joint", of(key(&[0], &[0], &[&[]])).is_ok(), true);
    let mut long = key(&[9], &[2], &[&[2], &[]]);
    long[0] += 1;
    long.push(0);
    tally.refused("1 before 4", of(long), (1, 1, 2));
    let (one, other) = (key(&[], &[2], &[&[2]]), key(&[2], &[], &[&[2]]));
    tally.refused("15", of([one.clone(), one.clone()].concat()), (15, 1, 3));
    tally.refused("15, not next to each other", of([one.clone(), other.clone(), one.clone()].concat()), (15, 1, 4));
    tally.refused("15 before the next record", of([one.clone(), one.clone(), vec![9]].concat()), (15, 1, 3));
    tally.same("C.T in two ways", of([one, other].concat()).is_ok(), true);
    tally.refused("label after a key", of([key(&[], &[], &[&[]]), hex(LA)].concat()), (2, 1, 3));
    tally.refused("2 before 3", of([key(&[], &[], &[&[]]), hex("06 00 01 00 ff 09")].concat()), (2, 1, 3));
    tally.refused("1 before 2", of([key(&[], &[], &[&[]]), hex("05 00 01 00 ff")].concat()), (1, 1, 3));
    tally.refused("not ascending", of(hex("07 00 01 00 06 01 63")), (3, 1, 2));
    tally.refused("name used before", of(hex("07 00 01 00 07 01 61")), (3, 1, 2));
    tally.refused("class", of(hex("07 00 01 00 07 03 63")), (3, 1, 2));
    tally.refused("length under 4", of(hex("03 00 01 00 07 03 63")), (1, 1, 2));
    tally.refused("past the end", of(hex("08 00 01 00 07 01 63")), (1, 1, 2));
    tally.refused("3 bytes", of(hex("07 00 01")), (1, 1, 2));
    inputs_in_order(tally, &labels);
    nodes(tally, &labels);
    proof_lines(tally, &labels);
}

fn inputs_in_order(tally: &mut Tally, labels: &[u8]) {
    let bad = [9u8];
    let q0 = hex(Q0);
    tally.refused("profile first", keep(&bad, &bad, &bad), (1, 1, 0));
    tally.refused("then question", keep(labels, &bad, &bad), (1, 2, 0));
    tally.refused("then tree", keep(labels, &q0, &bad), (1, 3, 0));
    tally.refused("then proof", check_proof(labels, &q0, &bad), (1, 3, 0));
    tally.refused("profile, tree", list(&bad, &bad, 0, ROOM), (1, 1, 0));
    tally.refused("tree of a listing", list(labels, &bad, 0, ROOM), (1, 3, 0));
    tally.refused("question is a label", decide(labels, &hex(LA), ROOM), (2, 2, 0));
    tally.refused("question's faults before record 1", decide(labels, &[simple_key(vec![9]), bad.to_vec()].concat(), ROOM), (4, 2, 0));
    let twins = all(&[ROOT_NODE, "09 00 03 00 00 00 02 00 00", "09 00 03 00 00 00 02 00 00"]);
    let broken = |key: u32| Err(Objection { refusal: Refusal { number: 12, input: PROFILE, record: key }, witness: Some(vec![0, 1, 2, 1, 2]) });
    let profile = [labels, &simple_key(vec![0]), &simple_key(vec![2])].concat();
    tally.same("12 before 13", check_counterexample(&profile, &q0, &twins), broken(0));
    let profile = [labels, &q0, &simple_key(vec![6]), &simple_key(vec![2]), &simple_key(vec![0])].concat();
    tally.same("lowest key number", check_counterexample(&profile, &simple_key(vec![2]), &twins), broken(2));
}

fn nodes(tally: &mut Tally, labels: &[u8]) {
    let q0 = hex(Q0);
    let of = |text: &str| keep(labels, &q0, &all(&[ROOT_NODE, text]));
    tally.refused("root again", of("09 00 03 00 00 00 cb 00 00"), (8, 3, 1));
    tally.refused("undeclared", of("09 00 03 00 00 00 07 00 00"), (8, 3, 1));
    tally.refused("label 0", of("09 00 03 00 00 00 00 00 00"), (8, 3, 1));
    tally.refused("parent is itself", of("09 00 03 00 01 00 02 00 00"), (8, 3, 1));
    tally.refused("parent is none", of("09 00 03 00 ff ff 02 00 00"), (8, 3, 1));
    tally.refused("element with a value", of("09 00 03 00 00 00 02 01 00"), (8, 3, 1));
    tally.refused("filler with a value", of("09 00 03 00 00 00 c9 01 00"), (8, 3, 1));
    tally.refused("below an attribute", of("09 00 03 00 00 00 06 00 00 09 00 03 00 01 00 02 00 00"), (8, 3, 2));
    tally.refused("below text", of("09 00 03 00 00 00 01 00 00 09 00 03 00 01 00 06 00 00"), (8, 3, 2));
    tally.refused("below a filler attribute", of("09 00 03 00 00 00 ca 00 00 09 00 03 00 01 00 06 00 00"), (8, 3, 2));
    tally.refused("1 before 8", of("0a 00 03 00 09 00 cb 01 00 00"), (1, 3, 1));
    tally.refused("key in a tree", of(Q0), (2, 3, 1));
    tally.refused("body of 6", of("0a 00 03 00 00 00 02 00 00 00"), (1, 3, 1));
    tally.same("fillers", of("09 00 03 00 00 00 c9 00 00 09 00 03 00 01 00 ca ff ff"), Ok(None));
    let first = |text: &str| keep(labels, &q0, &hex(text));
    tally.refused("first is no root", first("09 00 03 00 ff ff 02 00 00"), (8, 3, 0));
    tally.refused("root's parent", first("09 00 03 00 00 00 cb 00 00"), (8, 3, 0));
    tally.refused("root's value", first("09 00 03 00 ff ff cb 01 00"), (8, 3, 0));
}

fn proof_lines(tally: &mut Tally, labels: &[u8]) {
    let q0 = hex(Q0);
    let of = |text: &str| check_proof(labels, &q0, &hex(text));
    tally.refused("9 before the next record", of("0d 00 04 00 02 00 00 ff ff 00 00 01 00 09"), (9, 3, 0));
    tally.refused("4 before 9", of("0e 00 04 00 02 00 00 ff ff 01 63 00 01 00"), (4, 3, 0));
    tally.refused("5 before 9", of("0c 00 04 00 02 00 00 ff ff 00 00 00"), (5, 3, 0));
    tally.refused("6 before 9", of("0f 00 04 00 02 00 00 ff ff 02 06 02 00 01 00"), (6, 3, 0));
    tally.refused("line without premises", of("08 00 04 00 02 00 00 ff"), (1, 3, 0));
    tally.refused("node in a proof", of(ROOT_NODE), (2, 3, 0));
    tally.refused("last is not the question", of("0e 00 04 00 01 ff ff ff ff 01 02 00 01 00"), (10, 3, 0));
    tally.refused("the record 10 gives", of("0d 00 04 00 01 ff ff ff ff 00 00 01 00 0e 00 04 00 01 ff ff ff ff 01 02 00 01 00"), (10, 3, 1));
}

const ED2: &str = "05 00 06 00 02";

/// The edition's record, and what it changes: 16 and rule 10.
pub fn editions(tally: &mut Tally) {
    let rewritten = |parts: &[&str]| rewrite(&all(parts), ROOM);
    tally.same("edition 2", rewritten(&[ED2, LA, LB]), Ok(all(&[ED2, LA, LB])));
    tally.same("edition 2, its body", body(&all(&[ED2, LA, LB]), 0).to_vec(), vec![2]);
    tally.refused("edition 1 by a record", rewritten(&["05 00 06 00 01", LA]), (3, 1, 0));
    tally.refused("edition 3 before the next record", rewritten(&["05 00 06 00 03", "09"]), (3, 1, 0));
    tally.refused("edition without byte", rewritten(&["04 00 06 00"]), (1, 1, 0));
    tally.refused("edition twice", rewritten(&[ED2, ED2]), (2, 1, 1));
    tally.refused("edition behind a label", rewritten(&[LA, ED2]), (2, 1, 1));
    tally.refused("records go on counting", rewritten(&[ED2, LA, LB, LB]), (3, 1, 3));
    let twice = [ROOT_NODE, "09 00 03 00 00 00 06 01 00", "09 00 03 00 00 00 06 02 00"];
    tally.refused("repeated", keep(&all(&[ED2, LA, LB]), &hex(Q0), &all(&twice)), (16, 3, 2));
    tally.same("repeated in edition 1", keep(&all(&[LA, LB]), &hex(Q0), &all(&twice)), Ok(None));
    let fillers = [ROOT_NODE, "09 00 03 00 00 00 ca 01 00", "09 00 03 00 00 00 ca 02 00"];
    tally.refused("repeated filler", keep(&all(&[ED2, LA, LB]), &hex(Q0), &all(&fillers)), (16, 3, 2));
    let (asked, line) = ("0a 00 02 00 01 02 01 06 01 00", "0f 00 04 00 0a ff ff ff ff 01 02 01 06 01 00");
    tally.same("rule 10", check_proof(&all(&[ED2, LA, LB]), &hex(asked), &hex(line)), Ok(()));
    tally.refused("rule 10 in edition 1", check_proof(&all(&[LA, LB]), &hex(asked), &hex(line)), (9, 3, 0));
}
