//! 02, request 5: profiles of edition 2. The edition's record, repeated attributes, rule 10, and questions decided; where the
//! edition makes a difference, and where it makes none, the same input stands in edition 1 beside it.
use super::drawn;
use super::expectations::Cases;
use super::notation::*;
use crate::reference::stream::Case;

pub fn put(cases: &mut Cases) {
    edition_records(cases);
    edition_elsewhere(cases);
    counted_records(cases);
    bodies(cases);
    other_inputs(cases);
    repeated_attributes(cases);
    before_and_after_16(cases);
    tenth_rule(cases);
    longer_proofs(cases);
    implied_in_edition_2(cases);
    implied_by_keys(cases);
    not_implied_in_both(cases);
    eight_symbols(cases);
}

/// "A profile of edition 2 begins with a record of kind 6, one byte, 2".
const EDITION: &str = "05 00 06 00 02";

fn second(profile: &[u8]) -> Vec<u8> {
    joined(&[&hex(EDITION), profile])
}

/// The same case over a profile of edition 1 and of edition 2, and what each wants.
fn in_both(cases: &mut Cases, name: &str, profile: &[u8], make: impl Fn(&[u8]) -> Case, wanted: [&str; 2]) {
    cases.put(&format!("edition 1: {}", name), make(profile), wanted[0]);
    cases.put(&format!("edition 2: {}", name), make(&second(profile)), wanted[1]);
}

/// 3 for another edition byte, 1 for another body; the record is the first or none.
fn edition_records(cases: &mut Cases) {
    for (name, bytes, wanted) in [
        ("byte 0", "05 00 06 00 00", "refused 3 1 0"),
        ("byte 1", "05 00 06 00 01", "refused 3 1 0"),
        ("byte 3", "05 00 06 00 03", "refused 3 1 0"),
        ("byte 255", "05 00 06 00 ff", "refused 3 1 0"),
        ("without byte", "04 00 06 00", "refused 1 1 0"),
        ("two bytes", "06 00 06 00 02 00", "refused 1 1 0"),
        ("length 3", "03 00 06 00 02", "refused 1 1 0"),
        ("past the end", "05 00 06 00", "refused 1 1 0"),
        ("kind 262 is not kind 6", "05 00 06 01 02", "refused 2 1 0"),
    ] {
        cases.put(&format!("edition record, {}", name), rewrite(&hex(bytes)), wanted);
        let before_labels = joined(&[&hex(bytes), &labels(BENCH)]);
        if name != "past the end" {
            cases.put(&format!("edition record before labels, {}", name), rewrite(&before_labels), wanted);
        }
    }
    let whole = second(&profile(&["(e,(port.frame,{@seq}))"]));
    cases.put_bytes("edition record alone", rewrite(&hex(EDITION)), "rewritten", &hex(EDITION));
    cases.put_bytes("edition 2, labels and a key", rewrite(&whole), "rewritten", &whole);
    cases.put("edition byte 3 before a torn record", rewrite(&hex("05 00 06 00 03 09")), "refused 3 1 0");
    for (size, wanted) in [(16_384, "refused 3 1 0"), (16_385, "refused 7 1 0")] {
        let padded = joined(&[&hex("05 00 06 00 03"), &vec![0; size - 5]]);
        cases.put(&format!("edition byte 3 in {} bytes", size), rewrite(&padded), wanted);
    }
}

/// Elsewhere than at the front the record may not stand: its own 1, then 2, whatever its byte.
fn edition_elsewhere(cases: &mut Cases) {
    let key = key_of(&[], "(_*,(_*,{e}))");
    for (name, front, bytes, wanted) in [
        ("twice", hex(EDITION), EDITION, "refused 2 1 1"),
        ("again with another byte", hex(EDITION), "05 00 06 00 07", "refused 2 1 1"),
        ("again without byte", hex(EDITION), "04 00 06 00", "refused 1 1 1"),
        ("behind a label", label(2, 1, "a"), EDITION, "refused 2 1 1"),
        ("behind a label, two bytes", label(2, 1, "a"), "06 00 06 00 02 02", "refused 1 1 1"),
        ("behind a key", key.clone(), EDITION, "refused 2 1 1"),
        ("between labels and keys", labels(BENCH), EDITION, "refused 2 1 6"),
    ] {
        cases.put(&format!("edition record {}", name), rewrite(&joined(&[&front, &hex(bytes)])), wanted);
    }
    let late = joined(&[&key, &label(2, 1, "a")]);
    cases.put("edition 2, a label after a key", rewrite(&second(&late)), "refused 2 1 2");
}

/// "Records .. count from 0": the edition's record is one of them, and a key's number is not a record's.
fn counted_records(cases: &mut Cases) {
    let one = "(e,(run,{@id}))";
    for (name, bytes, wanted) in [
        ("label 203", joined(&[&labels(BENCH), &label(203, 1, "a")]), ["refused 3 1 6", "refused 3 1 7"]),
        ("a key's symbol", profile(&["(8,(e,{e}))"]), ["refused 4 1 6", "refused 4 1 7"]),
        ("a key's order", profile(&[one, "(e,(run,{run,e}))"]), ["refused 5 1 7", "refused 5 1 8"]),
        ("a torn record", joined(&[&labels(BENCH), &[9]]), ["refused 1 1 6", "refused 1 1 7"]),
        ("the 65th key", profile_with(&different(65, "(run,{@id}))")), ["refused 7 1 70", "refused 7 1 71"]),
    ] {
        in_both(cases, name, &bytes, rewrite, wanted);
    }
    let two = profile(&["(e,(port,{@id}))", one]);
    for (number, wanted) in [(0, "refused 9 3 0"), (1, "accepted"), (2, "refused 9 3 0")] {
        let cites = proof(&[&format!("0 {} - {}", number, one)]);
        in_both(cases, &format!("rule 0 cites key {}", number), &two, |all| check_proof(all, &key(one), &cites), [wanted, wanted]);
    }
    // 12 gives a key number: both runs have one @id, and no two ports stand there.
    let runs = tree("0 - 203 -/1 0 2 -/2 1 6 1/3 0 2 -/4 3 6 1");
    let wanted = ["refused 12 1 1 witness 0 1 3 2 4", "refused 12 1 1 witness 0 1 3 2 4"];
    in_both(cases, "the lowest broken key", &two, |all| check_tree(all, &key(one), &runs), wanted);
}

/// "Body lookup counts the edition record."
fn bodies(cases: &mut Cases) {
    let whole = second(&profile(&["(e,(run,{@id}))"]));
    for (n, wanted) in [(0, "02"), (1, "02 01 72 75 6e"), (6, "07 02 73 65 71"), (7, "00 01 02 01 01 06"), (8, "")] {
        cases.put_bytes(&format!("edition 2, body of record {}", n), body(&whole, n), "body", &hex(wanted));
    }
    cases.put_bytes("edition 3, body of record 0", body(&hex("05 00 06 00 03"), 0), "body", &[]);
}

/// Kind 6 is a known kind: its body first, then 2, in a question, a tree and a proof.
fn other_inputs(cases: &mut Cases) {
    let asked = key("(e,(e,{e}))");
    let (root, line) = (tree(ROOT), proof(&["1 - - (e,(e,{e}))"]));
    for (name, bytes, number) in [("one byte", EDITION, 2), ("two bytes", "06 00 06 00 02 02", 1)] {
        let edition = hex(bytes);
        let wanted = |input: u8, record: u8| format!("refused {} {} {}", number, input, record);
        let put = |cases: &mut Cases, what: &str, make: &dyn Fn(&[u8]) -> Case, wanted: String| {
            in_both(cases, &format!("kind 6 of {} {}", name, what), &labels(BENCH), make, [&wanted, &wanted]);
        };
        put(cases, "as question", &|all| decide(all, &edition), wanted(2, 0));
        put(cases, "behind the question", &|all| decide(all, &joined(&[&asked, &edition])), wanted(2, 1));
        put(cases, "as root", &|all| keep(all, &asked, &edition), wanted(3, 0));
        put(cases, "as node 1", &|all| list(all, &joined(&[&root, &edition]), 0), wanted(3, 1));
        put(cases, "as line 0", &|all| check_proof(all, &asked, &edition), wanted(3, 0));
        put(cases, "as line 1", &|all| check_proof(all, &asked, &joined(&[&line, &edition])), wanted(3, 1));
    }
}

/// "have each attribute name at most once under an element": 16 at the later one, for each operation that reads a tree.
fn repeated_attributes(cases: &mut Cases) {
    for (name, nodes, wanted) in [
        ("@id twice under an element", "0 - 203 -/1 0 2 -/2 1 6 1/3 1 6 2", "refused 16 3 3"),
        ("@id twice with one value", "0 - 203 -/1 0 2 -/2 1 6 1/3 1 6 1", "refused 16 3 3"),
        ("@id twice under the root", "0 - 203 -/1 0 6 1/2 0 6 2", "refused 16 3 2"),
        ("@id twice, a child between", "0 - 203 -/1 0 2 -/2 1 6 1/3 1 3 -/4 3 6 1/5 1 6 1", "refused 16 3 5"),
        ("@id of two elements in turns, then again", "0 - 203 -/1 0 3 -/2 0 3 -/3 2 6 1/4 1 6 1/5 2 6 2", "refused 16 3 5"),
        ("@id three times", "0 - 203 -/1 0 6 1/2 0 7 1/3 0 6 1/4 0 6 1", "refused 16 3 3"),
        ("two filler attributes", "0 - 203 -/1 0 202 1/2 0 202 2", "refused 16 3 2"),
        ("two filler attributes under a filler", "0 - 203 -/1 0 201 -/2 1 202 1/3 1 1 1/4 1 202 1", "refused 16 3 4"),
        ("@id under two elements", "0 - 203 -/1 0 3 -/2 1 6 1/3 0 3 -/4 3 6 1", "kept"),
        ("@id under an element and one below it", "0 - 203 -/1 0 2 -/2 1 6 1/3 1 3 -/4 3 6 1", "kept"),
        ("two names", "0 - 203 -/1 0 2 -/2 1 6 1/3 1 7 1/4 1 202 1", "kept"),
        ("two texts", "0 - 203 -/1 0 3 -/2 1 1 1/3 1 1 1", "kept"),
        ("two equal elements", "0 - 203 -/1 0 3 -/2 0 3 -/3 0 201 -/4 0 201 -", "kept"),
    ] {
        let (bench, question, nodes) = (labels(BENCH), key("(e,(run,{@id}))"), tree(nodes));
        in_both(cases, &format!("{} (keep)", name), &bench, |all| keep(all, &question, &nodes), ["kept", wanted]);
        if wanted != "kept" {
            let check = |all: &[u8]| check_tree(all, &question, &nodes);
            in_both(cases, &format!("{} (tree)", name), &bench, check, ["refused 13 3 0", wanted]);
            cases.put(&format!("edition 2: {} (list)", name), list(&second(&bench), &nodes, 0), wanted);
        }
    }
}

/// "16 repeated attribute, after 8", and records from the front.
fn before_and_after_16(cases: &mut Cases) {
    let (bench, question) = (labels(BENCH), key("(e,(run,{@id}))"));
    let repeated = tree("0 - 203 -/1 0 6 1/2 0 6 2");
    for (name, nodes, wanted) in [
        ("8 before 16: a second @id under an attribute", tree("0 - 203 -/1 0 6 1/2 1 7 1/3 1 7 1"), ["refused 8 3 2", "refused 8 3 2"]),
        ("8 in a later record", joined(&[&repeated, &hex("09 00 03 00 09 00 02 00 00")]), ["refused 8 3 3", "refused 16 3 2"]),
        ("a torn record behind it", joined(&[&repeated, &[9]]), ["refused 1 3 3", "refused 16 3 2"]),
        ("a key behind it", joined(&[&repeated, &question]), ["refused 2 3 3", "refused 16 3 2"]),
        ("8 in an earlier record", tree("0 - 203 -/1 0 2 1/2 0 6 1/3 0 6 1"), ["refused 8 3 1", "refused 8 3 1"]),
        ("2 in an earlier record", joined(&[&tree(ROOT), &question, &repeated]), ["refused 2 3 1", "refused 2 3 1"]),
    ] {
        in_both(cases, name, &bench, |all| keep(all, &question, &nodes), wanted);
    }
    let large = joined(&[&repeated, &vec![0; 36_864]]);
    in_both(cases, "the size before 16", &bench, |all| list(all, &large, 0), ["refused 7 3 0", "refused 7 3 0"]);
    let bad = key("(e,(@id,{run}))");
    in_both(cases, "the question before 16", &bench, |all| keep(all, &bad, &repeated), ["refused 6 2 0", "refused 6 2 0"]);
}

/// "a tenth rule accepts without premise any key whose target is a single attribute label"; "rule 10 in edition 1 is refused by 9".
fn tenth_rule(cases: &mut Cases) {
    for (name, line, wanted) in [
        ("@id under a port", "10 - - (port,(@id,{e}))", "accepted"),
        ("@seq under the root", "10 - - (e,(@seq,{e}))", "accepted"),
        ("any-path in the context", "10 - - (_*.port,(@id,{e}))", "accepted"),
        ("a first premise", "10 0 - (port,(@id,{e}))", "refused 9 3 0"),
        ("a second premise", "10 - 0 (port,(@id,{e}))", "refused 9 3 0"),
        ("premise 65534", "10 65534 - (port,(@id,{e}))", "refused 9 3 0"),
        ("an element before the attribute", "10 - - (e,(port.@id,{e}))", "refused 9 3 0"),
        ("any-path before the attribute", "10 - - (e,(_*.@id,{e}))", "refused 9 3 0"),
        ("an element", "10 - - (port,(frame,{e}))", "refused 9 3 0"),
        ("an element with an attribute below", "10 - - (port,(frame,{@id}))", "refused 9 3 0"),
        ("text", "10 - - (port,(#,{e}))", "refused 9 3 0"),
        ("any-path", "10 - - (port,(_*,{e}))", "refused 9 3 0"),
        ("an empty target", "10 - - (port,(e,{e}))", "refused 9 3 0"),
        ("an attribute as context", "10 - - (port.@id,(e,{e}))", "refused 9 3 0"),
        ("rule 11", "11 - - (port,(@id,{e}))", "refused 9 3 0"),
        ("rule 1 instead", "1 - - (port,(@id,{e}))", "refused 9 3 0"),
    ] {
        let (question, line) = (key(key_text(line)), proof(&[line]));
        let check = |all: &[u8]| check_proof(all, &question, &line);
        in_both(cases, &format!("rule 10: {}", name), &labels(BENCH), check, ["refused 9 3 0", wanted]);
    }
    // A line's 4, 5 and 6 come before its 9.
    let question = key("(port,(@id,{e}))");
    for (name, line, number) in [
        ("4", "10 - - (port,(202,{e}))", 4),
        ("5", "10 - - (port,(@id,{}))", 5),
        ("6", "10 - - (port,(@id,{e,stamp}))", 6),
    ] {
        let wanted = format!("refused {} 3 0", number);
        let check = |all: &[u8]| check_proof(all, &question, &proof(&[line]));
        in_both(cases, &format!("rule 10: {} before 9", name), &labels(BENCH), check, [&wanted, &wanted]);
    }
}

/// Lines behind one of rule 10. In edition 1 the first of them is refused.
fn longer_proofs(cases: &mut Cases) {
    let keys = ["(e,(port,{@id}))"];
    for (name, lines, wanted) in [
        ("and again by rule 7", &["10 - - (port,(@id,{e}))", "7 0 - (port,(@id,{e}))"][..], "accepted"),
        ("then a narrower context", &["10 - - (_*.port,(@id,{e}))", "5 0 - (run.port,(@id,{e}))"], "accepted"),
        ("then a wider context", &["10 - - (run.port,(@id,{e}))", "5 0 - (_*.port,(@id,{e}))"], "refused 9 3 1"),
        ("then its subnodes", &["10 - - (run,(@id,{e}))", "4 0 - (run,(e,{@id}))"], "accepted"),
        (
            "then interaction",
            &["10 - - (port,(@id,{e}))", "0 0 - (e,(port,{@id}))", "9 1 0 (e,(port.@id,{e}))"],
            "accepted",
        ),
        ("behind another line", &["1 - - (run,(e,{e}))", "10 - - (port,(@id,{e}))"], "accepted"),
        ("with that line as premise", &["1 - - (run,(e,{e}))", "10 0 - (port,(@id,{e}))"], "refused 9 3 1"),
    ] {
        let question = key(key_text(lines[lines.len() - 1]));
        let check = |all: &[u8]| check_proof(all, &question, &proof(lines));
        let in_first = if name.starts_with("behind") || name.starts_with("with") { "refused 9 3 1" } else { "refused 9 3 0" };
        in_both(cases, &format!("rule 10, {}", name), &profile(&keys), check, [in_first, wanted]);
    }
    let other = |all: &[u8]| check_proof(all, &key("(run,(@id,{e}))"), &proof(&["10 - - (port,(@id,{e}))"]));
    in_both(cases, "rule 10 for another question", &labels(BENCH), other, ["refused 9 3 0", "refused 10 3 0"]);
}

/// Not implied, with the tree that 01 fixes; in edition 2 the check accepts it under the same profile.
fn not_implied(cases: &mut Cases, name: &str, profile: &[u8], asked: &str, nodes: &str) {
    let (question, written) = (key(asked), wide_tree(nodes));
    cases.put_bytes(name, decide(profile, &question), "not implied", &written);
    cases.put(&format!("{}, its tree", name), check_tree(profile, &question, &written), "accepted");
}

/// Implied in edition 2 alone: "in the pattern an attribute node may step to its parent". The tree of edition 1 has the attribute twice
/// under one element, so that edition 2 refuses it.
fn implied_in_one(cases: &mut Cases, keys: &[&str], asked: &str, nodes: &str, repeated: u8) {
    let name = format!("{} asks {}", keys.join(" "), asked);
    let profile = profile(keys);
    not_implied(cases, &format!("edition 1: {}", name), &profile, asked, nodes);
    cases.put(&format!("edition 2: {}", name), decide(&second(&profile), &key(asked)), "implied");
    let wanted = format!("refused 16 3 {}", repeated);
    cases.put(&format!("edition 2: {}, the tree of edition 1", name), check_tree(&second(&profile), &key(asked), &wide_tree(nodes)), &wanted);
}

fn implied_in_edition_2(cases: &mut Cases) {
    implied_in_one(cases, &[], "(port,(@id,{e}))", drawn::M, 5);
    implied_in_one(cases, &[], "(_*,(@id,{e}))", "0 - 203 -/1 0 202 1/2 0 201 -/3 2 202 3/4 2 6 4/5 2 6 4", 5);
    implied_in_one(cases, &[], "(e,(@id,{e}))", "0 - 203 -/1 0 202 1/2 0 6 2/3 0 6 2", 3);
    let empty = |all: &[u8]| decide(all, &key("(port.@id,(e,{e}))"));
    in_both(cases, "an attribute as context of an empty target", &labels(BENCH), empty, ["implied", "implied"]);
}

/// The attribute's parent leads on by the profile's keys, which are all needed.
fn implied_by_keys(cases: &mut Cases) {
    let asked = "(e,(port.@id,{e}))";
    implied_in_one(cases, &["(e,(port,{@id}))"], asked, drawn::M, 5);
    let filler = "0 - 203 -/1 0 202 1/2 0 201 -/3 2 202 3/4 2 6 4/5 2 6 4";
    implied_in_one(cases, &["(e,(_*,{@id}))"], "(e,(_*.@id,{e}))", filler, 5);
    let (port, frame) = ("(e,(port,{frame.@id}))", "(port,(frame,{@id}))");
    let asked = "(e,(port.frame.@id,{e}))";
    let from_frame = "0 - 203 -/1 0 202 1/2 0 3 -/3 2 202 3/4 2 4 -/5 4 202 5/6 4 6 6/7 4 6 6";
    implied_in_one(cases, &[port, frame], asked, from_frame, 7);
    implied_in_one(cases, &[frame, port], asked, from_frame, 7);
    // Without the port's key u is the root, without the frame's it is the port.
    let from_root = "0 - 203 -/1 0 202 1/2 0 3 -/3 2 202 3/4 2 4 -/5 4 202 5/6 4 6 6/7 0 3 -/8 7 202 8/9 7 4 -/10 9 202 10/11 9 6 6";
    let from_port = "0 - 203 -/1 0 202 1/2 0 3 -/3 2 202 3/4 2 4 -/5 4 202 5/6 4 6 6/7 2 4 -/8 7 202 8/9 7 6 6";
    in_editions(cases, &[frame], asked, from_root);
    in_editions(cases, &[port], asked, from_port);
}

/// Not implied in either edition, with one tree.
fn in_editions(cases: &mut Cases, keys: &[&str], asked: &str, nodes: &str) {
    let name = format!("{} asks {}", keys.join(" "), asked);
    not_implied(cases, &format!("edition 1: {}", name), &profile(keys), asked, nodes);
    not_implied(cases, &format!("edition 2: {}", name), &second(&profile(keys)), asked, nodes);
}

fn not_implied_in_both(cases: &mut Cases) {
    let ports = "0 - 203 -/1 0 202 1/2 0 3 -/3 2 202 3/4 2 6 4/5 0 3 -/6 5 202 6/7 5 6 4";
    let fillers = "0 - 203 -/1 0 202 1/2 0 201 -/3 2 202 3/4 2 6 4/5 0 201 -/6 5 202 6/7 5 6 4";
    // The attribute's parent is not marked, and it leads nowhere.
    in_editions(cases, &["(e,(port,{e}))"], "(e,(port.@id,{e}))", ports);
    in_editions(cases, &[], "(e,(port.@id,{e}))", ports);
    in_editions(cases, &[], "(e,(_*.@id,{e}))", fillers);
    in_editions(cases, &["(e,(_*.port,{@id}))"], "(e,(_*.@id,{e}))", fillers);
    // Text is no attribute.
    in_editions(cases, &[], "(port,(#,{e}))", "0 - 203 -/1 0 202 1/2 0 3 -/3 2 202 3/4 2 1 4/5 2 1 4");
    // Two attributes under t, doubled with it.
    let two = "0 - 203 -/1 0 202 1/2 0 3 -/3 2 202 3/4 2 6 4/5 2 7 5/6 0 3 -/7 6 202 7/8 6 6 4/9 6 7 5";
    in_editions(cases, &[], "(e,(port,{@id,@seq}))", two);
    // u is q, and q is not the attribute's parent.
    let stamps = "0 - 203 -/1 0 202 1/2 0 3 -/3 2 202 3/4 2 4 -/5 4 202 5/6 4 5 -/7 6 202 7/8 6 6 8/9 4 5 -/10 9 202 10/11 9 6 8";
    in_editions(cases, &[], "(port.frame,(stamp.@id,{e}))", stamps);
    // The attributes at the ends of branches step to t and below it alone.
    let branches = "0 - 203 -/1 0 202 1/2 0 3 -/3 2 202 3/4 2 6 4/5 2 4 -/6 5 202 6/7 5 6 7/\
                    8 0 3 -/9 8 202 9/10 8 6 4/11 8 4 -/12 11 202 12/13 11 6 7";
    in_editions(cases, &[], "(e,(port,{@id,frame.@id}))", branches);
}

/// The largest tree, 8 symbols in C, in T and in each of 4 key paths: 18 nodes of the trunk, 80 in each copy. Each element is followed by
/// its filler attribute; the last of each branch is marked, so that its filler has the twin's value.
fn eight_symbols(cases: &mut Cases) {
    let of = |label: u8, count: usize| vec![label; count];
    let mut nodes: Vec<(Option<usize>, u8)> = vec![(None, 203)];
    let draw = |nodes: &mut Vec<(Option<usize>, u8)>, from: usize, path: &[u8]| {
        let mut last = from;
        for &label in path {
            nodes.push((Some(last), label));
            last = nodes.len() - 1;
        }
        last
    };
    let q = draw(&mut nodes, 0, &of(2, 8));
    let mut twins = Vec::new();
    for _ in 0..2 {
        let t = draw(&mut nodes, q, &of(3, 8));
        twins.push((2..=5).map(|last| draw(&mut nodes, t, &[of(2, 7), vec![last]].concat())).collect::<Vec<usize>>());
    }
    let mut lines = Vec::new();
    for (number, &(parent, label)) in nodes.iter().enumerate() {
        let above = parent.map_or("-".to_string(), |parent| (2 * parent).to_string());
        let marked = twins[1].iter().position(|&end| end == number);
        let value = 2 * marked.map_or(number, |branch| twins[0][branch]) + 1;
        lines.push(format!("{} {} {} -/{} {} 202 {}", 2 * number, above, label, 2 * number + 1, 2 * number, value));
    }
    let runs = ["run"; 7].join(".");
    let set = ["run", "port", "frame", "stamp"].map(|last| format!("{}.{}", runs, last)).join(",");
    let asked = format!("({}.run,({},{{{}}}))", runs, ["port"; 8].join("."), set);
    in_editions(cases, &[], &asked, &lines.join("/"));
}
