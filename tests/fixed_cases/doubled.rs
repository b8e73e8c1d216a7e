//! 02, request 6: doubled keys. "A profile with two equal keys is to be refused at the later one": 15, "after 6 within the
//! record and before 8". Six labels stand before the keys, and in edition 2 one record more.
use super::expectations::Cases;
use super::notation::*;
use crate::reference::stream::Case;

pub fn put(cases: &mut Cases) {
    every_operation(cases);
    places(cases);
    with_other_faults(cases);
    not_equal(cases);
    other_inputs(cases);
}

const A: &str = "(e,(run,{@id}))";
const B: &str = "(run,(port,{@id}))";
const C: &str = "(e,(_*.frame,{@id,@seq}))";
const EDITION: &str = "05 00 06 00 02";

fn second(profile: &[u8]) -> Vec<u8> {
    joined(&[&hex(EDITION), profile])
}

/// A proof of A in one line.
fn cited() -> Vec<u8> {
    proof(&[&format!("0 0 - {}", A)])
}

/// Each operation that reads a profile, with other inputs that are accepted.
fn operations(profile: &[u8]) -> Vec<(&'static str, Case)> {
    let question = key(A);
    vec![
        ("rewriting", rewrite(profile)),
        ("inclusion", include(profile, &[2], &[0])),
        ("keeping", keep(profile, &question, &tree(ROOT))),
        ("proof check", check_proof(profile, &question, &cited())),
        ("tree check", check_tree(profile, &question, &tree(ROOT))),
        ("deciding", decide(profile, &question)),
        ("listing", list(profile, &tree(ROOT), 0)),
        ("trimming", trim(profile, &question, &cited())),
    ]
}

/// A, B, A is refused at the second A, before the next record's 1; of a refused profile no body is given.
fn every_operation(cases: &mut Cases) {
    let twice = profile(&[A, B, A]);
    let cut = joined(&[&twice, &[9]]);
    for (name, bytes, wanted) in [
        ("A, B, A", twice.clone(), "refused 15 1 8"),
        ("A, B, A, a torn record", cut.clone(), "refused 15 1 8"),
        ("edition 2, A, B, A", second(&twice), "refused 15 1 9"),
        ("edition 2, A, B, A, a torn record", second(&cut), "refused 15 1 9"),
    ] {
        for (operation, case) in operations(&bytes) {
            cases.put(&format!("{}: {}", operation, name), case, wanted);
        }
        for n in [0, 6, 7, 8, 9] {
            cases.put_bytes(&format!("body of record {}: {}", n, name), body(&bytes, n), "body", &[]);
        }
    }
    // Without the second A the same inputs are accepted.
    let wanted = ["rewritten", "included", "kept", "accepted", "refused 13 3 0", "implied", "listed", "trimmed"];
    let once = profile(&[A, B]);
    for ((operation, case), word) in operations(&once).into_iter().zip(wanted) {
        let name = format!("{}: A, B", operation);
        match word {
            "rewritten" => cases.put_bytes(&name, case, word, &once),
            "listed" => cases.put_bytes(&name, case, word, b"nodes 1\n0 - 203 -\n"),
            "trimmed" => cases.put_bytes(&name, case, word, &cited()),
            _ => cases.put(&name, case, word),
        }
    }
}

/// The later of the two is named, the earliest record that repeats a key.
fn places(cases: &mut Cases) {
    for (name, keys, wanted) in [
        ("A, A", vec![A, A], "refused 15 1 7"),
        ("A, A, A", vec![A, A, A], "refused 15 1 7"),
        ("A, B, B, A", vec![A, B, B, A], "refused 15 1 8"),
        ("A, B, C, B", vec![A, B, C, B], "refused 15 1 9"),
        ("A, B, C, C", vec![A, B, C, C], "refused 15 1 9"),
    ] {
        cases.put(&format!("doubled: {}", name), rewrite(&profile(&keys)), wanted);
        cases.put(&format!("doubled, and an empty question: {}", name), decide(&profile(&keys), &[]), wanted);
    }
    let none = key_of(&[], "(_*,(1,{e}))");
    cases.put("doubled without labels", rewrite(&none.repeat(2)), "refused 15 1 1");
    cases.put("doubled without labels, edition 2", rewrite(&second(&none.repeat(2))), "refused 15 1 2");
    let full = different(64, "(run,{@id}))");
    for (of, wanted) in [(0, "refused 15 1 69"), (31, "refused 15 1 69"), (62, "refused 15 1 69")] {
        let keys = [&full[..63], &full[of..of + 1]].concat();
        cases.put(&format!("key 63 is key {} again", of), rewrite(&profile_with(&keys)), wanted);
    }
    // "7 .. this key .. is one too many" comes first.
    for of in [0, 31, 63] {
        let keys = [&full[..], &full[of..of + 1]].concat();
        cases.put(&format!("key 64 is key {} again", of), rewrite(&profile_with(&keys)), "refused 7 1 70");
    }
    let both = [&full[..1], &full[..1], &full[2..], &full[1..2]].concat();
    cases.put("key 1 is key 0 again, and 65 keys", rewrite(&profile_with(&both)), "refused 15 1 7");
}

/// 1, 4 and 5 of the same record come first: what has them is not equal to a key that was accepted.
fn with_other_faults(cases: &mut Cases) {
    let one = profile(&[A]);
    for (name, bytes, wanted) in [
        ("a byte too few", "0a 00 02 00 00 01 02 01 01", "refused 1 1 7"),
        ("a byte left over", "0b 00 02 00 00 01 02 01 01 06 00", "refused 1 1 7"),
        ("the length less by one", "09 00 02 00 00 01 02 01 01 06", "refused 1 1 7"),
        ("kind 258", "0a 00 02 01 00 01 02 01 01 06", "refused 2 1 7"),
        ("a symbol not declared", "0a 00 02 00 00 01 c8 01 01 06", "refused 4 1 7"),
        ("a key path repeated", "0c 00 02 00 00 01 02 02 01 06 01 06", "refused 5 1 7"),
        ("none of it", "0a 00 02 00 00 01 02 01 01 06", "refused 15 1 7"),
    ] {
        cases.put(&format!("A again with {}", name), rewrite(&joined(&[&one, &hex(bytes)])), wanted);
    }
    cases.put("the same key paths in another order", rewrite(&profile(&[C, "(e,(_*.frame,{@seq,@id}))"])), "refused 5 1 7");
    let twice = profile(&[A, A]);
    cases.put("14 before 15", in_room(65_535, rewrite(&twice)), "refused 14 4 0");
    cases.put("15 before the next record's 4", rewrite(&profile(&[A, A, "(8,(e,{e}))"])), "refused 15 1 7");
    cases.put("6 of an earlier record before 15", rewrite(&profile(&[A, "(@id,(run,{e}))", A])), "refused 6 1 7");
    cases.put("15 before the question's 1", decide(&twice, &[]), "refused 15 1 7");
    cases.put("15 before the tree's 8", list(&twice, &[], 0), "refused 15 1 7");
    cases.put("15 before the proof's 7", check_proof(&twice, &key(A), &vec![0; 65_537]), "refused 15 1 7");
    cases.put("15 before a path's 4", include(&twice, &[8], &[8]), "refused 15 1 7");
}

/// Keys with other bodies, though they hold of the same trees.
fn not_equal(cases: &mut Cases) {
    for (name, keys) in [
        ("C.T in three ways", ["(run.port,(e,{@id}))", "(run,(port,{@id}))", "(e,(run.port,{@id}))"]),
        ("T.P in three ways", ["(e,(run,{port.@id}))", "(e,(run.port,{@id}))", "(e,(run.port.@id,{e}))"]),
        ("the any-path at the end of C, of T, and of both", ["(run._*,(port,{@id}))", "(run,(_*.port,{@id}))", "(run._*,(_*.port,{@id}))"]),
        ("one key path, the other, both", ["(e,(run,{@id}))", "(e,(run,{@seq}))", "(e,(run,{@id,@seq}))"]),
        ("one symbol less, one symbol other", ["(e,(run.run,{@id}))", "(e,(run,{@id}))", "(e,(run.port,{@id}))"]),
        ("one body begins the next", ["(e,(e,{e}))", "(e,(e,{e,run}))", "(e,(e,{e,run,port}))"]),
    ] {
        let whole = profile(&keys);
        cases.put_bytes(&format!("not equal: {}", name), rewrite(&whole), "rewritten", &whole);
    }
}

/// A question may be a key of the profile, and proof lines may repeat keys. "Key numbers in the proofs of accepted profiles are as before."
fn other_inputs(cases: &mut Cases) {
    let keys = profile(&[A, B]);
    cases.put("the question is key 1", decide(&keys, &key(B)), "implied");
    let cited = |number: u32| format!("0 {} - {}", number, B);
    cases.put("a proof line twice", check_proof(&keys, &key(B), &proof(&[&cited(1), &cited(1)])), "accepted");
    for (number, wanted) in [(0, "refused 9 3 0"), (1, "accepted"), (2, "refused 9 3 0")] {
        cases.put(&format!("B cited as key {}", number), check_proof(&keys, &key(B), &proof(&[&cited(number)])), wanted);
    }
}
