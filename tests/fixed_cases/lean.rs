//! 02, request 3: lean profiles. "Go from the last key to the first and drop a key when it is implied by those still there"; "for a number
//! not dropped a call gives 0 bytes". The bench labels are 58 bytes; a proof is checked against the reduced profile, whose numbers it
//! cites.
use super::expectations::Cases;
use super::notation::*;

pub fn put(cases: &mut Cases) {
    tables(cases);
    one_label(cases);
    editions(cases);
    many_keys(cases);
    refusals(cases);
}

const RUN: &str = "(e,(port.frame,{@seq}))";
const ANY: &str = "(e,(_*.frame,{@seq}))";
const PORT: &str = "(port,(frame,{@seq}))";
const PORTS: &str = "(e,(port,{frame.@seq}))";
const TRIVIAL: &str = "(run,(e,{@id}))";
const ATTRIBUTE: &str = "(run,(@id,{e}))";
const EDITION: &str = "05 00 06 00 02";

/// Name, keys, the numbers of the dropped ones as the line has them, and those that are kept.
const TABLE: [(&str, &[&str], &str, &[&str]); 12] = [
    ("b, a", &[PORT, RUN], "0", &[RUN]),
    ("a, b", &[RUN, PORT], "1", &[RUN]),
    // Key 2 is dropped while key 0 is there, key 0 after it.
    ("the first is needed for a while", &[RUN, ANY, PORT], "0,2", &[ANY]),
    ("f and its question", &[PORTS, PORT, RUN], "2", &[PORTS, PORT]),
    // Two of them give the third both ways: which is looked at first decides.
    ("the question of f first", &[RUN, PORTS, PORT], "1,2", &[RUN]),
    ("the question of f between", &[PORTS, RUN, PORT], "0,2", &[RUN]),
    ("an empty target", &[TRIVIAL], "0", &[]),
    ("f", &[PORTS, PORT], "-", &[PORTS, PORT]),
    ("i", &[RUN], "-", &[RUN]),
    ("no keys", &[], "-", &[]),
    ("four keys from one", &[TRIVIAL, RUN, PORT, ANY, PORTS], "0,1,2,4", &[ANY]),
    ("an attribute as target", &[ATTRIBUTE], "-", &[ATTRIBUTE]),
];

/// A row: the reduced profile, a proof for each dropped key, 0 bytes for each that is kept and for numbers that are no key.
fn row(cases: &mut Cases, name: &str, front: &[u8], keys: &[&str], dropped: &str, kept: &[&str]) {
    let (old, new) = (joined(&[front, &profile(keys)]), joined(&[front, &profile(kept)]));
    cases.put_bytes(&format!("lean, {}: reduced", name), reduce(&old), &format!("reduced {}", dropped), &new);
    cases.put_bytes(&format!("lean, {}: reduced again", name), reduce(&new), "reduced -", &new);
    let is_dropped = |n: usize| dropped.split(',').any(|number| number == n.to_string());
    for (n, text) in keys.iter().enumerate() {
        let (name, case) = (format!("lean, {}: proof of key {}", name, n), prove_dropped(&old, n as u32));
        if is_dropped(n) {
            cases.put_proof(&name, case, &new, &key(text));
        } else {
            cases.put_bytes(&name, case, "proof", &[]);
        }
    }
    for n in [keys.len() as u32, 64, 99, 4_294_967_295] {
        cases.put_bytes(&format!("lean, {}: proof of number {}, no key", name, n), prove_dropped(&old, n), "proof", &[]);
    }
}

fn tables(cases: &mut Cases) {
    for (name, keys, dropped, kept) in TABLE {
        row(cases, name, &[], keys, dropped, kept);
    }
    let last = joined(&[&labels(BENCH), &hex("0b 00 02 00 00 02 03 04 01 01 07")]);
    cases.put_bytes("lean, 69 bytes", reduce(&profile(&[PORT, RUN])), "reduced 0", &last);
    let any = joined(&[&labels(BENCH), &hex("0b 00 02 00 00 02 00 04 01 01 07")]);
    cases.put_bytes("lean, 69 bytes with an any-path", reduce(&profile(&[RUN, ANY, PORT])), "reduced 0,2", &any);
    cases.put_bytes("lean, an empty profile", reduce(&[]), "reduced -", &[]);
    cases.put_bytes("lean, an empty profile: proof of number 0", prove_dropped(&[], 0), "proof", &[]);
}

/// One label, (a,(a,{e})) and (e,(_*,{e})): the first follows.
fn one_label(cases: &mut Cases) {
    let [front, first, second] = ["07 00 01 00 02 01 61", "0a 00 02 00 01 02 01 02 01 00", "09 00 02 00 00 01 00 01 00"].map(hex);
    let (old, new) = (joined(&[&front, &first, &second]), joined(&[&front, &second]));
    cases.put_bytes("lean, one label: reduced", reduce(&old), "reduced 0", &new);
    cases.put_proof("lean, one label: proof of key 0", prove_dropped(&old, 0), &new, &first);
    cases.put_bytes("lean, one label: proof of key 1", prove_dropped(&old, 1), "proof", &[]);
}

/// The edition's record stays, key numbers do not shift, and what follows in edition 2 alone is dropped there alone.
fn editions(cases: &mut Cases) {
    let second = hex(EDITION);
    for (name, keys, dropped, kept) in TABLE.iter().filter(|(_, keys, _, _)| !keys.contains(&ATTRIBUTE)) {
        row(cases, &format!("edition 2, {}", name), &second, keys, dropped, kept);
    }
    row(cases, "edition 2, an attribute as target", &second, &[ATTRIBUTE], "0", &[]);
    row(cases, "edition 2, an attribute among others", &second, &[PORT, ATTRIBUTE, RUN], "0,1", &[RUN]);
    cases.put_bytes("lean, the edition's record alone", reduce(&second), "reduced -", &second);
}

/// 64 keys: none follows; 63 follow from the first; 63 from the last.
fn many_keys(cases: &mut Cases) {
    let numbers = |range: std::ops::Range<usize>| range.map(|n| n.to_string()).collect::<Vec<String>>().join(",");
    let full = different(64, "(run,{@id}))");
    let one = ["(_*,(run,{@id}))".to_string()];
    let whole = profile_with(&full);
    cases.put_bytes("lean, 64 keys, none follows", reduce(&whole), "reduced -", &whole);
    let (first, last) = ([&one[..], &full[1..]].concat(), [&full[..63], &one[..]].concat());
    let lean = profile_with(&one);
    for (name, keys, dropped) in [("first", first, 1..64), ("last", last, 0..63)] {
        let old = profile_with(&keys);
        let words = format!("reduced {}", numbers(dropped.clone()));
        cases.put_bytes(&format!("lean, 63 follow from the {}", name), reduce(&old), &words, &lean);
        for n in [0, 1, 31, 62, 63] {
            let (name, case) = (format!("lean, 63 follow from the {}: proof of key {}", name, n), prove_dropped(&old, n as u32));
            if dropped.contains(&n) {
                cases.put_proof(&name, case, &lean, &key(&keys[n]));
            } else {
                cases.put_bytes(&name, case, "proof", &[]);
            }
        }
    }
}

/// 14, then the profile's refusal, of both calls.
fn refusals(cases: &mut Cases) {
    let good = profile(&[RUN, ANY, PORT]);
    let twice = profile(&[RUN, PORT, RUN]);
    let late = joined(&[&good, &label(8, 1, "late")]);
    for (name, bytes, wanted) in [
        ("A, B, A", twice.clone(), "refused 15 1 8"),
        ("edition 2, A, B, A", joined(&[&hex(EDITION), &twice]), "refused 15 1 9"),
        ("a byte too few", good[..good.len() - 1].to_vec(), "refused 1 1 8"),
        ("a byte too many", joined(&[&good, &[9]]), "refused 1 1 9"),
        ("a label after the keys", late, "refused 2 1 9"),
        ("another edition byte", hex("05 00 06 00 03"), "refused 3 1 0"),
        ("a symbol not declared", profile(&["(8,(e,{e}))"]), "refused 4 1 6"),
        ("no key path", profile(&["(e,(run,{}))"]), "refused 5 1 6"),
        ("an attribute before an element", profile(&["(@id,(run,{e}))"]), "refused 6 1 6"),
        ("65 keys", profile_with(&different(65, "(run,{@id}))")), "refused 7 1 70"),
        ("over its size", vec![0; 16_385], "refused 7 1 0"),
    ] {
        cases.put(&format!("lean, {}: reducing", name), reduce(&bytes), wanted);
        for n in [0, 1, 99] {
            cases.put(&format!("lean, {}: proof of number {}", name, n), prove_dropped(&bytes, n), wanted);
        }
    }
    for (name, bytes) in [("good", &good), ("A, B, A", &twice)] {
        for room in [0, 1, 65_535] {
            let name = |what: &str| format!("lean, room {}, {}: {}", room, name, what);
            cases.put(&name("reducing"), in_room(room, reduce(bytes)), "refused 14 4 0");
            cases.put(&name("proof of key 0"), in_room(room, prove_dropped(bytes, 0)), "refused 14 4 0");
            cases.put(&name("proof of number 99"), in_room(room, prove_dropped(bytes, 99)), "refused 14 4 0");
        }
    }
    cases.put_bytes("lean, a byte more room", in_room(65_537, reduce(&good)), "reduced 0,2", &profile(&[ANY]));
}
