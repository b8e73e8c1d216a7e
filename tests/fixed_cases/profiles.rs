//! Inputs: profiles, read by rewriting. Each refusal number that a profile can get, with its record; the limits.
use super::expectations::Cases;
use super::notation::*;

pub fn put(cases: &mut Cases) {
    heads_and_bodies(cases);
    kinds(cases);
    label_numbers(cases);
    names(cases);
    symbols(cases);
    lengths(cases);
    key_paths(cases);
    validity(cases);
    counts(cases);
    sizes(cases);
    written(cases);
}

/// Record 0 has the fault, or record 6 after the six bench labels.
fn refuse(cases: &mut Cases, name: &str, record: &[u8], number: u32) {
    cases.put(&format!("profile, record 0: {}", name), rewrite(record), &format!("refused {} 1 0", number));
    let after = joined(&[&labels(BENCH), record]);
    cases.put(&format!("profile, record 6: {}", name), rewrite(&after), &format!("refused {} 1 6", number));
}

fn accept(cases: &mut Cases, name: &str, profile: &[u8]) {
    cases.put_bytes(&format!("profile: {}", name), rewrite(profile), "rewritten", profile);
}

/// 1: "a record is shorter than 4 or runs past the end, or its body does not end exactly where its kind says".
fn heads_and_bodies(cases: &mut Cases) {
    for (name, bytes) in [
        ("one byte", "09"),
        ("three bytes", "07 00 01"),
        ("length 0", "00 00 01 00"),
        ("length 3", "03 00 01 00 c8 01 61"),
        ("length by its high byte past the end", "07 01 01 00 c8 01 61"),
        ("past the end by one", "08 00 01 00 c8 01 61"),
        ("label without number", "04 00 01 00"),
        ("label without class", "05 00 01 00 c8"),
        ("key without body", "04 00 02 00"),
        ("key without target", "05 00 02 00 00"),
        ("key without count", "06 00 02 00 00 00"),
        ("key with a key path missing", "07 00 02 00 00 00 01"),
        ("key with the second key path missing", "08 00 02 00 00 00 02 00"),
        ("key, context past its end", "08 00 02 00 05 00 01 00"),
        ("key, key path past its end", "09 00 02 00 00 00 01 02 01"),
        ("key with a byte left over", "09 00 02 00 00 00 01 00 00"),
        ("node with a body of 1", "05 00 03 00 01"),
        ("node with a body of 6", "0a 00 03 00 ff ff cb 00 00 00"),
        ("node of kind 5 with a body of 6", "0a 00 05 00 ff ff cb 00 00 00"),
        ("proof line without key", "09 00 04 00 01 ff ff ff ff"),
    ] {
        refuse(cases, name, &hex(bytes), 1);
    }
}

/// 2: "kind unknown or not allowed here or in this order". 6 becomes a kind by a later request and is left alone here.
fn kinds(cases: &mut Cases) {
    for (name, bytes) in [
        ("kind 0", "07 00 00 00 c8 01 61"),
        ("kind 7", "05 00 07 00 01"),
        ("kind 257 is not kind 1", "07 00 01 01 c8 01 61"),
        ("kind 258 is not kind 2", "08 00 02 01 00 00 01 00"),
        ("kind 65535 without body", "04 00 ff ff"),
        ("node", "09 00 03 00 ff ff cb 00 00"),
        ("node of kind 5", "0b 00 05 00 ff ff cb 00 00 00 00"),
        ("proof line", "0d 00 04 00 01 ff ff ff ff 00 00 01 00"),
    ] {
        refuse(cases, name, &hex(bytes), 2);
    }
    let after_key = joined(&[&profile(&["(e,(run,{@id}))"]), &label(200, 1, "later")]);
    cases.put("profile: a label after a key", rewrite(&after_key), "refused 2 1 7");
}

/// 3: "label number outside 2..200 or not ascending; class".
fn label_numbers(cases: &mut Cases) {
    for number in [0, 1, 201, 202, 203, 204, 255] {
        refuse(cases, &format!("label number {}", number), &label(number, 1, "new"), 3);
    }
    for class in [0, 3, 255] {
        refuse(cases, &format!("class {}", class), &label(200, class, "new"), 3);
    }
    let again = joined(&[&labels(BENCH), &label(7, 2, "new")]);
    cases.put("profile: a label number again", rewrite(&again), "refused 3 1 6");
    let lower = joined(&[&label(100, 1, "a"), &label(99, 1, "b")]);
    cases.put("profile: a lower label number", rewrite(&lower), "refused 3 1 1");
    accept(cases, "labels 2 and 200", &joined(&[&label(2, 2, "a"), &label(200, 1, "b")]));
    accept(cases, "labels 199 and 200", &joined(&[&label(199, 1, "a"), &label(200, 2, "b")]));
}

/// "name, the rest, 1 to 32 bytes: ASCII letter first, then letters, digits, `-`, `_`".
fn names(cases: &mut Cases) {
    for (what, name) in [
        ("empty", ""),
        ("33 bytes", "a23456789-123456789-123456789-123"),
        ("digit first", "1a"),
        ("hyphen first", "-a"),
        ("underscore first", "_a"),
        ("blank", "a b"),
        ("dot", "a.b"),
        ("at sign", "@a"),
        ("the byte before A", "a@"),
        ("the byte after Z", "a["),
        ("the byte before a", "a`"),
        ("the byte after z", "a{"),
        ("the byte before 0", "a/"),
        ("the byte after 9", "a:"),
        ("not ASCII", "a\u{e9}"),
        ("a zero byte", "a\0"),
    ] {
        refuse(cases, &format!("name: {}", what), &label(200, 1, name), 3);
    }
    for name in ["run", "seq"] {
        let used = joined(&[&labels(BENCH), &label(8, 1, name)]);
        cases.put(&format!("profile: name {} used before", name), rewrite(&used), "refused 3 1 6");
    }
    accept(cases, "name of 1 byte", &label(2, 1, "z"));
    accept(cases, "name of 32 bytes", &label(2, 1, "a23456789-123456789-123456789-12"));
    accept(cases, "every sort of byte in a name", &label(2, 1, "AZaz09-_"));
    accept(cases, "names that differ in case, and by one byte more", &joined(&[&label(2, 1, "a"), &label(3, 1, "A"), &label(4, 1, "aa")]));
}

/// 4: "symbol not 0, 1 or declared; doubled 0; .. 0 in a key path". The key is record 6.
fn symbols(cases: &mut Cases) {
    for (name, text) in [
        ("undeclared in the context", "(8,(run,{@id}))"),
        ("undeclared in the target", "(run,(8,{@id}))"),
        ("undeclared in a key path", "(run,(run,{8}))"),
        ("undeclared last of many", "(run,(run,{@id,run.200}))"),
        ("201 in a path", "(e,(201,{@id}))"),
        ("202 in a key path", "(e,(run,{202}))"),
        ("203 in a path", "(203,(run,{@id}))"),
        ("255 in a path", "(e,(255.run,{@id}))"),
        ("doubled 0 in the context", "(_*._*,(run,{@id}))"),
        ("doubled 0 in the target", "(e,(run._*._*.run,{@id}))"),
        ("0 in a key path", "(e,(run,{_*}))"),
        ("0 within a key path", "(e,(run,{run._*.@id}))"),
        ("doubled 0 in a key path", "(e,(run,{_*._*}))"),
    ] {
        cases.put(&format!("key: {}", name), rewrite(&profile(&[text])), "refused 4 1 6");
    }
    cases.put("key: no label is declared", rewrite(&key_of(&[], "(e,(2,{e}))")), "refused 4 1 0");
    accept(cases, "without labels: 0 and 1 are symbols", &key_of(&[], "(_*,(1,{e}))"));
    accept(cases, "0 at the end of C and at the start of T is not doubled", &profile(&["(run._*,(_*.run,{@id}))"]));
    accept(cases, "text and attribute last", &profile(&["(e,(run.#,{e}))", "(_*.@id,(e,{e}))", "(e,(run,{#,@id}))"]));
}

/// "a path of 8 symbols passes, 9 gives 4".
fn lengths(cases: &mut Cases) {
    let eight = "run.run.run.run.run.run.run.run";
    let nine = "run.run.run.run.run.run.run.run.run";
    accept(cases, "8 symbols in C, T and P", &profile(&[&format!("({},({},{{{}}}))", eight, eight, eight)]));
    for (name, text) in [
        ("9 symbols in the context", format!("({},(run,{{e}}))", nine)),
        ("9 symbols in the target", format!("(run,({},{{e}}))", nine)),
        ("9 symbols in a key path", format!("(run,(run,{{{}}}))", nine)),
        ("9 symbols in the last of two key paths", format!("(run,(run,{{e,{}}}))", nine)),
    ] {
        cases.put(&format!("key: {}", name), rewrite(&profile(&[&text])), "refused 4 1 6");
    }
    let mixed = "_*.run._*.run._*.run._*.run";
    accept(cases, "8 symbols with any-paths", &profile(&[&format!("({},({},{{@id}}))", mixed, mixed)]));
}

/// 5: "key paths: none, too many, out of order, repeated".
fn key_paths(cases: &mut Cases) {
    for (name, set) in [
        ("none", "{}"),
        ("five", "{e,run,port,frame,stamp}"),
        ("five, the last repeated", "{e,run,port,frame,frame}"),
        ("longer first", "{run,e}"),
        ("longer first, at the end", "{e,run.port,@id}"),
        ("greater byte first", "{port,run}"),
        ("attribute before element of a smaller number", "{@id,stamp}"),
        ("greater second byte first", "{run.port,run.run}"),
        ("repeated", "{run,run}"),
        ("the empty path repeated", "{e,e}"),
        ("repeated, longer", "{run.@id,run.@id}"),
    ] {
        cases.put(&format!("key paths: {}", name), rewrite(&profile(&[&format!("(e,(run,{}))", set)])), "refused 5 1 6");
    }
    for (name, set) in [
        ("one, empty", "{e}"),
        ("four", "{e,run,port,frame}"),
        ("shorter first, then by bytes", "{#,@seq,run.#,port.run}"),
        ("by the first byte that differs", "{run.stamp,port.run}"),
    ] {
        accept(cases, &format!("key paths: {}", name), &profile(&[&format!("(e,(run,{}))", set)]));
    }
}

/// 6: "C.T.P not valid for some P": an attribute or text label stands only last.
fn validity(cases: &mut Cases) {
    for (name, text) in [
        ("attribute in the context", "(@id,(run,{e}))"),
        ("attribute inside the context", "(@id.run,(e,{e}))"),
        ("attribute in the context before an any-path", "(@id,(_*,{e}))"),
        ("text in the context before a key path", "(run.#,(e,{@id}))"),
        ("attribute as target before a key path", "(e,(@id,{#}))"),
        ("attribute as target, one key path of two", "(e,(@id,{e,run}))"),
        ("attribute within a key path", "(e,(run,{@id.run}))"),
        ("text within a key path", "(e,(run,{#.#}))"),
        ("text in the target before an element", "(e,(#.run,{e}))"),
    ] {
        cases.put(&format!("key: {}", name), rewrite(&profile(&[text])), "refused 6 1 6");
    }
    let second = profile(&["(e,(run,{@id}))", "(@id,(run,{e}))"]);
    cases.put("key: the second key is not valid", rewrite(&second), "refused 6 1 7");
    accept(cases, "attribute last by the empty path alone", &profile(&["(run,(@id,{e}))", "(run.@id,(e,{e}))", "(#,(e,{e}))"]));
}

/// "64 keys"; "7: .. this key .. is one too many (its 4 head bytes decide)". Six labels stand before the keys.
fn counts(cases: &mut Cases) {
    let full = profile_with(&different(64, "(run,{@id}))"));
    accept(cases, "64 keys", &full);
    for (name, bytes, wanted) in [
        ("sound", "0a 00 02 00 00 01 02 01 01 06", "refused 7 1 70"),
        ("only a head", "04 00 02 00", "refused 7 1 70"),
        ("length 0", "00 00 02 00", "refused 7 1 70"),
        ("runs past the end", "ff ff 02 00 00", "refused 7 1 70"),
        ("body does not end", "08 00 02 00 09 09 09 09", "refused 7 1 70"),
        ("symbol not declared", "0a 00 02 00 00 01 c8 01 01 06", "refused 7 1 70"),
        ("no kind is there", "0a 00 02", "refused 1 1 70"),
        ("a label", "07 00 01 00 08 01 61", "refused 2 1 70"),
        ("a label without class", "05 00 01 00 08", "refused 1 1 70"),
        ("kind 258", "08 00 02 01 00 00 01 00", "refused 2 1 70"),
    ] {
        cases.put(&format!("key 65: {}", name), rewrite(&joined(&[&full, &hex(bytes)])), wanted);
    }
    // 15 comes with the second of them.
    let without_labels = key_of(&[], "(_*,(_*,{e}))").repeat(65);
    cases.put("65 keys without labels", rewrite(&without_labels), "refused 15 1 1");
}

/// "profile 16,384 bytes". No sound profile is so long, so a record that fills the size has another fault, and one byte more is 7.
fn sizes(cases: &mut Cases) {
    let front = labels(BENCH);
    for (size, wanted) in [(16_383, "refused 2 1 6"), (16_384, "refused 2 1 6"), (16_385, "refused 7 1 0"), (60_000, "refused 7 1 0")] {
        let filled = joined(&[&front, &of_kind(7, &vec![0; size - front.len() - 4])]);
        cases.put(&format!("profile of {} bytes", size), rewrite(&filled), wanted);
    }
    for (size, wanted) in [(16_384, "refused 3 1 0"), (16_385, "refused 7 1 0")] {
        let name = "a".repeat(size - 6);
        cases.put(&format!("profile of {} bytes, one long name", size), rewrite(&label(2, 1, &name)), wanted);
    }
    for (size, wanted) in [(16_384, "refused 1 1 0"), (16_385, "refused 7 1 0"), (131_072, "refused 7 1 0")] {
        cases.put(&format!("profile of {} zero bytes", size), rewrite(&vec![0; size]), wanted);
    }
    accept(cases, "empty", &[]);
}

/// The largest sound profile: 199 labels with names of 32 bytes (38 bytes each) and 64 keys of 59 bytes.
fn largest() -> Vec<u8> {
    let name = |number: u8| format!("label-{:03}-with-names-of-32-bytes", number);
    let all: Vec<u8> = (2..=200).flat_map(|number| label(number, 1, &name(number))).collect();
    let eight = |last: u8| [2, 2, 2, 2, 2, 2, 2, last];
    let paths: Vec<u8> = (2..6).flat_map(|last| [&[8u8][..], &eight(last)].concat()).collect();
    let body = |last: u8| joined(&[&[8], &eight(last), &[8], &[100; 8], &[4], &paths]);
    let keys: Vec<u8> = (2..66).flat_map(|last| of_kind(2, &body(last))).collect();
    joined(&[&all, &keys])
}

/// What is written is what was read, and replay says `changed` where a byte behind it is not as before.
fn written(cases: &mut Cases) {
    let large = largest();
    assert_eq!(large.len(), 199 * 38 + 64 * 59);
    accept(cases, "the largest", &large);
    let small = profile(&["(e,(port.frame,{@seq}))"]);
    for room in [65_536, 65_537] {
        cases.put_bytes(&format!("rewriting in {} bytes", room), in_room(room, rewrite(&small)), "rewritten", &small);
    }
    // Record 6 is refused after six sound ones: nothing of them may have been written.
    let refused = joined(&[&small, &[9]]);
    cases.put("rewriting writes nothing on a refusal", rewrite(&refused), "refused 1 1 7");
}
