//! Inputs: trees as input 3. Each refusal number that a tree can get, with its record; the limits. Every case of a tree of one
//! kind runs once for each kind of node records; then files that mix them (02, request 11).
use super::expectations::Cases;
use super::notation::*;

pub fn put(cases: &mut Cases) {
    for of in [KIND_3, KIND_5] {
        heads_and_kinds(cases, of);
        roots(cases, of);
        parents(cases, of);
        labels_and_values(cases, of);
        accepted(cases, of);
        sizes(cases, of);
        last_node(cases, of);
        larger_number_later(cases, of);
    }
    refuse(cases, "tree: empty", &[], "refused 8 3 0");
    for (of, other) in [(KIND_3, KIND_5), (KIND_5, KIND_3)] {
        mixed(cases, of, other);
    }
    wide_values(cases);
    heads_and_sizes(cases);
}

/// Each operation that takes a tree refuses it alike.
fn refuse(cases: &mut Cases, name: &str, tree: &[u8], wanted: &str) {
    let (labels, question) = (labels(BENCH), key("(e,(run,{@id}))"));
    cases.put(&format!("{} (keep)", name), keep(&labels, &question, tree), wanted);
    cases.put(&format!("{} (tree)", name), check_tree(&labels, &question, tree), wanted);
    cases.put(&format!("{} (list)", name), list(&labels, tree, 0), wanted);
}

/// The same for a tree of one kind.
fn refuse_of(cases: &mut Cases, of: NodeKind, name: &str, tree: &[u8], wanted: &str) {
    refuse(cases, &format!("kind {}, {}", of.kind, name), tree, wanted);
}

/// Bytes in hex in which LL is the length of the kind's record, KK the kind and VV a value of 0; L- and L+, V- and V+ are one less
/// and one more.
fn record_of(of: NodeKind, text: &str) -> Vec<u8> {
    let byte = |number: usize| format!("{:02x}", number);
    let zeros = |count: usize| "00 ".repeat(count);
    let words = [
        ("LL", byte(of.bytes)),
        ("L-", byte(of.bytes - 1)),
        ("L+", byte(of.bytes + 1)),
        ("KK", byte(of.kind as usize)),
        ("VV", zeros(of.value_bytes)),
        ("V-", zeros(of.value_bytes - 1)),
        ("V+", zeros(of.value_bytes + 1)),
    ];
    hex(&words.iter().fold(text.to_string(), |text, (word, bytes)| text.replace(word, bytes)))
}

/// 1 and 2, as record 0 and as record 1 after a root.
fn heads_and_kinds(cases: &mut Cases, of: NodeKind) {
    for (name, text, number) in [
        ("one byte", "LL", 1),
        ("three bytes", "LL 00 KK", 1),
        ("a head of length 0", "00 00 KK 00 ff ff cb VV", 1),
        ("a head of length 3", "03 00 KK 00 ff ff cb VV", 1),
        ("past the end", "LL 00 KK 00 ff ff cb V-", 1),
        ("a body one byte short", "L- 00 KK 00 ff ff cb V-", 1),
        ("a body one byte long", "L+ 00 KK 00 ff ff cb V+", 1),
        ("without body", "04 00 KK 00", 1),
        ("without value", "07 00 KK 00 ff ff cb", 1),
        ("a damaged label", "05 00 01 00 08", 1),
        ("a damaged key", "09 00 02 00 00 00 01 00 00", 1),
        ("a label", "07 00 01 00 08 01 61", 2),
        ("a key", "08 00 02 00 00 00 01 00", 2),
        ("a proof line", "0d 00 04 00 01 ff ff ff ff 00 00 01 00", 2),
        ("kind 0", "LL 00 00 00 ff ff cb VV", 2),
        ("the kind's low byte", "LL 00 KK 01 ff ff cb VV", 2),
    ] {
        let bytes = record_of(of, text);
        refuse_of(cases, of, &format!("record 0: {}", name), &bytes, &format!("refused {} 3 0", number));
        let second = joined(&[&of.tree(ROOT), &bytes]);
        refuse_of(cases, of, &format!("record 1: {}", name), &second, &format!("refused {} 3 1", number));
    }
}

/// "the root is node 0 with parent 65535", label 203, and as an element with value 0.
fn roots(cases: &mut Cases, of: NodeKind) {
    for (name, text) in [
        ("first node is no root", "0 - 2 -"),
        ("first node is a filler element", "0 - 201 -"),
        ("first node is a text", "0 - 1 -"),
        ("root with parent 0", "0 0 203 -"),
        ("root with parent 65534", "0 65534 203 -"),
        ("root with a value", "0 - 203 1"),
        ("root with a value in the second byte", "0 - 203 256"),
    ] {
        refuse_of(cases, of, name, &of.tree(text), "refused 8 3 0");
    }
    for (name, text) in [("root again below the root", "0 - 203 -/1 0 203 -"), ("root again beside the root", "0 - 203 -/1 - 203 -")] {
        refuse_of(cases, of, name, &of.tree(text), "refused 8 3 1");
    }
}

/// "A node's parent has a smaller number"; "Attributes and text have no children".
fn parents(cases: &mut Cases, of: NodeKind) {
    for (name, text, record) in [
        ("parent is itself", "0 - 203 -/1 1 2 -", 1),
        ("parent comes later", "0 - 203 -/1 2 2 -/2 0 2 -", 1),
        ("parent is none", "0 - 203 -/1 - 2 -", 1),
        ("parent by its high byte", "0 - 203 -/1 256 2 -", 1),
        ("parent is far away", "0 - 203 -/1 0 2 -/2 65534 2 -", 2),
        ("below an attribute", "0 - 203 -/1 0 6 -/2 1 2 -", 2),
        ("text below an attribute", "0 - 203 -/1 0 6 5/2 1 1 5", 2),
        ("below a text", "0 - 203 -/1 0 1 -/2 1 6 -", 2),
        ("below a filler attribute", "0 - 203 -/1 0 202 -/2 1 202 -", 2),
        ("below an attribute, later", "0 - 203 -/1 0 2 -/2 1 7 9/3 1 3 -/4 2 3 -", 4),
    ] {
        refuse_of(cases, of, name, &of.tree(text), &format!("refused 8 3 {}", record));
    }
}

/// "A tree file holds only these three, 1 and declared labels"; "An element's value is 0".
fn labels_and_values(cases: &mut Cases, of: NodeKind) {
    for number in [0, 8, 200, 204, 255] {
        let text = format!("0 - 203 -/1 0 2 -/2 1 {} -", number);
        refuse_of(cases, of, &format!("label {}", number), &of.tree(&text), "refused 8 3 2");
    }
    for (name, text) in [
        ("element with a value", "0 - 203 -/1 0 2 1"),
        ("element with a value in the second byte", "0 - 203 -/1 0 5 256"),
        ("filler element with a value", "0 - 203 -/1 0 201 1"),
    ] {
        refuse_of(cases, of, name, &of.tree(text), "refused 8 3 1");
    }
    let question = key_of(&[], "(_*,(_*,{e}))");
    // 3 is an attribute in this profile, so that it has values and no children.
    let others: Labels = &[(2, 1, "a"), (3, 2, "b")];
    let attribute = key_of(others, "(e,(2,{3}))");
    for (name, profile, asked, text, wanted) in [
        ("no label is declared", Vec::new(), &question, "0 - 203 -/1 0 2 -", "refused 8 3 1"),
        ("fillers and text need no declaration", Vec::new(), &question, "0 - 203 -/1 0 201 -/2 1 202 7/3 1 1 7", "kept"),
        ("3 is an attribute here", labels(others), &attribute, "0 - 203 -/1 0 3 9", "kept"),
        ("below 3, an attribute here", labels(others), &attribute, "0 - 203 -/1 0 3 9/2 1 2 -", "refused 8 3 2"),
    ] {
        cases.put(&format!("kind {}, {}", of.kind, name), keep(&profile, asked, &of.tree(text)), wanted);
    }
}

fn accepted(cases: &mut Cases, of: NodeKind) {
    let (labels, question) = (labels(BENCH), key("(e,(run,{@id}))"));
    for (name, text) in [
        ("a root alone", ROOT),
        ("every label that may stand", "0 - 203 -/1 0 2 -/2 0 3 -/3 0 4 -/4 0 5 -/5 0 6 -/6 0 7 -/7 0 1 -/8 0 201 -/9 0 202 -"),
        ("values 0 and 65535", "0 - 203 -/1 0 6 0/2 0 6 65535/3 0 1 0/4 0 1 65535/5 0 202 65535"),
        ("children in turns", "0 - 203 -/1 0 2 -/2 0 3 -/3 1 6 1/4 2 6 1/5 1 2 -/6 0 1 4/7 5 7 3"),
        ("fillers below each other", "0 - 203 -/1 0 201 -/2 1 201 -/3 2 202 1"),
    ] {
        cases.put(&format!("kind {}, accepted: {}", of.kind, name), keep(&labels, &question, &of.tree(text)), "kept");
    }
}

/// A chain of runs below the root.
pub fn chain(of: NodeKind, nodes: usize) -> Vec<u8> {
    let below = (1..nodes).flat_map(|number| of.node(&format!("{} {} 2 -", number, number - 1)));
    of.tree(ROOT).into_iter().chain(below).collect()
}

/// "tree 4,096 nodes (36,864 bytes)"; "The limit of a tree whose record 0 is kind 5 is 45,056 bytes, still 4,096 nodes."
fn sizes(cases: &mut Cases, of: NodeKind) {
    let (labels, question) = (labels(BENCH), key("(e,(run,{@id}))"));
    let full = chain(of, 4_096);
    assert_eq!(full.len(), of.tree_bytes);
    cases.put(&format!("kind {}, 4,096 nodes (keep)", of.kind), keep(&labels, &question, &full), "kept");
    cases.put(&format!("kind {}, 4,096 nodes (tree)", of.kind), check_tree(&labels, &question, &full), "refused 13 3 0");
    refuse_of(cases, of, "a byte after 4,096 nodes", &joined(&[&full, &[9]]), "refused 7 3 0");
    refuse_of(cases, of, "4,097 nodes", &chain(of, 4_097), "refused 7 3 0");
    refuse_of(cases, of, "4,096 nodes without the last byte", &full[..of.tree_bytes - 1], "refused 1 3 4095");
    let zeros = |size: usize| joined(&[&[0, 0, of.kind, 0], &vec![0; size - 4]]);
    refuse_of(cases, of, "a head of length 0 and a byte too many", &zeros(of.tree_bytes + 1), "refused 7 3 0");
    refuse_of(cases, of, "a head of length 0 and all bytes", &zeros(of.tree_bytes), "refused 1 3 0");
}

/// The last node of a full tree is looked at, all of it.
fn last_node(cases: &mut Cases, of: NodeKind) {
    let last = of.tree_bytes - of.bytes;
    for (name, at, byte, number) in [
        ("length", 0, of.bytes as u8 + 1, 1),
        ("kind", 2, 7, 2),
        ("the other kind, as long as before", 2, 8 - of.kind, 1),
        ("parent itself", 4, 255, 8),
        ("label", 6, 8, 8),
        ("lowest byte of the value", 7, 1, 8),
        ("highest byte of the value", of.bytes - 1, 1, 8),
    ] {
        let mut spoiled = chain(of, 4_096);
        spoiled[last + at] = byte;
        refuse_of(cases, of, &format!("node 4095 of 4,096: {}", name), &spoiled, &format!("refused {} 3 4095", number));
    }
}

/// In one record 1 and 2 come before 8, and an earlier record's 8 before a later record's 1.
fn larger_number_later(cases: &mut Cases, of: NodeKind) {
    let root = of.tree(ROOT);
    let longer = record_of(of, "L+ 00 KK 00 09 00 cb 01 VV");
    refuse_of(cases, of, "1 before 8 in a node", &joined(&[&root, &longer]), "refused 1 3 1");
    let unknown = record_of(of, "LL 00 00 00 09 00 cb 01 V-");
    refuse_of(cases, of, "2 before 8 in a node", &joined(&[&root, &unknown]), "refused 2 3 1");
    refuse_of(cases, of, "8 in node 1 before 1 in node 2", &joined(&[&of.tree("0 - 203 -/1 0 2 1"), &[9]]), "refused 8 3 1");
    refuse_of(cases, of, "8 in node 0 before 2 in node 1", &joined(&[&of.tree("0 - 2 -"), &key("(e,(e,{e}))")]), "refused 8 3 0");
}

/// "a file that mixes the kinds gives 2 at the first record that differs": whole by its own kind, else 1.
fn mixed(cases: &mut Cases, of: NodeKind, other: NodeKind) {
    let one = other.node("1 0 2 -");
    let name = |what: &str| format!("kind {} among {}: {}", other.kind, of.kind, what);
    let after = |front: &str, rest: &[u8]| joined(&[&of.tree(front), rest]);
    refuse(cases, &name("record 1"), &after(ROOT, &one), "refused 2 3 1");
    refuse(cases, &name("record 2"), &after("0 - 203 -/1 0 6 7", &one), "refused 2 3 2");
    refuse(cases, &name("all but record 0"), &after(ROOT, &one.repeat(3)), "refused 2 3 1");
    refuse(cases, &name("record 1, and the kind of record 0 again"), &after(ROOT, &joined(&[&one, &of.node("2 0 2 -")])), "refused 2 3 1");
    refuse(cases, &name("a second root"), &after(ROOT, &other.tree(ROOT)), "refused 2 3 1");
    refuse(cases, &name("2 before 8"), &after(ROOT, &other.node("1 9 2 1")), "refused 2 3 1");
    refuse(cases, &name("8 of record 0 first"), &after("0 - 2 -", &one), "refused 8 3 0");
    refuse(cases, &name("torn"), &after(ROOT, &one[..one.len() - 1]), "refused 1 3 1");
    refuse(cases, &name("a body one byte short"), &after(ROOT, &record_of(other, "L- 00 KK 00 00 00 02 V-")), "refused 1 3 1");
    refuse(cases, &name("a body one byte long"), &after(ROOT, &record_of(other, "L+ 00 KK 00 00 00 02 V+")), "refused 1 3 1");
    refuse(cases, &name("as long as the others"), &after(ROOT, &record_of(of, &format!("LL 00 {:02x} 00 00 00 02 VV", other.kind))), "refused 1 3 1");
}

/// "An element's value is 0", all four bytes of it; an attribute may have any.
fn wide_values(cases: &mut Cases) {
    for (value, byte) in [(65_536u32, "third"), (16_777_216, "fourth")] {
        let root = wide_tree(&format!("0 - 203 {}", value));
        refuse(cases, &format!("kind 5, root with a value in the {} byte", byte), &root, "refused 8 3 0");
        let element = wide_tree(&format!("0 - 203 -/1 0 2 {}", value));
        refuse(cases, &format!("kind 5, element with a value in the {} byte", byte), &element, "refused 8 3 1");
    }
    let values = "0 - 203 -/1 0 6 65536/2 0 1 4294967295/3 0 202 16777216";
    cases.put("kind 5, values of three and four bytes", keep(&labels(BENCH), &key("(e,(run,{@id}))"), &wide_tree(values)), "kept");
}

/// "a tree whose record 0 is kind 5": the four bytes of its head say so, and they alone.
fn heads_and_sizes(cases: &mut Cases) {
    let padded = |head: &str, size: usize| {
        let head = hex(head);
        joined(&[&head, &vec![0; size - head.len()]])
    };
    for (head, size, wanted) in [
        ("03 00 05 00", 40_000, "refused 1 3 0"),
        ("03 00 03 00", 40_000, "refused 7 3 0"),
        ("0b 00 05 01", 40_000, "refused 7 3 0"),
        ("0b 00 01 00", 40_000, "refused 7 3 0"),
        ("0b 00 00 00", 36_864, "refused 2 3 0"),
        ("0b 00 00 00", 36_865, "refused 7 3 0"),
        ("00 00 00 00", 36_864, "refused 1 3 0"),
        ("00 00 00 00", 36_865, "refused 7 3 0"),
        ("ff ff 05 00", 45_056, "refused 1 3 0"),
        ("ff ff 05 00", 45_057, "refused 7 3 0"),
        ("04 00 05", 3, "refused 1 3 0"),
        ("04 00 05 00", 4, "refused 1 3 0"),
    ] {
        refuse(cases, &format!("a tree of {} bytes that begins {}", size, head), &padded(head, size), wanted);
    }
    // 3,352 nodes are over the size of kind 3.
    let long = chain(KIND_5, 3_352);
    assert_eq!(long.len(), 36_872);
    cases.put("kind 5, 36,872 bytes", keep(&labels(BENCH), &key("(e,(run,{@id}))"), &long), "kept");
    let mixed = joined(&[&KIND_3.tree(ROOT), &long]);
    refuse(cases, "kind 5 among 3, over the size of kind 3", &mixed, "refused 7 3 0");
    let other = joined(&[&chain(KIND_5, 3_352), &KIND_3.node("3352 0 2 -")]);
    refuse(cases, "kind 3 among 5, over the size of kind 3", &other, "refused 2 3 3352");
}
