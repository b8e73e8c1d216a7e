//! Trees: value equality and keys kept, on small tables.
use super::expectations::Cases;
use super::notation::*;

pub fn put(cases: &mut Cases) {
    equality(cases);
    attribute_order(cases);
    deeper_equality(cases);
    labels_and_values(cases);
    wide_values(cases);
    repeated_attributes(cases);
    targets_that_are_contexts(cases);
    nested_targets(cases);
    contexts(cases);
    key_paths(cases);
    leaves_as_targets(cases);
    any_paths(cases);
    large(cases);
}

/// As records of either kind.
fn ask(cases: &mut Cases, name: &str, asked: &str, nodes: &str, wanted: &str) {
    for of in [KIND_3, KIND_5] {
        cases.put(&format!("keep, kind {}: {}", of.kind, name), keep(&labels(BENCH), &key(asked), &of.tree(nodes)), wanted);
    }
}

/// Two frames below the root, asked for (e,(frame,{e})): broken exactly when they are value-equal.
fn equality(cases: &mut Cases) {
    for (name, nodes, wanted) in [
        ("two empty elements", "0 - 203 -/1 0 4 -/2 0 4 -", "broken"),
        ("two elements of other labels", "0 - 203 -/1 0 4 -/2 0 5 -", "kept"),
        ("two equal elements", "0 - 203 -/1 0 4 -/2 1 6 1/3 1 7 2/4 1 5 -/5 1 1 3/6 0 4 -/7 6 6 1/8 6 7 2/9 6 5 -/10 6 1 3", "broken"),
        ("one attribute's value differs", "0 - 203 -/1 0 4 -/2 1 6 1/3 1 7 2/4 0 4 -/5 4 6 1/6 4 7 3", "kept"),
        ("one attribute's value differs in its high byte", "0 - 203 -/1 0 4 -/2 1 6 1/3 0 4 -/4 3 6 257", "kept"),
        ("first attribute's value differs", "0 - 203 -/1 0 4 -/2 1 6 1/3 1 7 2/4 0 4 -/5 4 6 9/6 4 7 2", "kept"),
        ("the order of two attributes differs", "0 - 203 -/1 0 4 -/2 1 6 1/3 1 7 2/4 0 4 -/5 4 7 2/6 4 6 1", "broken"),
        ("one attribute more", "0 - 203 -/1 0 4 -/2 1 6 1/3 0 4 -/4 3 6 1/5 3 7 2", "kept"),
        ("one attribute less", "0 - 203 -/1 0 4 -/2 1 6 1/3 1 7 2/4 0 4 -/5 4 6 1", "kept"),
        ("one child more", "0 - 203 -/1 0 4 -/2 1 5 -/3 0 4 -/4 3 5 -/5 3 5 -", "kept"),
        ("one child less", "0 - 203 -/1 0 4 -/2 1 5 -/3 1 5 -/4 0 4 -/5 4 5 -", "kept"),
        ("a child against none", "0 - 203 -/1 0 4 -/2 0 4 -/3 2 5 -", "kept"),
        ("a text against an element", "0 - 203 -/1 0 4 -/2 1 1 0/3 0 4 -/4 3 5 -", "kept"),
        ("text before element against element before text", "0 - 203 -/1 0 4 -/2 1 1 7/3 1 5 -/4 0 4 -/5 4 5 -/6 4 1 7", "kept"),
        ("the order of two texts differs", "0 - 203 -/1 0 4 -/2 1 1 7/3 1 1 8/4 0 4 -/5 4 1 8/6 4 1 7", "kept"),
        ("the order of two elements differs", "0 - 203 -/1 0 4 -/2 1 2 -/3 1 3 -/4 0 4 -/5 4 3 -/6 4 2 -", "kept"),
        ("text's value differs", "0 - 203 -/1 0 4 -/2 1 1 7/3 0 4 -/4 3 1 8", "kept"),
        // Attributes and other children are two lists: how they stand among each other does not matter.
        ("attributes before and after the others", "0 - 203 -/1 0 4 -/2 1 6 5/3 1 1 7/4 0 4 -/5 4 1 7/6 4 6 5", "broken"),
        ("two attributes around a child", "0 - 203 -/1 0 4 -/2 1 6 1/3 1 5 -/4 1 7 2/5 0 4 -/6 5 5 -/7 5 6 1/8 5 7 2", "broken"),
        ("children written in turns", "0 - 203 -/1 0 4 -/2 0 4 -/3 2 6 1/4 1 6 1/5 1 5 -/6 2 5 -", "broken"),
    ] {
        ask(cases, name, "(e,(frame,{e}))", nodes, wanted);
    }
}

/// 02, request 2: attributes "are value-equal when some one-to-one pairing makes them so, a name that occurs twice included. Elements and
/// text keep their order."
fn attribute_order(cases: &mut Cases) {
    for (name, nodes, wanted) in [
        ("@seq 1 1 2 against 1 2 2", "0 - 203 -/1 0 4 -/2 1 7 1/3 1 7 1/4 1 7 2/5 0 4 -/6 5 7 1/7 5 7 2/8 5 7 2", "kept"),
        ("@seq 1 1 2 against 2 1 1", "0 - 203 -/1 0 4 -/2 1 7 1/3 1 7 1/4 1 7 2/5 0 4 -/6 5 7 2/7 5 7 1/8 5 7 1", "broken"),
        ("@id 1, @seq 2 against @id 2, @seq 1", "0 - 203 -/1 0 4 -/2 1 6 1/3 1 7 2/4 0 4 -/5 4 6 2/6 4 7 1", "kept"),
        ("three attributes in another order", "0 - 203 -/1 0 4 -/2 1 6 1/3 1 7 2/4 1 7 3/5 0 4 -/6 5 7 3/7 5 6 1/8 5 7 2", "broken"),
        ("one attribute more beside all of the first", "0 - 203 -/1 0 4 -/2 1 7 1/3 0 4 -/4 3 7 1/5 3 7 2", "kept"),
        ("one attribute less, and no other", "0 - 203 -/1 0 4 -/2 1 7 1/3 1 7 2/4 0 4 -/5 4 7 2", "kept"),
        ("attributes reordered one level down", "0 - 203 -/1 0 4 -/2 1 5 -/3 2 6 1/4 2 7 2/5 0 4 -/6 5 5 -/7 6 7 2/8 6 6 1", "broken"),
        ("attributes reordered around a text", "0 - 203 -/1 0 4 -/2 1 6 1/3 1 1 9/4 1 7 2/5 0 4 -/6 5 7 2/7 5 1 9/8 5 6 1", "broken"),
        (
            "two elements that differ in an attribute, exchanged",
            "0 - 203 -/1 0 4 -/2 1 5 -/3 2 6 1/4 1 5 -/5 4 6 2/6 0 4 -/7 6 5 -/8 7 6 2/9 6 5 -/10 9 6 1",
            "kept",
        ),
        ("202 among others, reordered", "0 - 203 -/1 0 4 -/2 1 202 5/3 1 6 1/4 0 4 -/5 4 6 1/6 4 202 5", "broken"),
    ] {
        ask(cases, name, "(e,(frame,{e}))", nodes, wanted);
    }
}

/// Differences two and three levels down.
fn deeper_equality(cases: &mut Cases) {
    for (name, nodes, wanted) in [
        ("equal three levels down", "0 - 203 -/1 0 4 -/2 1 5 -/3 2 2 -/4 3 6 9/5 0 4 -/6 5 5 -/7 6 2 -/8 7 6 9", "broken"),
        ("value differs three levels down", "0 - 203 -/1 0 4 -/2 1 5 -/3 2 2 -/4 3 6 9/5 0 4 -/6 5 5 -/7 6 2 -/8 7 6 8", "kept"),
        ("label differs two levels down", "0 - 203 -/1 0 4 -/2 1 5 -/3 2 2 -/4 0 4 -/5 4 5 -/6 5 3 -", "kept"),
        ("one node more three levels down", "0 - 203 -/1 0 4 -/2 1 5 -/3 2 2 -/4 0 4 -/5 4 5 -/6 5 2 -/7 6 1 0", "kept"),
        ("children change parents", "0 - 203 -/1 0 4 -/2 1 5 -/3 1 5 -/4 2 6 1/5 0 4 -/6 5 5 -/7 5 5 -/8 7 6 1", "kept"),
        ("last of many children differs", "0 - 203 -/1 0 4 -/2 1 2 -/3 1 3 -/4 1 1 5/5 0 4 -/6 5 2 -/7 5 3 -/8 5 1 6", "kept"),
        ("the same labels nested otherwise", "0 - 203 -/1 0 4 -/2 1 5 -/3 2 5 -/4 0 4 -/5 4 5 -/6 4 5 -", "kept"),
    ] {
        ask(cases, name, "(e,(frame,{e}))", nodes, wanted);
    }
    // Three of which two are equal, not next to each other.
    ask(cases, "first and third are equal", "(e,(frame,{e}))", "0 - 203 -/1 0 4 -/2 1 1 7/3 0 4 -/4 3 1 8/5 0 4 -/6 5 1 7", "broken");
    ask(cases, "three different", "(e,(frame,{e}))", "0 - 203 -/1 0 4 -/2 1 1 7/3 0 4 -/4 3 1 8/5 0 4 -/6 5 1 9", "kept");
}

/// "for attribute and text 0 is a value like any other"; equal values under other labels are not equal.
fn labels_and_values(cases: &mut Cases) {
    for (name, asked, nodes, wanted) in [
        ("two attributes of value 0", "(e,(@id,{e}))", "0 - 203 -/1 0 6 0/2 0 6 0", "broken"),
        ("two texts of value 0", "(e,(#,{e}))", "0 - 203 -/1 0 1 0/2 0 1 0", "broken"),
        ("values 0 and 65535", "(e,(#,{e}))", "0 - 203 -/1 0 1 0/2 0 1 65535", "kept"),
        ("one value, two attribute names", "(e,(_*,{e}))", "0 - 203 -/1 0 6 5/2 0 7 5", "kept"),
        ("one value, attribute and text", "(e,(_*,{e}))", "0 - 203 -/1 0 6 5/2 0 1 5", "kept"),
        ("attribute names differ under elements", "(e,(frame,{e}))", "0 - 203 -/1 0 4 -/2 1 6 5/3 0 4 -/4 3 7 5", "kept"),
        ("two fillers with one value", "(e,(_*,{e}))", "0 - 203 -/1 0 201 -/2 1 202 5/3 0 201 -/4 3 202 5", "broken"),
        ("two fillers with two values", "(e,(_*,{e}))", "0 - 203 -/1 0 201 -/2 1 202 5/3 0 201 -/4 3 202 6", "kept"),
    ] {
        ask(cases, name, asked, nodes, wanted);
    }
}

/// A value of four bytes is compared whole (02, request 11).
fn wide_values(cases: &mut Cases) {
    for (name, asked, nodes, wanted) in [
        ("values 1 and 65537", "(e,(@id,{e}))", "0 - 203 -/1 0 6 1/2 0 6 65537", "kept"),
        ("values 65537 and 65537", "(e,(@id,{e}))", "0 - 203 -/1 0 6 65537/2 0 6 65537", "broken"),
        ("values that differ in the third byte", "(e,(#,{e}))", "0 - 203 -/1 0 1 65535/2 0 1 131071", "kept"),
        ("values that differ in the fourth byte", "(e,(#,{e}))", "0 - 203 -/1 0 1 65536/2 0 1 16842752", "kept"),
        ("values whose bytes are exchanged", "(e,(#,{e}))", "0 - 203 -/1 0 1 1/2 0 1 16777216/3 0 1 256/4 0 1 65536", "kept"),
        ("values 4294967295 twice", "(e,(@id,{e}))", "0 - 203 -/1 0 6 4294967295/2 0 6 4294967295", "broken"),
        ("values 4294967295 and 65535", "(e,(@id,{e}))", "0 - 203 -/1 0 6 4294967295/2 0 6 65535", "kept"),
        ("low bytes alike below two frames", "(e,(frame,{e}))", "0 - 203 -/1 0 4 -/2 1 6 7/3 0 4 -/4 3 6 65543", "kept"),
        ("low bytes alike at the end of a key path", "(e,(frame,{@seq}))", "0 - 203 -/1 0 4 -/2 1 7 7/3 0 4 -/4 3 7 65543", "kept"),
        ("four bytes alike below two frames", "(e,(frame,{e}))", "0 - 203 -/1 0 4 -/2 1 6 65543/3 0 4 -/4 3 6 65543", "broken"),
    ] {
        cases.put(&format!("keep: {}", name), keep(&labels(BENCH), &key(asked), &wide_tree(nodes)), wanted);
    }
}

/// "An attribute name may occur more than once under an element": some pair that is equal is enough.
fn repeated_attributes(cases: &mut Cases) {
    for (name, asked, nodes, wanted) in [
        ("@seq 1 2 against 2 3: 2 is common", "(e,(frame,{@seq}))", "0 - 203 -/1 0 4 -/2 1 7 1/3 1 7 2/4 0 4 -/5 4 7 2/6 4 7 3", "broken"),
        ("@seq 1 2 against 3 4: none is common", "(e,(frame,{@seq}))", "0 - 203 -/1 0 4 -/2 1 7 1/3 1 7 2/4 0 4 -/5 4 7 3/6 4 7 4", "kept"),
        ("@seq 1 1 against 1, by the attribute", "(e,(frame,{@seq}))", "0 - 203 -/1 0 4 -/2 1 7 1/3 1 7 1/4 0 4 -/5 4 7 1", "broken"),
        ("@seq 1 1 against 1, by the element", "(e,(frame,{e}))", "0 - 203 -/1 0 4 -/2 1 7 1/3 1 7 1/4 0 4 -/5 4 7 1", "kept"),
        ("@seq 1 2 against 2 1, by the element", "(e,(frame,{e}))", "0 - 203 -/1 0 4 -/2 1 7 1/3 1 7 2/4 0 4 -/5 4 7 2/6 4 7 1", "broken"),
        ("@seq 1 2 against 1 2, by the element", "(e,(frame,{e}))", "0 - 203 -/1 0 4 -/2 1 7 1/3 1 7 2/4 0 4 -/5 4 7 1/6 4 7 2", "broken"),
        ("@seq 1 1 in one frame alone", "(e,(frame,{@seq}))", "0 - 203 -/1 0 4 -/2 1 7 1/3 1 7 1", "kept"),
        ("@seq 1 1 as targets", "(frame,(@seq,{e}))", "0 - 203 -/1 0 4 -/2 1 7 1/3 1 7 1", "broken"),
    ] {
        ask(cases, name, asked, nodes, wanted);
    }
}

/// With an empty target each context is its only target, so no two are different.
fn targets_that_are_contexts(cases: &mut Cases) {
    let two = "0 - 203 -/1 0 4 -/2 1 7 1/3 0 4 -/4 3 7 1";
    for (name, asked, wanted) in [
        ("target is the context itself", "(frame,(e,{@seq}))", "kept"),
        ("target is the context itself, by the element", "(frame,(e,{e}))", "kept"),
        ("target is the root", "(e,(e,{frame.@seq}))", "kept"),
        ("target is any context", "(_*,(e,{e}))", "kept"),
        ("the same frames as targets of the root", "(e,(frame,{@seq}))", "broken"),
    ] {
        ask(cases, name, asked, two, wanted);
    }
    // The context is among the targets of an any-path, next to other nodes.
    ask(cases, "the root and a child have one @id", "(e,(_*,{@id}))", "0 - 203 -/1 0 6 1/2 0 2 -/3 2 6 1", "broken");
    ask(cases, "the root and a child have two @id", "(e,(_*,{@id}))", "0 - 203 -/1 0 6 1/2 0 2 -/3 2 6 2", "kept");
    ask(cases, "context and a node below it", "(run,(_*,{@id}))", "0 - 203 -/1 0 2 -/2 1 6 1/3 1 3 -/4 3 6 1", "broken");
}

/// A node lies below two nested targets. It is reached from one of them by each simple path, so it is never a pair with itself.
fn nested_targets(cases: &mut Cases) {
    let nested = "0 - 203 -/1 0 4 -/2 1 4 -/3 2 5 -/4 3 1 9";
    ask(cases, "two nested targets share a stamp", "(e,(_*.frame,{stamp}))", nested, "kept");
    ask(cases, "two nested targets share a text", "(e,(_*.frame,{stamp.#}))", nested, "kept");
    let three = |values: [u8; 3]| {
        let [a, b, c] = values;
        format!("0 - 203 -/1 0 4 -/2 1 7 {}/3 1 4 -/4 3 7 {}/5 3 4 -/6 5 7 {}", a, b, c)
    };
    // Node 4 is reached from 1 by frame.@seq and from 3 by @seq.
    let asked = "(e,(_*.frame,{@seq,frame.@seq}))";
    ask(cases, "two targets share a node by two key paths", asked, &three([1, 2, 3]), "kept");
    ask(cases, "two targets share a node, one path agrees", asked, &three([1, 1, 2]), "kept");
    ask(cases, "two targets share a node and agree by others", asked, &three([1, 1, 1]), "broken");
    ask(cases, "nested targets agree", "(e,(_*.frame,{@seq}))", &three([1, 2, 1]), "broken");
    ask(cases, "a frame within an equal frame cannot be", "(e,(_*.frame,{e}))", "0 - 203 -/1 0 4 -/2 1 4 -/3 2 4 -", "kept");
}

/// "for each node q reached from the root by C": both targets below one context.
fn contexts(cases: &mut Cases) {
    let two_ports = "0 - 203 -/1 0 3 -/2 1 4 -/3 2 7 1/4 0 3 -/5 4 4 -/6 5 7 1";
    let one_port = "0 - 203 -/1 0 3 -/2 1 4 -/3 2 7 1/4 1 4 -/5 4 7 1";
    for (name, asked, nodes, wanted) in [
        ("equal frames of two ports, in each port", "(port,(frame,{@seq}))", two_ports, "kept"),
        ("equal frames of two ports, in all", "(e,(port.frame,{@seq}))", two_ports, "broken"),
        ("equal frames of two ports, anywhere in each", "(_*.port,(_*.frame,{@seq}))", two_ports, "kept"),
        ("equal frames of two ports, in any context", "(_*,(_*.frame,{@seq}))", two_ports, "broken"),
        ("equal frames of one port", "(port,(frame,{@seq}))", one_port, "broken"),
        ("no such context", "(run,(frame,{@seq}))", one_port, "kept"),
        ("no such target", "(port,(run,{@seq}))", one_port, "kept"),
        ("frames are no contexts of the root", "(frame,(@seq,{e}))", one_port, "kept"),
        ("context by an any-path", "(_*,(frame,{@seq}))", one_port, "broken"),
    ] {
        ask(cases, name, asked, nodes, wanted);
    }
    // Only the second of two contexts has the pair.
    let second = "0 - 203 -/1 0 3 -/2 1 4 -/3 2 7 1/4 0 3 -/5 4 4 -/6 5 7 2/7 4 4 -/8 7 7 2";
    ask(cases, "the pair lies in the second context", "(port,(frame,{@seq}))", second, "broken");
}

/// "some P in S has no value-equal pair x, y".
fn key_paths(cases: &mut Cases) {
    let frames = |first: &str, second: &str| format!("0 - 203 -/1 0 4 -/2 0 4 -/{}/{}", first, second);
    for (name, asked, nodes, wanted) in [
        ("both key paths agree", "(e,(frame,{@id,@seq}))", frames("3 1 6 1/4 1 7 2", "5 2 6 1/6 2 7 2"), "broken"),
        ("first key path differs", "(e,(frame,{@id,@seq}))", frames("3 1 6 1/4 1 7 2", "5 2 6 9/6 2 7 2"), "kept"),
        ("second key path differs", "(e,(frame,{@id,@seq}))", frames("3 1 6 1/4 1 7 2", "5 2 6 1/6 2 7 9"), "kept"),
        ("third of three differs", "(e,(frame,{#,@id,@seq}))", frames("3 1 1 0/4 1 6 1/5 1 7 2", "6 2 1 0/7 2 6 1/8 2 7 9"), "kept"),
        ("three agree", "(e,(frame,{#,@id,@seq}))", frames("3 1 1 0/4 1 6 1/5 1 7 2", "6 2 1 0/7 2 6 1/8 2 7 2"), "broken"),
        ("one has no @seq", "(e,(frame,{@id,@seq}))", frames("3 1 6 1/4 1 7 2", "5 2 6 1"), "kept"),
        ("neither has a @seq", "(e,(frame,{@seq}))", frames("3 1 6 1", "4 2 6 1"), "kept"),
        ("the empty path beside another", "(e,(frame,{e,@id}))", frames("3 1 6 1", "4 2 6 1"), "broken"),
        ("the empty path differs, the other agrees", "(e,(frame,{e,@id}))", frames("3 1 6 1/4 1 7 2", "5 2 6 1"), "kept"),
        ("equal elements without the other path", "(e,(frame,{e,@id}))", frames("3 1 7 1", "4 2 7 1"), "kept"),
    ] {
        ask(cases, name, asked, &nodes, wanted);
    }
    let common = frames("3 1 5 -/4 3 1 1/5 1 5 -/6 5 1 2", "7 2 5 -/8 7 1 3/9 2 5 -/10 9 1 2");
    ask(cases, "pairs of two stamps, one in common", "(e,(frame,{stamp.#}))", &common, "broken");
    // Different key paths may agree by different stamps: nothing asks for one stamp.
    let apart = frames("3 1 5 -/4 3 6 1/5 1 5 -/6 5 7 2", "7 2 5 -/8 7 6 1/9 7 7 2");
    ask(cases, "two key paths agree through two stamps", "(e,(frame,{stamp.@id,stamp.@seq}))", &apart, "broken");
}

fn leaves_as_targets(cases: &mut Cases) {
    for (name, asked, nodes, wanted) in [
        ("two texts, one value", "(frame,(#,{e}))", "0 - 203 -/1 0 4 -/2 1 1 5/3 1 1 5", "broken"),
        ("two texts, two values", "(frame,(#,{e}))", "0 - 203 -/1 0 4 -/2 1 1 5/3 1 1 6", "kept"),
        ("two texts in two frames", "(frame,(#,{e}))", "0 - 203 -/1 0 4 -/2 1 1 5/3 0 4 -/4 3 1 5", "kept"),
        ("two texts in two frames, from the root", "(e,(frame.#,{e}))", "0 - 203 -/1 0 4 -/2 1 1 5/3 0 4 -/4 3 1 5", "broken"),
        ("an attribute as context", "(frame.@seq,(e,{e}))", "0 - 203 -/1 0 4 -/2 1 7 5/3 0 4 -/4 3 7 5", "kept"),
        ("attributes at any depth", "(e,(_*.@seq,{e}))", "0 - 203 -/1 0 7 5/2 0 4 -/3 2 5 -/4 3 7 5", "broken"),
        ("attributes at any depth below a frame", "(frame,(_*.@seq,{e}))", "0 - 203 -/1 0 7 5/2 0 4 -/3 2 5 -/4 3 7 5", "kept"),
    ] {
        ask(cases, name, asked, nodes, wanted);
    }
}

/// The any-path is "a possibly empty run of labels", fillers and leaves too.
fn any_paths(cases: &mut Cases) {
    let chain = "0 - 203 -/1 0 2 -/2 1 2 -/3 2 2 -";
    let twins = "0 - 203 -/1 0 3 -/2 1 2 -/3 0 2 -";
    let filled = "0 - 203 -/1 0 201 -/2 1 202 1/3 1 4 -/4 3 7 6/5 0 201 -/6 5 202 2/7 5 4 -/8 7 7 6";
    let gaps = "0 - 203 -/1 0 2 -/2 1 4 -/3 2 7 1/4 1 3 -/5 4 3 -/6 5 4 -/7 6 7 1";
    for (name, asked, nodes, wanted) in [
        ("any two nodes of a chain", "(_*,(_*,{e}))", chain, "kept"),
        ("two leaves at two depths", "(_*,(_*,{e}))", twins, "broken"),
        ("two leaves at two depths, one context", "(e,(_*.run,{e}))", twins, "broken"),
        ("two leaves at two depths, from the port", "(port,(_*,{e}))", twins, "kept"),
        ("an any-path takes fillers", "(e,(_*.frame,{@seq}))", filled, "broken"),
        ("a label takes no filler", "(e,(port.frame,{@seq}))", filled, "kept"),
        ("an any-path takes none and two", "(e,(run._*.frame,{@seq}))", gaps, "broken"),
        ("an any-path takes none and two, at the context's end", "(run._*,(frame,{@seq}))", gaps, "kept"),
        ("two any-paths", "(e,(_*.port._*.frame,{@seq}))", gaps, "kept"),
        ("any-path at the end of C and start of T", "(run._*,(_*.frame,{@seq}))", gaps, "broken"),
        ("the runs of a chain", "(e,(_*.run,{e}))", chain, "kept"),
    ] {
        ask(cases, name, asked, nodes, wanted);
    }
}

/// 4,096 nodes: attributes below the root, all different, or the last two alike. The values of kind 5 agree in their low two bytes.
fn large(cases: &mut Cases) {
    let (labels, asked) = (labels(BENCH), key("(e,(@id,{e}))"));
    for (of, step) in [(KIND_3, 1), (KIND_5, 65_536)] {
        let leaf = |number: usize, value: usize| of.node(&format!("{} 0 6 {}", number, step * value));
        let leaves = |last: usize| {
            let rest: Vec<u8> = (1..4_095).flat_map(|number| leaf(number, number)).collect();
            joined(&[&of.tree(ROOT), &rest, &leaf(4_095, last)])
        };
        for (name, tree, wanted) in [
            ("4,095 different attributes", leaves(4_095), "kept"),
            ("the last of 4,095 attributes is like the one before", leaves(4_094), "broken"),
            ("the last of 4,095 attributes is like the first", leaves(1), "broken"),
        ] {
            cases.put(&format!("keep, kind {}: {}", of.kind, name), keep(&labels, &asked, &tree), wanted);
        }
        let (name, chain) = (format!("keep, kind {}: no two nodes of a chain of 4,096 are equal", of.kind), super::nodes::chain(of, 4_096));
        cases.put(&name, keep(&labels, &key("(_*,(_*,{e}))"), &chain), "kept");
    }
}
