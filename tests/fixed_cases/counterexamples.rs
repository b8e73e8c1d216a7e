//! Checks: the counterexample check. 12 with the lowest broken key's number, and since request 9 its first witness, before 13.
use super::drawn;
use super::expectations::Cases;
use super::notation::*;

pub fn put(cases: &mut Cases) {
    rows_of_01(cases);
    text_as_filler(cases);
    one_value_for_fillers(cases);
    equal_branches(cases);
    lowest_broken_key(cases);
    kept_questions(cases);
    reordered_attributes(cases);
}

/// As records of either kind.
fn check(cases: &mut Cases, name: &str, keys: &[&str], asked: &str, nodes: &str, wanted: &str) {
    for of in [KIND_3, KIND_5] {
        let case = check_tree(&profile(keys), &key(asked), &of.tree(nodes));
        cases.put(&format!("counterexample of kind {}: {}", of.kind, name), case, wanted);
    }
}

/// The rows of 01 that are not implied, with the trees that 01 fixes; and each tree against the same question and key exchanged.
fn rows_of_01(cases: &mut Cases) {
    // The last part: the two copies of t, then of the ends of the branches; the context is the root, for m the port.
    let rows: [(&str, &[&str], &str, &str, &str); 6] = [
        ("b", &["(port,(frame,{@seq}))"], "(e,(port.frame,{@seq}))", drawn::B, "0 4 9 6 11"),
        ("d", &["(e,(port.frame,{stamp,@seq}))"], "(e,(port,{frame.stamp,frame.@seq}))", drawn::D, "0 2 11 6 15 10 19"),
        ("i", &["(e,(port.frame,{@seq}))"], "(e,(_*.frame,{@seq}))", drawn::I, "0 4 9 6 11"),
        ("j", &["(e,(frame,{stamp.#}))"], "(e,(frame,{stamp}))", drawn::J, "0 2 6 4 8"),
        ("k", &["(e,(port,{frame}))"], "(e,(port,{frame.@seq}))", drawn::K, "0 2 7 6 11"),
        ("m", &[], "(port,(@id,{e}))", drawn::M, "2 4 5 4 5"),
    ];
    for (row, keys, asked, nodes, witness) in rows {
        check(cases, &format!("tree of {}", row), keys, asked, nodes, &format!("accepted {}", witness));
        let refused = format!("refused 12 1 0 witness {}", witness);
        check(cases, &format!("tree of {}, the question among the keys", row), &[asked], asked, nodes, &refused);
        check(cases, &format!("tree of {}, a question that always holds", row), keys, "(e,(e,{e}))", nodes, "refused 13 3 0");
    }
}

/// "Using text as filler: j would then break its own profile." The marked stamps' fillers have one value, so {stamp.#} agrees.
fn text_as_filler(cases: &mut Cases) {
    let nodes = drawn::J.replace(" 202 ", " 1 ");
    let wanted = "refused 12 1 0 witness 0 2 6 5 9";
    check(cases, "j with text as filler", &["(e,(frame,{stamp.#}))"], "(e,(frame,{stamp}))", &nodes, wanted);
    check(cases, "j with text as filler, without the profile's key", &[], "(e,(frame,{stamp}))", &nodes, "accepted");
}

/// "Giving the fillers of unmarked twins one value": k's frames would be equal.
fn one_value_for_fillers(cases: &mut Cases) {
    let (keys, asked) = (["(e,(port,{frame}))"], "(e,(port,{frame.@seq}))");
    let frames = drawn::K.replace("10 9 202 10", "10 9 202 5");
    let ports = drawn::K.replace("8 7 202 8", "8 7 202 3");
    let both = frames.replace("8 7 202 8", "8 7 202 3");
    let wanted = "refused 12 1 0 witness 0 2 7 4 9";
    check(cases, "k with one value for the frames' fillers", &keys, asked, &frames, wanted);
    check(cases, "k with one value for all fillers of twins", &keys, asked, &both, wanted);
    check(cases, "k with one value for the ports' fillers", &keys, asked, &ports, "accepted");
    let unmarked = drawn::K.replace("11 9 7 6", "11 9 7 11");
    check(cases, "k with two values for the mark", &keys, asked, &unmarked, "refused 13 3 0");
}

/// ".. or letting two branches in one copy be value-equal": values by depth would make the two stamps of one port equal.
fn equal_branches(cases: &mut Cases) {
    let (keys, asked) = (["(port,(_*.stamp,{e}))"], "(e,(port,{run.stamp,frame.stamp}))");
    // Each port has a run with a stamp and a frame with a stamp; the stamps are marked.
    let nodes = "0 - 203 -/1 0 202 1/2 0 3 -/3 2 202 3/4 2 2 -/5 4 202 5/6 4 5 -/7 6 202 7/8 2 4 -/9 8 202 9/10 8 5 -/11 10 202 11/\
                 12 0 3 -/13 12 202 13/14 12 2 -/15 14 202 15/16 14 5 -/17 16 202 7/18 12 4 -/19 18 202 19/20 18 5 -/21 20 202 11";
    check(cases, "two branches with two values", &keys, asked, nodes, "accepted");
    let by_depth = nodes.replace("11 10 202 11", "11 10 202 7").replace("21 20 202 11", "21 20 202 7");
    check(cases, "two branches with one value", &keys, asked, &by_depth, "refused 12 1 0 witness 2 6 10 6 10");
}

/// 12: "as record the lowest such key number", not a record number: six labels stand before the keys. And 12 comes before 13.
fn lowest_broken_key(cases: &mut Cases) {
    let twins = "0 - 203 -/1 0 2 -/2 1 6 5/3 0 2 -/4 3 6 5";
    // The first is broken by the runs, 0 1 3 2 4, the second by their attributes, 0 2 4 2 4.
    let (broken, also, kept) = ("(e,(run,{@id}))", "(e,(_*.@id,{e}))", "(run,(@id,{e}))");
    // No node of this tree lies so deep: these are kept.
    let deep = different(63, "(@id,{e}))");
    let others: Vec<&str> = deep.iter().map(String::as_str).collect();
    for (name, keys, wanted) in [
        ("no key", vec![], "accepted"),
        ("a kept key", vec![kept], "accepted"),
        ("key 0 of one", vec![broken], "refused 12 1 0 witness 0 1 3 2 4"),
        ("key 1 of two", vec![kept, broken], "refused 12 1 1 witness 0 1 3 2 4"),
        ("keys 0 and 1", vec![also, broken], "refused 12 1 0 witness 0 2 4 2 4"),
        ("keys 1 and 2 of four", vec![kept, also, broken, "(port,(@id,{e}))"], "refused 12 1 1 witness 0 2 4 2 4"),
        ("keys 0 and 2", vec![broken, kept, also], "refused 12 1 0 witness 0 1 3 2 4"),
        ("key 63 of 64", [&others[..63], &[broken]].concat(), "refused 12 1 63 witness 0 1 3 2 4"),
        ("keys 31 and 32 of 64", [&others[..31], &[broken, also], &others[31..62]].concat(), "refused 12 1 31 witness 0 1 3 2 4"),
        ("64 kept keys", [&others[..63], &[kept]].concat(), "accepted"),
    ] {
        check(cases, &format!("broken: {}", name), &keys, "(e,(run,{e}))", twins, wanted);
        // The same with a question that the tree keeps: 13 only where no key is broken.
        let then = if wanted == "accepted" { "refused 13 3 0" } else { wanted };
        check(cases, &format!("broken, question kept: {}", name), &keys, "(run,(e,{e}))", twins, then);
    }
}

/// 13: "tree keeps the question (input 3, record 0)".
fn kept_questions(cases: &mut Cases) {
    check(cases, "a root alone", &[], "(_*,(_*,{e}))", ROOT, "refused 13 3 0");
    check(cases, "different values", &[], "(e,(@id,{e}))", "0 - 203 -/1 0 6 1/2 0 6 2", "refused 13 3 0");
    check(cases, "equal values", &[], "(e,(@id,{e}))", "0 - 203 -/1 0 6 1/2 0 6 1", "accepted");
    check(cases, "a smaller counterexample to b than 01's", &["(port,(frame,{@seq}))"], "(e,(port.frame,{@seq}))",
        "0 - 203 -/1 0 3 -/2 1 4 -/3 2 7 0/4 0 3 -/5 4 4 -/6 5 7 0", "accepted");
}

/// 02, request 2: two frames whose attributes stand in two orders are one value, for the profile's keys and for the question.
fn reordered_attributes(cases: &mut Cases) {
    let (whole, nodes) = ("(e,(frame,{e}))", "0 - 203 -/1 0 4 -/2 1 6 1/3 1 7 2/4 0 4 -/5 4 7 2/6 4 6 1");
    check(cases, "frames in two orders break the question", &[], whole, nodes, "accepted");
    check(cases, "frames in two orders break a key", &[whole], "(e,(frame,{@id}))", nodes, "refused 12 1 0 witness 0 1 4 1 4");
    let other = nodes.replace("5 4 7 2", "5 4 7 1");
    check(cases, "frames in two orders, another value", &[whole], "(e,(frame,{@id}))", &other, "accepted");
    check(cases, "frames in two orders, another value, as question", &[], whole, &other, "refused 13 3 0");
}
