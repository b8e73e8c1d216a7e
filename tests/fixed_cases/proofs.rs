//! Checks: whole proofs: 01's rows, 001's examples, errors that look right, premises, and the order of 9 and 10.
use super::expectations::Cases;
use super::notation::*;
use super::rules::check;

pub fn put(cases: &mut Cases) {
    rows_of_01(cases);
    examples_of_001(cases);
    errors_that_look_right(cases);
    no_proof_of_c(cases);
    premises(cases);
    unused_fields(cases);
    unknown_rules(cases);
    ten(cases);
    first_fault_first(cases);
}

/// The implied rows of 01, each by the rule that it is about.
fn rows_of_01(cases: &mut Cases) {
    let (port, frame) = ("(e,(port,{frame.@seq}))", "(port,(frame,{@seq}))");
    let both = ["0 0 - (e,(port,{frame.@seq}))", "0 1 - (port,(frame,{@seq}))", "9 0 1 (e,(port.frame,{@seq}))"];
    check(cases, "proof of a", &["(e,(port.frame,{@seq}))"], &["0 0 - (e,(port.frame,{@seq}))", "7 0 - (port,(frame,{@seq}))"], "accepted");
    let lifted = ["0 0 - (e,(port.frame,{e,stamp}))", "8 0 - (e,(port,{e,frame.stamp}))"];
    check(cases, "proof of c", &["(e,(port.frame,{e,stamp}))"], &lifted, "accepted");
    check(cases, "proof of f", &[port, frame], &both, "accepted");
    check(cases, "proof of g", &[], &["1 - - (run,(e,{@id}))"], "accepted");
    check(cases, "proof of h", &["(e,(_*.frame,{@seq}))"], &["0 0 - (e,(_*.frame,{@seq}))", "6 0 - (e,(port.frame,{@seq}))"], "accepted");
    check(cases, "proof of l", &["(e,(port,{e,frame}))"], &["0 0 - (e,(port,{e,frame}))", "2 0 - (e,(port,{e,frame.@seq}))"], "accepted");
    check(cases, "f without its first key", &[frame], &["0 0 - (port,(frame,{@seq}))", "9 0 0 (e,(port.frame,{@seq}))"], "refused 9 3 1");
}

const ABC: Labels = &[(2, 1, "A"), (3, 1, "B"), (4, 1, "C")];
const RSA: Labels = &[(2, 1, "group"), (3, 1, "user"), (4, 1, "private"), (5, 1, "p"), (6, 1, "q")];
const FIGURE_2: Labels = &[(2, 1, "a"), (3, 1, "b"), (4, 1, "c"), (5, 1, "d"), (6, 1, "f")];

/// 001: the example after Table 2; Example 6 by its own derivation; Figure 2, whose key path 01 does not admit.
fn examples_of_001(cases: &mut Cases) {
    let put = |cases: &mut Cases, name: &str, of: Labels, keys: &[&str], lines: &[&str], asked: &str, wanted: &str| {
        cases.put(name, check_proof(&profile_of(of, keys), &key_of(of, asked), &proof_of(of, lines)), wanted);
    };
    let key = "(e,(A.B,{e,C}))";
    let new = "(e,(A,{e,B.C}))";
    let cite = "0 0 - (e,(A.B,{e,C}))";
    put(cases, "001, after Table 2: subnodes-epsilon", ABC, &[key], &[cite, "8 0 - (e,(A,{e,B.C}))"], new, "accepted");
    put(cases, "001, after Table 2: subnodes instead", ABC, &[key], &[cite, "4 0 - (e,(A,{e,B.C}))"], new, "refused 9 3 1");
    let keys = ["(e,(group.user,{private.p,private.q}))", "(group,(user.private,{p,q}))"];
    let asked = "(e,(group.user.private,{p,q}))";
    let derived = [
        "0 0 - (e,(group.user,{private.p,private.q}))",
        "0 1 - (group,(user.private,{p,q}))",
        "7 1 - (group.user,(private,{p,q}))",
        "9 0 2 (e,(group.user.private,{p,q}))",
    ];
    put(cases, "001, Example 6 by its own derivation", RSA, &keys, &derived, asked, "accepted");
    let at_once = [derived[0], derived[1], "9 0 1 (e,(group.user.private,{p,q}))"];
    put(cases, "001, Example 6 without context-target", RSA, &keys, &at_once, asked, "refused 9 3 2");
    let figure = "(e,(a._*.b.c._*.d,{f}))";
    let lifted = ["0 0 - (e,(a._*.b.c._*.d,{f}))", "4 0 - (e,(a._*.b,{c._*.d.f}))"];
    put(cases, "001, Figure 2: the any-path in a key path", FIGURE_2, &[figure], &lifted, figure, "refused 4 3 1");
    let shortened = ["0 0 - (e,(a._*.b.c._*.d,{f}))", "4 0 - (e,(a._*.b,{c.d.f}))"];
    put(cases, "001, Figure 2: the any-path left out", FIGURE_2, &[figure], &shortened, "(e,(a._*.b,{c.d.f}))", "refused 9 3 1");
}

/// 01, "Errors that look right": each rule that might be thought to do it.
fn errors_that_look_right(cases: &mut Cases) {
    let rows = [
        ("d", "(e,(port.frame,{stamp,@seq}))", "(e,(port,{frame.stamp,frame.@seq}))"),
        ("k", "(e,(port,{frame}))", "(e,(port,{frame.@seq}))"),
        ("b", "(port,(frame,{@seq}))", "(e,(port.frame,{@seq}))"),
        ("i", "(e,(port.frame,{@seq}))", "(e,(_*.frame,{@seq}))"),
        ("j", "(e,(frame,{stamp.#}))", "(e,(frame,{stamp}))"),
    ];
    for (row, premise, new) in rows {
        for rule in 2..=8 {
            let lines = [format!("0 0 - {}", premise), format!("{} 0 - {}", rule, new)];
            check(cases, &format!("{} is not proved by rule {}", row, rule), &[premise], &[&lines[0], &lines[1]], "refused 9 3 1");
        }
        let lines = [format!("0 0 - {}", premise), format!("9 0 0 {}", new)];
        check(cases, &format!("{} is not proved by rule 9", row), &[premise], &[&lines[0], &lines[1]], "refused 9 3 1");
    }
    // One key path alone may be lifted: from {stamp} d's question follows.
    let alone = ["0 0 - (e,(port.frame,{stamp}))", "4 0 - (e,(port,{frame.stamp}))", "3 1 - (e,(port,{frame.stamp,frame.@seq}))"];
    check(cases, "d's question from a key with one key path", &["(e,(port.frame,{stamp}))"], &alone, "accepted");
    check(cases, "d's key does not have one key path", &["(e,(port.frame,{stamp,@seq}))"], &alone, "refused 9 3 0");
}

/// "Leaving out rule 8: c has no proof without it": no other rule takes c's key to c's question.
fn no_proof_of_c(cases: &mut Cases) {
    let premise = "(e,(port.frame,{e,stamp}))";
    for rule in [0, 1, 2, 3, 4, 5, 6, 7, 9] {
        let (first, second) = match rule {
            1 => ("-", "-"),
            9 => ("0", "0"),
            _ => ("0", "-"),
        };
        let lines = [format!("0 0 - {}", premise), format!("{} {} {} (e,(port,{{e,frame.stamp}}))", rule, first, second)];
        check(cases, &format!("c is not proved by rule {}", rule), &[premise], &[&lines[0], &lines[1]], "refused 9 3 1");
    }
    let with_empty = ["0 0 - (e,(port.frame,{stamp}))", "4 0 - (e,(port,{frame.stamp}))", "3 1 - (e,(port,{e,frame.stamp}))"];
    check(cases, "c's question from {stamp} needs no rule 8", &["(e,(port.frame,{stamp}))"], &with_empty, "accepted");
    check(cases, "c's key is not {stamp}", &[premise], &with_empty, "refused 9 3 0");
}

/// "premises are earlier line numbers".
fn premises(cases: &mut Cases) {
    let (k, same) = ("(e,(port,{@id}))", "3 0 - (e,(port,{@id}))");
    let cite = "0 0 - (e,(port,{@id}))";
    for (name, lines, wanted) in [
        ("line 0 has itself as premise", vec![same], "refused 9 3 0"),
        ("line 0 has line 1 as premise", vec!["3 1 - (e,(port,{@id}))", cite], "refused 9 3 0"),
        ("line 1 has itself as premise", vec![cite, "3 1 - (e,(port,{@id}))"], "refused 9 3 1"),
        ("line 1 has line 2 as premise", vec![cite, "3 2 - (e,(port,{@id}))", cite], "refused 9 3 1"),
        ("a premise beyond the end", vec![cite, "3 9 - (e,(port,{@id}))"], "refused 9 3 1"),
        ("premise 256 is not premise 0", vec![cite, "3 256 - (e,(port,{@id}))"], "refused 9 3 1"),
        ("no premise where one is needed", vec![cite, "3 - - (e,(port,{@id}))"], "refused 9 3 1"),
        ("an earlier premise that is not the last line", vec![cite, "1 - - (run,(e,{e}))", "3 0 - (e,(port,{@id}))"], "accepted"),
        ("the wrong earlier premise", vec![cite, "1 - - (run,(e,{e}))", "3 1 - (e,(port,{@id}))"], "refused 9 3 2"),
        ("interaction, second premise is itself", vec![cite, "9 0 1 (e,(port,{@id}))"], "refused 9 3 1"),
        ("interaction, first premise is itself", vec![cite, "9 1 0 (e,(port,{@id}))"], "refused 9 3 1"),
        ("interaction, second premise comes later", vec![cite, "9 0 2 (e,(port,{@id}))", "1 - - (port,(e,{@id}))"], "refused 9 3 1"),
        ("interaction, second premise is earlier", vec![cite, "1 - - (port,(e,{@id}))", "9 0 1 (e,(port,{@id}))"], "accepted"),
        ("interaction, no second premise", vec![cite, "1 - - (port,(e,{@id}))", "9 0 - (e,(port,{@id}))"], "refused 9 3 2"),
        ("interaction, no first premise", vec![cite, "1 - - (port,(e,{@id}))", "9 - 1 (e,(port,{@id}))"], "refused 9 3 2"),
        ("interaction, one line as both premises", vec!["1 - - (e,(e,{@id}))", "9 0 0 (e,(e,{@id}))"], "accepted"),
    ] {
        check(cases, &format!("premises: {}", name), &[k], &lines, wanted);
    }
    cases.put("premises: a line in use twice", {
        let lines = [cite, "3 0 - (e,(port,{@id,@seq}))", "7 0 - (port,(e,{@id}))", "9 0 2 (e,(port,{@id}))"];
        check_proof(&profile(&[k]), &key(k), &proof(&lines))
    }, "accepted");
}

/// "an unused premise field is 65535": rules 2 to 8 with a second premise do not follow, though they change nothing.
fn unused_fields(cases: &mut Cases) {
    for rule in 2..=8 {
        // Rule 4 has one key path in its premise.
        let k = if rule == 4 { "(e,(port,{@id}))" } else { "(e,(port,{e,@id}))" };
        for second in ["0", "1", "65534"] {
            let lines = [format!("0 0 - {}", k), format!("{} 0 {} {}", rule, second, k)];
            check(cases, &format!("rule {} with second premise {}", rule, second), &[k], &[&lines[0], &lines[1]], "refused 9 3 1");
        }
        let lines = [format!("0 0 - {}", k), format!("{} 0 - {}", rule, k)];
        check(cases, &format!("rule {} that changes nothing", rule), &[k], &[&lines[0], &lines[1]], "accepted");
    }
}

/// 01 has the rules 0 to 9; 02's rule 10 is in editions.rs.
fn unknown_rules(cases: &mut Cases) {
    for rule in [10, 11, 128, 255] {
        for fields in ["- -", "0 -", "0 0"] {
            let line = format!("{} {} (e,(e,{{e}}))", rule, fields);
            let lines = ["1 - - (e,(e,{e}))", &line];
            check(cases, &format!("rule {} with fields {}", rule, fields), &["(e,(e,{e}))"], &lines, "refused 9 3 1");
        }
    }
}

/// 10: "proof empty (record 0), or its last key is not the question (that line)".
fn ten(cases: &mut Cases) {
    let asked = key("(run,(e,{@id}))");
    let put = |cases: &mut Cases, name: &str, lines: &[&str], wanted: &str| {
        cases.put(&format!("last line: {}", name), check_proof(&profile(&["(run,(e,{@id}))"]), &asked, &proof(lines)), wanted);
    };
    let (right, wrong) = ("1 - - (run,(e,{@id}))", "1 - - (e,(e,{@id}))");
    put(cases, "none", &[], "refused 10 3 0");
    put(cases, "the question", &[right], "accepted");
    put(cases, "another context", &[wrong], "refused 10 3 0");
    put(cases, "another key path", &["1 - - (run,(e,{@seq}))"], "refused 10 3 0");
    put(cases, "one key path more", &["1 - - (run,(e,{@id,@seq}))"], "refused 10 3 0");
    put(cases, "the question comes before it", &[right, wrong], "refused 10 3 1");
    put(cases, "the question comes after it", &[wrong, right], "accepted");
    put(cases, "the third of three", &[wrong, right, wrong], "refused 10 3 2");
    let empty = check_proof(&profile(&["(e,(run,{@id}))"]), &key("(e,(run,{@id}))"), &[]);
    cases.put("last line: none, though the question is a profile key", empty, "refused 10 3 0");
}

/// "Order: .. records from the front", so 9 at a line comes before anything of the next one.
fn first_fault_first(cases: &mut Cases) {
    let sound = "1 - - (e,(e,{e}))";
    let broken = "1 - - (e,(run,{e}))";
    let put = |cases: &mut Cases, name: &str, lines: &[&str], rest: &str, wanted: &str| {
        let bytes = joined(&[&proof(lines), &hex(rest)]);
        cases.put(&format!("order: {}", name), check_proof(&profile(&[]), &key("(e,(e,{e}))"), &bytes), wanted);
    };
    let cut = "0d 00 04 00 01 ff ff";
    put(cases, "line 0 does not follow, line 1 is cut", &[broken], cut, "refused 9 3 0");
    put(cases, "line 0 follows, line 1 is cut", &[sound], cut, "refused 1 3 1");
    put(cases, "line 0 does not follow, one byte after it", &[broken], "09", "refused 9 3 0");
    put(cases, "line 0 follows, one byte after it", &[sound], "09", "refused 1 3 1");
    put(cases, "line 0 does not follow, line 1 is a node", &[broken], "09 00 03 00 ff ff cb 00 00", "refused 9 3 0");
    put(cases, "line 0 follows, line 1 is a node", &[sound], "09 00 03 00 ff ff cb 00 00", "refused 2 3 1");
    put(cases, "line 0 does not follow, line 1 has an undeclared symbol", &[broken, "1 - - (8,(e,{e}))"], "", "refused 9 3 0");
    put(cases, "line 1 has an undeclared symbol, line 2 does not follow", &[sound, "1 - - (8,(e,{e}))", broken], "", "refused 4 3 1");
    put(cases, "two lines do not follow", &[sound, broken, sound, broken], "", "refused 9 3 1");
    put(cases, "9 before 10", &[broken, "1 - - (run,(e,{e}))"], "", "refused 9 3 0");
    put(cases, "10 after all lines", &[sound, sound, "1 - - (run,(e,{e}))"], "", "refused 10 3 2");
}
