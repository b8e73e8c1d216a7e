//! Checks: for each rule of 01, lines that follow and lines that differ in one symbol, path or premise and do not.
use super::expectations::Cases;
use super::notation::*;

pub fn put(cases: &mut Cases) {
    citing(cases);
    epsilon(cases);
    from_one(cases, 2, &PREFIX_EPSILON);
    from_one(cases, 3, &SUPERKEY);
    from_one(cases, 4, &SUBNODES);
    from_one(cases, 5, &CONTEXT_PATH);
    from_one(cases, 6, &TARGET_PATH);
    from_one(cases, 7, &CONTEXT_TARGET);
    from_one(cases, 8, &SUBNODES_EPSILON);
    interaction(cases, &INTERACTION, YES);
    interaction(cases, &NO_INTERACTION, NO);
}

/// Whether a line follows.
const YES: bool = true;
const NO: bool = false;

/// The proof's last key is the question, so that it is accepted exactly when each line follows.
pub fn check(cases: &mut Cases, name: &str, keys: &[&str], lines: &[&str], wanted: &str) {
    let question = key(key_text(lines[lines.len() - 1]));
    cases.put(name, check_proof(&profile(keys), &question, &proof(lines)), wanted);
}

/// Rule 0 "cites key number *first premise* of the profile".
fn citing(cases: &mut Cases) {
    let (first, second) = ("(e,(port.frame,{@seq}))", "(port,(_*.frame,{e,@id}))");
    for (name, line, follows) in [
        ("key 0", "0 0 - (e,(port.frame,{@seq}))", YES),
        ("key 1", "0 1 - (port,(_*.frame,{e,@id}))", YES),
        ("key 1 as key 0", "0 0 - (port,(_*.frame,{e,@id}))", NO),
        ("key 0 as key 1", "0 1 - (e,(port.frame,{@seq}))", NO),
        ("key 2 of two", "0 2 - (e,(port.frame,{@seq}))", NO),
        ("no key number", "0 - - (e,(port.frame,{@seq}))", NO),
        ("key number 256 is not key 0", "0 256 - (e,(port.frame,{@seq}))", NO),
        ("another context", "0 0 - (run,(port.frame,{@seq}))", NO),
        ("another target", "0 0 - (e,(port.stamp,{@seq}))", NO),
        ("another key path", "0 0 - (e,(port.frame,{@id}))", NO),
        ("one key path more", "0 0 - (e,(port.frame,{@id,@seq}))", NO),
        ("one key path less", "0 1 - (port,(_*.frame,{e}))", NO),
        ("a second premise", "0 0 0 (e,(port.frame,{@seq}))", NO),
    ] {
        let wanted = if follows { "accepted" } else { "refused 9 3 0" };
        check(cases, &format!("rule 0: {}", name), &[first, second], &[line], wanted);
    }
    check(cases, "rule 0: the profile has no key", &[], &["0 0 - (e,(port.frame,{@seq}))"], "refused 9 3 0");
    let others = different(63, "(run,{@id}))");
    let mut many: Vec<&str> = others.iter().map(String::as_str).collect();
    many.push(first);
    check(cases, "rule 0: key 63 of 64", &many, &["0 63 - (e,(port.frame,{@seq}))"], "accepted");
    check(cases, "rule 0: key 64 of 64", &many, &["0 64 - (e,(port.frame,{@seq}))"], "refused 9 3 0");
}

/// Rule 1: "no premise; any key with empty target".
fn epsilon(cases: &mut Cases) {
    for (line, follows) in [
        ("1 - - (e,(e,{e}))", YES),
        ("1 - - (run,(e,{@id}))", YES),
        ("1 - - (run._*.port,(e,{e,frame,frame.stamp,frame.@seq}))", YES),
        ("1 - - (_*.@id,(e,{e}))", YES),
        ("1 - - (e,(run,{@id}))", NO),
        ("1 - - (e,(_*,{e}))", NO),
        ("1 - - (run,(@id,{e}))", NO),
        ("1 0 - (e,(e,{e}))", NO),
        ("1 - 0 (e,(e,{e}))", NO),
        ("1 65534 - (e,(e,{e}))", NO),
    ] {
        let wanted = if follows { "accepted" } else { "refused 9 3 0" };
        check(cases, &format!("rule 1: {}", line), &["(e,(e,{e}))"], &[line], wanted);
    }
}

type OnePremise = (&'static str, &'static str, bool);

/// Line 0 cites the premise, line 1 is tried.
fn from_one(cases: &mut Cases, rule: u8, rows: &[OnePremise]) {
    for &(premise, new, follows) in rows {
        let lines = [format!("0 0 - {}", premise), format!("{} 0 - {}", rule, new)];
        let (word, wanted) = if follows { ("gives", "accepted") } else { ("does not give", "refused 9 3 1") };
        check(cases, &format!("rule {}: {} {} {}", rule, premise, word, new), &[premise], &[&lines[0], &lines[1]], wanted);
    }
}

/// "S and the new set both hold the empty path; each path of S begins some path of the new set."
const PREFIX_EPSILON: [OnePremise; 15] = [
    ("(e,(port,{e,frame}))", "(e,(port,{e,frame.@seq}))", YES),
    ("(e,(port,{e}))", "(e,(port,{e,frame.@seq}))", YES),
    ("(e,(port,{e,frame}))", "(e,(port,{e,frame}))", YES),
    ("(e,(port,{e,frame,stamp}))", "(e,(port,{e,frame.@seq,stamp.#}))", YES),
    ("(e,(port,{e,frame,frame.stamp}))", "(e,(port,{e,frame.stamp.#}))", YES),
    ("(run._*,(port,{e,frame}))", "(run._*,(port,{e,frame,frame.@id}))", YES),
    ("(e,(port,{frame}))", "(e,(port,{frame.@seq}))", NO),
    ("(e,(port,{frame}))", "(e,(port,{e,frame.@seq}))", NO),
    ("(e,(port,{e,frame}))", "(e,(port,{frame.@seq}))", NO),
    ("(e,(port,{e,frame.@seq}))", "(e,(port,{e,frame}))", NO),
    ("(e,(port,{e,frame}))", "(e,(port,{e}))", NO),
    ("(e,(port,{e,frame}))", "(e,(port,{e,stamp.frame}))", NO),
    ("(e,(port,{e,frame,stamp}))", "(e,(port,{e,frame.@seq}))", NO),
    ("(e,(port,{e,frame}))", "(run,(port,{e,frame.@seq}))", NO),
    ("(e,(port,{e,frame}))", "(e,(run,{e,frame.@seq}))", NO),
];

/// "the new set includes S".
const SUPERKEY: [OnePremise; 11] = [
    ("(e,(port,{@seq}))", "(e,(port,{@seq}))", YES),
    ("(e,(port,{@seq}))", "(e,(port,{@id,@seq}))", YES),
    ("(e,(port,{@seq}))", "(e,(port,{e,@seq}))", YES),
    ("(_*,(port,{frame,@seq}))", "(_*,(port,{frame,stamp,@seq,frame.#}))", YES),
    ("(e,(port,{@id,@seq}))", "(e,(port,{@id}))", NO),
    ("(e,(port,{@id,@seq}))", "(e,(port,{e,@seq,frame.@id}))", NO),
    ("(e,(port,{@seq}))", "(e,(port,{@id}))", NO),
    ("(e,(port,{e}))", "(e,(port,{@seq}))", NO),
    ("(e,(port,{frame}))", "(e,(port,{@id,frame.@seq}))", NO),
    ("(e,(port,{@seq}))", "(run,(port,{@id,@seq}))", NO),
    ("(e,(port.frame,{@seq}))", "(e,(frame,{@id,@seq}))", NO),
];

/// "T = X.P, P simple, S = {p}; gives (C, (X, {P.p}))."
const SUBNODES: [OnePremise; 21] = [
    ("(e,(port.frame,{@seq}))", "(e,(port,{frame.@seq}))", YES),
    ("(e,(port.frame,{@seq}))", "(e,(e,{port.frame.@seq}))", YES),
    ("(e,(port.frame,{@seq}))", "(e,(port.frame,{@seq}))", YES),
    ("(e,(_*.frame,{@seq}))", "(e,(_*,{frame.@seq}))", YES),
    ("(run,(port.frame,{e}))", "(run,(port,{frame}))", YES),
    ("(e,(port.@id,{e}))", "(e,(port,{@id}))", YES),
    ("(e,(run._*.port.frame,{stamp}))", "(e,(run._*,{port.frame.stamp}))", YES),
    ("(e,(port.frame,{stamp,@seq}))", "(e,(port,{frame.stamp,frame.@seq}))", NO),
    ("(e,(port.frame,{stamp,@seq}))", "(e,(port,{frame.stamp}))", NO),
    ("(e,(port.frame,{stamp,@seq}))", "(e,(port,{frame.@seq}))", NO),
    ("(e,(port.frame,{e,stamp}))", "(e,(port,{frame,frame.stamp}))", NO),
    ("(e,(port.frame,{e,stamp}))", "(e,(port,{frame}))", NO),
    ("(e,(port.frame,{@seq}))", "(e,(port,{@seq}))", NO),
    ("(e,(port.frame,{@seq}))", "(e,(port,{frame.@id}))", NO),
    ("(e,(port.frame,{@seq}))", "(e,(port,{stamp.@seq}))", NO),
    ("(e,(port.frame,{@seq}))", "(e,(frame,{port.@seq}))", NO),
    ("(e,(port.frame,{@seq}))", "(port,(e,{frame.@seq}))", NO),
    ("(e,(port.frame,{@seq}))", "(run,(port,{frame.@seq}))", NO),
    ("(e,(port.frame,{@seq}))", "(e,(port,{e,frame.@seq}))", NO),
    ("(e,(port._*.frame,{@seq}))", "(e,(port,{frame.@seq}))", NO),
    ("(e,(port,{frame.@seq}))", "(e,(port.frame,{@seq}))", NO),
];

/// "new context included in C".
const CONTEXT_PATH: [OnePremise; 14] = [
    ("(_*,(frame,{@seq}))", "(port,(frame,{@seq}))", YES),
    ("(_*,(frame,{@seq}))", "(e,(frame,{@seq}))", YES),
    ("(_*,(frame,{@seq}))", "(_*.port,(frame,{@seq}))", YES),
    ("(_*,(frame,{@seq}))", "(_*,(frame,{@seq}))", YES),
    ("(port._*,(frame,{@seq}))", "(port.run.stamp,(frame,{@seq}))", YES),
    ("(run._*.run,(_*.frame,{@seq}))", "(run.port._*.run,(_*.frame,{@seq}))", YES),
    ("(port,(frame,{@seq}))", "(_*,(frame,{@seq}))", NO),
    ("(e,(frame,{@seq}))", "(port,(frame,{@seq}))", NO),
    ("(port._*,(frame,{@seq}))", "(run.port,(frame,{@seq}))", NO),
    ("(_*.port,(frame,{@seq}))", "(_*,(frame,{@seq}))", NO),
    ("(run._*.run,(frame,{@seq}))", "(_*.run.run,(frame,{@seq}))", NO),
    ("(_*.run.run,(frame,{@seq}))", "(run._*.run,(frame,{@seq}))", NO),
    ("(_*,(frame,{@seq}))", "(port,(stamp,{@seq}))", NO),
    ("(_*,(frame,{@seq}))", "(port,(frame,{@id,@seq}))", NO),
];

/// "new target included in T".
const TARGET_PATH: [OnePremise; 14] = [
    ("(e,(_*.frame,{@seq}))", "(e,(port.frame,{@seq}))", YES),
    ("(e,(_*.frame,{@seq}))", "(e,(frame,{@seq}))", YES),
    ("(e,(_*.frame,{@seq}))", "(e,(_*.port._*.frame,{@seq}))", YES),
    ("(e,(_*.frame,{@seq}))", "(e,(_*.frame,{@seq}))", YES),
    ("(run,(_*,{e}))", "(run,(@id,{e}))", YES),
    ("(e,(port._*,{e}))", "(e,(port.run.#,{e}))", YES),
    ("(run,(_*,{e}))", "(run,(e,{e}))", YES),
    ("(e,(port.frame,{@seq}))", "(e,(_*.frame,{@seq}))", NO),
    ("(e,(frame,{@seq}))", "(e,(port.frame,{@seq}))", NO),
    ("(e,(_*.frame,{@seq}))", "(e,(_*,{@seq}))", NO),
    ("(e,(_*.frame,{@seq}))", "(e,(port.stamp,{@seq}))", NO),
    ("(e,(run._*.run,{@seq}))", "(e,(_*.run.run,{@seq}))", NO),
    ("(e,(_*.frame,{@seq}))", "(run,(port.frame,{@seq}))", NO),
    ("(e,(_*.frame,{@seq}))", "(e,(port.frame,{@id}))", NO),
];

/// "X and Y exist with X.Y = T; gives (C.X, (Y, S)). A single `_*` may split into two."
const CONTEXT_TARGET: [OnePremise; 24] = [
    ("(e,(port.frame,{@seq}))", "(port,(frame,{@seq}))", YES),
    ("(e,(port.frame,{@seq}))", "(port.frame,(e,{@seq}))", YES),
    ("(e,(port.frame,{@seq}))", "(e,(port.frame,{@seq}))", YES),
    ("(e,(_*,{@seq}))", "(_*,(_*,{@seq}))", YES),
    ("(e,(_*,{@seq}))", "(_*,(e,{@seq}))", YES),
    ("(e,(_*,{@seq}))", "(e,(_*,{@seq}))", YES),
    ("(run,(port._*.frame,{@seq}))", "(run.port._*,(_*.frame,{@seq}))", YES),
    ("(run,(port._*.frame,{@seq}))", "(run.port,(_*.frame,{@seq}))", YES),
    ("(run,(port._*.frame,{@seq}))", "(run.port._*,(frame,{@seq}))", YES),
    ("(_*,(_*.frame,{@seq}))", "(_*,(frame,{@seq}))", YES),
    ("(_*,(_*.frame,{@seq}))", "(_*,(_*.frame,{@seq}))", YES),
    ("(_*,(_*.frame,{@seq}))", "(_*.frame,(e,{@seq}))", YES),
    ("(_*,(port.frame,{@seq}))", "(_*.port,(frame,{@seq}))", YES),
    ("(e,(port.@id,{e}))", "(port.@id,(e,{e}))", YES),
    ("(port,(frame,{@seq}))", "(e,(port.frame,{@seq}))", NO),
    ("(e,(port.frame,{@seq}))", "(frame,(port,{@seq}))", NO),
    ("(e,(port.frame,{@seq}))", "(port,(frame,{@id}))", NO),
    ("(e,(port.frame,{@seq}))", "(port,(_*.frame,{@seq}))", NO),
    ("(e,(port.frame,{@seq}))", "(port,(port.frame,{@seq}))", NO),
    ("(e,(port.frame.stamp,{#}))", "(port,(stamp,{#}))", NO),
    ("(e,(_*,{@seq}))", "(e,(e,{@seq}))", NO),
    ("(e,(_*.frame,{@seq}))", "(e,(frame,{@seq}))", NO),
    ("(run,(port._*.frame,{@seq}))", "(run.port,(frame,{@seq}))", NO),
    ("(_*,(port.frame,{@seq}))", "(port,(frame,{@seq}))", NO),
];

/// "T = X.P, P simple, S = {empty, p}, where p may itself be empty; gives (C, (X, {empty, P.p}))."
const SUBNODES_EPSILON: [OnePremise; 21] = [
    ("(e,(port.frame,{e,stamp}))", "(e,(port,{e,frame.stamp}))", YES),
    ("(e,(port.frame,{e,stamp}))", "(e,(e,{e,port.frame.stamp}))", YES),
    ("(e,(port.frame,{e,stamp}))", "(e,(port.frame,{e,stamp}))", YES),
    ("(e,(port.frame,{e}))", "(e,(port,{e,frame}))", YES),
    ("(e,(port.frame,{e}))", "(e,(e,{e,port.frame}))", YES),
    ("(e,(port.frame,{e}))", "(e,(port.frame,{e}))", YES),
    ("(run,(_*.frame,{e,@seq}))", "(run,(_*,{e,frame.@seq}))", YES),
    ("(e,(port.@id,{e}))", "(e,(port,{e,@id}))", YES),
    ("(e,(port.frame,{e,stamp,@seq}))", "(e,(port,{e,frame.stamp,frame.@seq}))", NO),
    ("(e,(port.frame,{e,stamp,@seq}))", "(e,(port,{e,frame.stamp}))", NO),
    ("(e,(port.frame,{stamp,@seq}))", "(e,(port,{frame.stamp,frame.@seq}))", NO),
    ("(e,(port.frame,{stamp}))", "(e,(port,{e,frame.stamp}))", NO),
    ("(e,(port.frame,{e,stamp}))", "(e,(port,{frame.stamp}))", NO),
    ("(e,(port.frame,{e,stamp}))", "(e,(port,{frame,frame.stamp}))", NO),
    ("(e,(port.frame,{e,stamp}))", "(e,(port,{e,stamp}))", NO),
    ("(e,(port.frame,{e,stamp}))", "(e,(port,{e,frame}))", NO),
    ("(e,(port.frame,{e,stamp}))", "(e,(port,{e,frame,frame.stamp}))", NO),
    ("(e,(port.frame,{e,stamp}))", "(run,(port,{e,frame.stamp}))", NO),
    ("(e,(port.frame,{e}))", "(e,(port,{e}))", NO),
    ("(e,(port._*.frame,{e,@seq}))", "(e,(port,{e,frame.@seq}))", NO),
    ("(e,(port,{e,frame.stamp}))", "(e,(port.frame,{e,stamp}))", NO),
];

type TwoPremises = (&'static str, &'static str, &'static str);

/// Lines 0 and 1 cite the premises, line 2 is tried.
fn interaction(cases: &mut Cases, rows: &[TwoPremises], follows: bool) {
    for &(first, second, new) in rows {
        let lines = [format!("0 0 - {}", first), format!("0 1 - {}", second), format!("9 0 1 {}", new)];
        let (word, wanted) = if follows { ("give", "accepted") } else { ("do not give", "refused 9 3 2") };
        let name = format!("rule 9: {} and {} {} {}", first, second, word, new);
        check(cases, &name, &[first, second], &[&lines[0], &lines[1], &lines[2]], wanted);
    }
}

/// "first premise (C, (X, {P.p for p in S2})), second (C.X, (P, S2)), P simple; gives (C, (X.P, S2))."
const INTERACTION: [TwoPremises; 10] = [
    ("(e,(port,{frame.@seq}))", "(port,(frame,{@seq}))", "(e,(port.frame,{@seq}))"),
    ("(e,(port,{frame.stamp,frame.@seq}))", "(port,(frame,{stamp,@seq}))", "(e,(port.frame,{stamp,@seq}))"),
    ("(e,(port,{frame}))", "(port,(frame,{e}))", "(e,(port.frame,{e}))"),
    ("(e,(port,{frame,frame.@seq}))", "(port,(frame,{e,@seq}))", "(e,(port.frame,{e,@seq}))"),
    ("(e,(port,{frame.stamp.#}))", "(port,(frame.stamp,{#}))", "(e,(port.frame.stamp,{#}))"),
    ("(e,(port,{@id}))", "(port,(@id,{e}))", "(e,(port.@id,{e}))"),
    ("(e,(port,{@seq}))", "(port,(e,{@seq}))", "(e,(port,{@seq}))"),
    ("(run,(e,{frame.@seq}))", "(run,(frame,{@seq}))", "(run,(frame,{@seq}))"),
    ("(_*,(_*.port,{frame.@seq}))", "(_*.port,(frame,{@seq}))", "(_*,(_*.port.frame,{@seq}))"),
    ("(run._*,(_*,{frame.@seq}))", "(run._*,(frame,{@seq}))", "(run._*,(_*.frame,{@seq}))"),
];

const NO_INTERACTION: [TwoPremises; 15] = [
    ("(e,(port,{frame.@seq}))", "(run,(frame,{@seq}))", "(e,(port.frame,{@seq}))"),
    ("(e,(port,{frame.@seq}))", "(e,(frame,{@seq}))", "(e,(port.frame,{@seq}))"),
    ("(e,(port,{frame.@seq}))", "(_*,(frame,{@seq}))", "(e,(port.frame,{@seq}))"),
    ("(port,(frame,{@seq}))", "(e,(port,{frame.@seq}))", "(e,(port.frame,{@seq}))"),
    ("(e,(port,{frame.@id,frame.@seq}))", "(port,(frame,{@seq}))", "(e,(port.frame,{@seq}))"),
    ("(e,(port,{frame.@seq}))", "(port,(frame,{@id,@seq}))", "(e,(port.frame,{@id,@seq}))"),
    ("(e,(port,{@seq}))", "(port,(frame,{@seq}))", "(e,(port.frame,{@seq}))"),
    ("(e,(port,{frame.@id}))", "(port,(frame,{@seq}))", "(e,(port.frame,{@seq}))"),
    ("(e,(port,{frame.@seq}))", "(port,(frame,{@seq}))", "(e,(port.frame,{@id,@seq}))"),
    ("(e,(port,{frame.@seq}))", "(port,(frame,{@seq}))", "(e,(port.stamp,{@seq}))"),
    ("(e,(port,{frame.@seq}))", "(port,(frame,{@seq}))", "(e,(port,{@seq}))"),
    ("(e,(port,{frame.@seq}))", "(port,(frame,{@seq}))", "(run,(port.frame,{@seq}))"),
    ("(e,(port,{frame.@seq}))", "(port,(frame,{@seq}))", "(e,(port._*.frame,{@seq}))"),
    ("(e,(port,{@seq}))", "(port,(_*,{@seq}))", "(e,(port._*,{@seq}))"),
    ("(e,(port,{frame}))", "(port,(frame,{e,@seq}))", "(e,(port.frame,{e,@seq}))"),
];
