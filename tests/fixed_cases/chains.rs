//! Decisions: several keys that are all needed, steps that start inside a branch, 64 keys, and paths of 8 symbols everywhere.
use super::decisions::{implied, not_implied};
use super::expectations::Cases;
use super::notation::*;

pub fn put(cases: &mut Cases) {
    three_keys(cases);
    eight_keys(cases);
    overlapping_steps(cases);
    steps_over_q(cases);
    steps_inside_a_branch(cases);
    steps_from_two_branches(cases);
    many_keys(cases);
    eight_symbols(cases);
    eight_symbols_implied(cases);
}

/// stamp to frame, frame to port, port to root; without one of them u is where the way from the root ends.
fn three_keys(cases: &mut Cases) {
    let asked = "(e,(port.frame.stamp,{#}))";
    let keys = ["(e,(port,{frame.stamp.#}))", "(port,(frame,{stamp.#}))", "(port.frame,(stamp,{#}))"];
    implied(cases, &keys, asked);
    implied(cases, &[keys[2], keys[1], keys[0]], asked);
    let from_root = "0 - 203 -/1 0 202 1/2 0 3 -/3 2 202 3/4 2 4 -/5 4 202 5/6 4 5 -/7 6 202 7/8 6 1 8/\
                     9 0 3 -/10 9 202 10/11 9 4 -/12 11 202 12/13 11 5 -/14 13 202 14/15 13 1 8";
    let from_port = "0 - 203 -/1 0 202 1/2 0 3 -/3 2 202 3/4 2 4 -/5 4 202 5/6 4 5 -/7 6 202 7/8 6 1 8/\
                     9 2 4 -/10 9 202 10/11 9 5 -/12 11 202 12/13 11 1 8";
    let from_frame = "0 - 203 -/1 0 202 1/2 0 3 -/3 2 202 3/4 2 4 -/5 4 202 5/6 4 5 -/7 6 202 7/8 6 1 8/9 4 5 -/10 9 202 10/11 9 1 8";
    not_implied(cases, &[keys[1], keys[2]], asked, from_root);
    not_implied(cases, &[keys[0], keys[2]], asked, from_port);
    not_implied(cases, &[keys[0], keys[1]], asked, from_frame);
    not_implied(cases, &[keys[0]], asked, from_port);
    not_implied(cases, &[keys[2]], asked, from_root);
    not_implied(cases, &[], asked, from_root);
}

/// So many runs with a dot between them, then what follows.
fn runs(count: usize, last: &str) -> String {
    let mut words = vec!["run"; count];
    words.extend(if last.is_empty() { None } else { Some(last) });
    if words.is_empty() {
        return "e".to_string();
    }
    words.join(".")
}

/// Eight steps, one level each. Without key i (counted from 1) node i does not step up, so u is node i - 1: the trunk has 2i nodes,
/// each copy 2(9 - i) + 1, which makes 38 - 2i.
fn eight_keys(cases: &mut Cases) {
    let keys: Vec<String> = (0..8).map(|k| format!("({},(run,{{{}}}))", runs(k, ""), runs(7 - k, "@id"))).collect();
    let question = key(&format!("(e,({},{{@id}}))", runs(8, "")));
    let with = |keys: &[&String]| profile(&keys.iter().map(|text| text.as_str()).collect::<Vec<&str>>());
    let all: Vec<&String> = keys.iter().collect();
    let backwards: Vec<&String> = keys.iter().rev().collect();
    cases.put("eight keys, eight steps", decide(&with(&all), &question), "implied");
    cases.put("eight keys, the other way round", decide(&with(&backwards), &question), "implied");
    for (without, wanted) in [
        (1, "not implied 396"),
        (2, "not implied 374"),
        (3, "not implied 352"),
        (4, "not implied 330"),
        (5, "not implied 308"),
        (6, "not implied 286"),
        (7, "not implied 264"),
        (8, "not implied 242"),
    ] {
        let mut fewer = all.clone();
        fewer.remove(without - 1);
        cases.put(&format!("eight keys without key {}", without), decide(&with(&fewer), &question), wanted);
    }
}

/// A step up, some steps down to children, and a step up from there.
fn overlapping_steps(cases: &mut Cases) {
    let asked = "(e,(run.port.frame.stamp,{#}))";
    let (lower, upper) = ("(run.port,(frame.stamp,{#}))", "(e,(run.port.frame,{stamp.#}))");
    implied(cases, &[lower, upper], asked);
    implied(cases, &[upper, lower], asked);
    // Without the lower key the frame still leads to the root, so u is the frame.
    let from_frame = "0 - 203 -/1 0 202 1/2 0 2 -/3 2 202 3/4 2 3 -/5 4 202 5/6 4 4 -/7 6 202 7/8 6 5 -/9 8 202 9/10 8 1 10/\
                      11 6 5 -/12 11 202 12/13 11 1 10";
    not_implied(cases, &[upper], asked, from_frame);
    // Without the upper key nothing leads to the root but the root.
    cases.put("overlapping steps without the upper", decide(&profile(&[lower]), &key(asked)), "not implied 220");
    // The step of (run,(port,..)) ends below q's reach: the run is never left.
    cases.put("steps that stop short", decide(&profile(&["(run,(port.frame.stamp,{#}))"]), &key(asked)), "not implied 220");
    implied(cases, &["(run,(port.frame.stamp,{#}))", "(e,(run,{port.frame.stamp.#}))"], asked);
}

/// Steps may end above q: its ancestors lead to it downwards.
fn steps_over_q(cases: &mut Cases) {
    implied(cases, &["(e,(run.port.frame,{@seq}))"], "(run,(port.frame,{@seq}))");
    implied(cases, &["(e,(run.port.frame,{@seq}))"], "(run.port,(frame,{@seq}))");
    implied(cases, &["(run,(port,{frame.@seq}))", "(run.port,(frame,{@seq}))"], "(run,(port.frame,{@seq}))");
    implied(cases, &["(e,(run.port,{frame.@seq}))", "(run.port,(frame,{@seq}))"], "(run,(port.frame,{@seq}))");
    // Both keys step to the root or from a node beside the way: q is the run, and port does not lead to it.
    let asked = "(run,(port.frame,{@seq}))";
    let from_run = "0 - 203 -/1 0 202 1/2 0 2 -/3 2 202 3/4 2 3 -/5 4 202 5/6 4 4 -/7 6 202 7/8 6 7 8/\
                    9 2 3 -/10 9 202 10/11 9 4 -/12 11 202 12/13 11 7 8";
    not_implied(cases, &["(e,(run,{port.frame.@seq}))", "(run.port,(frame,{@seq}))"], asked, from_run);
}

/// "from t one separate branch for each key path": t leads down into a branch, and a node there steps up.
fn steps_inside_a_branch(cases: &mut Cases) {
    implied(cases, &["(e,(port.frame,{@seq}))"], "(e,(port,{frame.@seq}))");
    implied(cases, &["(e,(port.frame.stamp,{#}))"], "(e,(port,{frame.stamp.#}))");
    implied(cases, &["(e,(port.frame.stamp.#,{e}))"], "(e,(port,{frame.stamp.#}))");
    implied(cases, &["(e,(port.frame,{stamp.#}))"], "(e,(port,{@id,frame.stamp.#}))");
    implied(cases, &["(e,(_*.stamp,{e}))"], "(e,(port,{@id,frame.stamp}))");
    let asked = "(e,(run.port,{frame.@seq}))";
    let (inner, outer) = ("(run,(port.frame,{@seq}))", "(e,(run,{port.frame.@seq}))");
    implied(cases, &[inner, outer], asked);
    cases.put("from a branch to the run, and no further", decide(&profile(&[inner]), &key(asked)), "not implied 176");
    cases.put("from the run, and no way up to it", decide(&profile(&[outer]), &key(asked)), "not implied 154");
    // Steps within the branch, or to t itself, lead no further.
    let within = "0 - 203 -/1 0 202 1/2 0 3 -/3 2 202 3/4 2 4 -/5 4 202 5/6 4 5 -/7 6 202 7/8 6 1 8/\
                  9 0 3 -/10 9 202 10/11 9 4 -/12 11 202 12/13 11 5 -/14 13 202 14/15 13 1 8";
    let below_root = ["(port,(frame.stamp,{#}))", "(port.frame,(stamp,{#}))", "(port,(frame,{stamp.#}))"];
    not_implied(cases, &below_root, "(e,(port,{frame.stamp.#}))", within);
    // The stamp is no end of a branch and so not marked.
    not_implied(cases, &["(e,(port.frame,{stamp}))", "(e,(port.frame.stamp,{e}))"], "(e,(port,{frame.stamp.#}))", within);
}

/// With two branches a step inside one asks only for marks of that branch.
fn steps_from_two_branches(cases: &mut Cases) {
    let asked = "(e,(run.port,{frame.@seq,stamp.#}))";
    implied(cases, &["(e,(run.port.frame,{@seq}))"], asked);
    implied(cases, &["(e,(run.port.stamp,{#}))"], asked);
    implied(cases, &["(run,(port.stamp,{#}))", "(e,(run,{port.frame.@seq,port.stamp.#}))"], asked);
    implied(cases, &["(run,(port.stamp,{#}))", "(e,(run,{port.frame.@seq}))"], asked);
    implied(cases, &["(run,(port,{frame.@seq,stamp.#}))", "(e,(run,{port.stamp.#}))"], asked);
    // u is the root: 2 nodes; in each copy run, port, frame and stamp have 2, @seq and text 1.
    let no_step = decide(&profile(&["(e,(run.port.frame,{@seq,stamp.#}))"]), &key(asked));
    cases.put("no frame has both marks below it", no_step, "not implied 242");
    // u is the run: 4 nodes, and 8 in each copy.
    let from_run = decide(&profile(&["(e,(run,{port.frame.@seq,port.stamp.#}))"]), &key(asked));
    cases.put("the run alone steps to the root", from_run, "not implied 220");
}

/// 64 keys, of which few are of use, wherever they stand.
fn many_keys(cases: &mut Cases) {
    let question = key("(e,(port.frame,{@seq}))");
    let idle = different(64, "(stamp,{@id}))");
    let all_idle = || idle.iter().map(String::as_str).collect::<Vec<&str>>();
    let at = |places: &[(usize, &'static str)]| {
        let mut keys = all_idle();
        places.iter().for_each(|&(place, text)| keys[place] = text);
        profile(&keys)
    };
    let (port, frame, whole) = ("(e,(port,{frame.@seq}))", "(port,(frame,{@seq}))", "(e,(_*.frame,{@seq}))");
    for place in [0, 31, 63] {
        cases.put(&format!("64 keys, key {} of use", place), decide(&at(&[(place, whole)]), &question), "implied");
        cases.put(&format!("64 keys, key {} not enough", place), decide(&at(&[(place, frame)]), &question), "not implied 132");
    }
    for (first, second) in [(0, 63), (63, 0), (62, 63), (31, 32)] {
        let two = at(&[(first, port), (second, frame)]);
        cases.put(&format!("64 keys, keys {} and {} of use", first, second), decide(&two, &question), "implied");
    }
    cases.put("64 keys, none of use", decide(&at(&[]), &question), "not implied 132");
    // Only the port leads to the root, so u is the port: 4 nodes, and 3 in each copy.
    cases.put("64 keys, u is the port", decide(&at(&[(63, port)]), &question), "not implied 110");
    let chain: Vec<String> = (0..8).map(|k| format!("({},(run,{{{}}}))", runs(k, ""), runs(7 - k, "@id"))).collect();
    let mut keys = all_idle();
    (0..8).for_each(|k| keys[63 - 8 * k] = &chain[k]);
    let long = key(&format!("(e,({},{{@id}}))", runs(8, "")));
    cases.put("64 keys, eight steps", decide(&profile(&keys), &long), "implied");
    keys[63] = &idle[63];
    cases.put("64 keys, the first of eight steps is missing", decide(&profile(&keys), &long), "not implied 396");
}

/// The largest pattern: 8 symbols in C, in T and in each of 4 key paths. The trunk has root and C, 18 nodes; each copy has T and the
/// branches, 16 and 4 times 16: 178 nodes, the most that a written tree has (02, request 8), so 178 * 11 = 1958 bytes.
fn eight_symbols(cases: &mut Cases) {
    let (c, t) = (runs(8, ""), "port.port.port.port.port.port.port.port");
    let elements = ["run", "port", "frame", "stamp"].map(|last| runs(7, last)).join(",");
    let leaves = ["#", "stamp", "@id", "@seq"].map(|last| runs(7, last)).join(",");
    let any = "_*.run._*.run._*.run._*.run";
    let ask = |context: &str, target: &str, set: &str| key(&format!("({},({},{{{}}}))", context, target, set));
    cases.put("8 symbols everywhere, elements", decide(&profile(&[]), &ask(&c, t, &elements)), "not implied 1958");
    // Three branches end in a leaf, which has no filler: 3 nodes less in each copy.
    cases.put("8 symbols everywhere, leaves", decide(&profile(&[]), &ask(&c, t, &leaves)), "not implied 1892");
    cases.put("8 symbols everywhere, any-paths", decide(&profile(&[]), &ask(any, any, &elements)), "not implied 1958");
    // Without the context: root 2, each copy 16 and 64.
    cases.put("8 symbols in T and P", decide(&profile(&[]), &ask("e", t, &elements)), "not implied 1782");
    let near = format!("({},({},{{{}}}))", c, t, runs(8, ""));
    let far = format!("({},({},{{{}}}))", c, t, leaves);
    cases.put("8 symbols everywhere, a key path that is no end", decide(&profile(&[&far]), &ask(&c, t, &elements)), "not implied 1958");
    cases.put("8 symbols everywhere, one key path of four", decide(&profile(&[&near]), &ask(&c, t, &elements)), "implied");
}

fn eight_symbols_implied(cases: &mut Cases) {
    let (c, t) = (runs(8, ""), "port.port.port.port.port.port.port.port");
    let set = ["#", "stamp", "@id", "@seq"].map(|last| runs(7, last)).join(",");
    let (any_c, any_t) = ("_*.run._*.run._*.run._*.run", "_*.port._*.port._*.port._*.port");
    let whole = format!("({},({},{{{}}}))", c, t, set);
    let wide = format!("({},({},{{{}}}))", any_c, any_t, set);
    cases.put("8 symbols everywhere, the key itself", decide(&profile(&[&whole]), &key(&whole)), "implied");
    cases.put("8 symbols everywhere, from any-paths", decide(&profile(&[&wide]), &key(&whole)), "implied");
    cases.put("8 symbols everywhere, any-paths from themselves", decide(&profile(&[&wide]), &key(&wide)), "implied");
    // 18 for root and C; each copy 16 for T, 15 for each of three branches, 16 for the fourth.
    cases.put("8 symbols everywhere, any-paths from labels", decide(&profile(&[&whole]), &key(&wide)), "not implied 1892");
}
