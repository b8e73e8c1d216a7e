//! Decisions: decided questions. `implied` has its proof checked, `not implied` its tree, and where the tree is drawn by hand here it
//! is compared byte for byte.
use super::drawn;
use super::expectations::Cases;
use super::listings::BYTES_OF_B;
use super::notation::*;

pub fn put(cases: &mut Cases) {
    rows_of_01(cases);
    examples_of_001(cases);
    empty_targets(cases);
    any_paths_that_meet(cases);
    any_paths(cases);
    empty_key_path(cases);
    empty_key_path_drawn(cases);
    leaves_as_targets(cases);
    rooms_and_refusals(cases);
}

pub fn implied(cases: &mut Cases, keys: &[&str], asked: &str) {
    cases.put(&decision(keys, asked), decide(&profile(keys), &key(asked)), "implied");
}

/// Not implied, with the tree that 01 fixes.
pub fn not_implied(cases: &mut Cases, keys: &[&str], asked: &str, nodes: &str) {
    cases.put_bytes(&decision(keys, asked), decide(&profile(keys), &key(asked)), "not implied", &wide_tree(nodes));
}

fn decision(keys: &[&str], asked: &str) -> String {
    format!("decide: {} asks {}", if keys.is_empty() { "nothing".to_string() } else { keys.join(" ") }, asked)
}

/// 01, "Bench examples"; "bytes used is 11 times the nodes" (02, request 11).
fn rows_of_01(cases: &mut Cases) {
    let rows: [(&str, &[&str], &str, &str, &str); 12] = [
        ("a", &["(e,(port.frame,{@seq}))"], "(port,(frame,{@seq}))", "implied", ""),
        ("b", &["(port,(frame,{@seq}))"], "(e,(port.frame,{@seq}))", "not implied 132", drawn::B),
        ("c", &["(e,(port.frame,{e,stamp}))"], "(e,(port,{e,frame.stamp}))", "implied", ""),
        ("d", &["(e,(port.frame,{stamp,@seq}))"], "(e,(port,{frame.stamp,frame.@seq}))", "not implied 220", drawn::D),
        ("f", &["(e,(port,{frame.@seq}))", "(port,(frame,{@seq}))"], "(e,(port.frame,{@seq}))", "implied", ""),
        ("g", &[], "(run,(e,{@id}))", "implied", ""),
        ("h", &["(e,(_*.frame,{@seq}))"], "(e,(port.frame,{@seq}))", "implied", ""),
        ("i", &["(e,(port.frame,{@seq}))"], "(e,(_*.frame,{@seq}))", "not implied 132", drawn::I),
        ("j", &["(e,(frame,{stamp.#}))"], "(e,(frame,{stamp}))", "not implied 110", drawn::J),
        ("k", &["(e,(port,{frame}))"], "(e,(port,{frame.@seq}))", "not implied 132", drawn::K),
        ("l", &["(e,(port,{e,frame}))"], "(e,(port,{e,frame.@seq}))", "implied", ""),
        ("m", &[], "(port,(@id,{e}))", "not implied 66", drawn::M),
    ];
    for (row, keys, asked, wanted, nodes) in rows {
        let case = decide(&profile(keys), &key(asked));
        cases.put(&format!("row {}", row), case.clone(), wanted);
        if !nodes.is_empty() {
            cases.put_bytes(&format!("row {}, the tree", row), case, "not implied", &wide_tree(nodes));
        }
    }
    let b = decide(&profile(rows[1].1), &key(rows[1].2));
    cases.put_bytes("row b, the tree byte by byte", b, "not implied", &hex(BYTES_OF_B));
}

const BOOKS: Labels = &[(2, 1, "book"), (3, 1, "author"), (4, 1, "first"), (5, 1, "last"), (6, 2, "isbn")];
const RSA: Labels = &[(2, 1, "group"), (3, 1, "user"), (4, 1, "private"), (5, 1, "p"), (6, 1, "q")];
const ABC: Labels = &[(2, 1, "A"), (3, 1, "B"), (4, 1, "C")];

fn examples_of_001(cases: &mut Cases) {
    let ask = |of: Labels, keys: &[&str], asked: &str| decide(&profile_of(of, keys), &key_of(of, asked));
    let four = ask(BOOKS, &["(e,(_*.book,{@isbn}))", "(_*.book,(author,{first,last}))"], "(e,(_*.book.author,{first,last}))");
    // u is the root: the author steps to its book, and no book to the root.
    let tree_of_four = "0 - 203 -/1 0 202 1/\
        2 0 201 -/3 2 202 3/4 2 2 -/5 4 202 5/6 4 3 -/7 6 202 7/8 6 4 -/9 8 202 9/10 6 5 -/11 10 202 11/\
        12 0 201 -/13 12 202 13/14 12 2 -/15 14 202 15/16 14 3 -/17 16 202 17/18 16 4 -/19 18 202 9/20 16 5 -/21 20 202 11";
    cases.put_bytes("001, Example 4", four, "not implied", &wide_tree(tree_of_four));
    let five = ask(BOOKS, &["(_*.book,(author,{e}))"], "(_*.book,(author,{first,last}))");
    // u is q, the book: root, filler and book stand once.
    let tree_of_five = "0 - 203 -/1 0 202 1/2 0 201 -/3 2 202 3/4 2 2 -/5 4 202 5/\
        6 4 3 -/7 6 202 7/8 6 4 -/9 8 202 9/10 6 5 -/11 10 202 11/\
        12 4 3 -/13 12 202 13/14 12 4 -/15 14 202 9/16 12 5 -/17 16 202 11";
    cases.put_bytes("001, Example 5", five, "not implied", &wide_tree(tree_of_five));
    let (first, second) = ("(e,(group.user,{private.p,private.q}))", "(group,(user.private,{p,q}))");
    let asked = "(e,(group.user.private,{p,q}))";
    cases.put("001, Example 6", ask(RSA, &[first, second], asked), "implied");
    // Each key is needed. With the first alone u is the user: 6 nodes, and 6 in each copy. With the second alone u is the root.
    cases.put("001, Example 6 without its second key", ask(RSA, &[first], asked), "not implied 198");
    cases.put("001, Example 6 without its first key", ask(RSA, &[second], asked), "not implied 242");
    cases.put("001, after Table 2", ask(ABC, &["(e,(A.B,{e,C}))"], "(e,(A,{e,B.C}))"), "implied");
    cases.put("001, after Table 2, without the empty path", ask(ABC, &["(e,(A.B,{e,C}))"], "(e,(A,{B.C}))"), "not implied 154");
}

/// With an empty target t is q.
fn empty_targets(cases: &mut Cases) {
    let relative = ["(_*,(e,{e}))", "(run._*.port,(e,{e,frame,frame.#}))", "(port.@id,(e,{e}))", "(_*.#,(e,{e}))"];
    for asked in ["(e,(e,{e}))", "(e,(e,{@id}))"].into_iter().chain(relative) {
        implied(cases, &[], asked);
        implied(cases, &["(e,(port,{frame}))"], asked);
    }
    cases.put("decide: an empty profile", decide(&[], &key("(e,(e,{e}))")), "implied");
    let twins = "0 - 203 -/1 0 202 1/2 0 201 -/3 2 202 3/4 0 201 -/5 4 202 3";
    cases.put_bytes("decide: an empty profile, any two nodes", decide(&[], &key("(e,(_*,{e}))")), "not implied", &wide_tree(twins));
}

/// C ends and T begins with an any-path: two fillers, since the pattern is drawn along C, then along T.
fn any_paths_that_meet(cases: &mut Cases) {
    let asked = "(_*,(_*.frame,{@seq}))";
    let nodes = "0 - 203 -/1 0 202 1/2 0 201 -/3 2 202 3/4 2 201 -/5 4 202 5/6 4 4 -/7 6 202 7/8 6 7 8/\
                 9 2 201 -/10 9 202 10/11 9 4 -/12 11 202 12/13 11 7 8";
    not_implied(cases, &[], asked, nodes);
    not_implied(cases, &["(_*,(frame,{@seq}))"], asked, nodes);
    not_implied(cases, &["(e,(frame,{@seq}))", "(_*.port,(_*.frame,{@seq}))"], asked, nodes);
    implied(cases, &["(e,(_*.frame,{@seq}))"], asked);
    implied(cases, &["(_*,(_*.frame,{@seq}))"], asked);
    implied(cases, &["(e,(_*,{@seq}))"], asked);
    implied(cases, &["(_*,(_*,{frame.@seq}))", "(_*,(frame,{@seq}))"], asked);
    let both = "(run._*,(_*.port,{@id}))";
    implied(cases, &["(run,(_*.port,{@id}))"], both);
    implied(cases, &["(e,(run._*.port,{@id}))"], both);
    implied(cases, &["(e,(_*.port,{@id}))"], both);
    implied(cases, &["(run._*,(_*,{@id}))"], both);
    let drawn_both = "0 - 203 -/1 0 202 1/2 0 2 -/3 2 202 3/4 2 201 -/5 4 202 5/6 4 201 -/7 6 202 7/8 6 3 -/9 8 202 9/10 8 6 10/\
                      11 4 201 -/12 11 202 12/13 11 3 -/14 13 202 14/15 13 6 10";
    not_implied(cases, &["(run._*,(port,{@id}))"], both, drawn_both);
    not_implied(cases, &["(run._*.run,(_*.port,{@id}))"], both, drawn_both);
    // Both are any-paths alone: two fillers, and the marked attributes below the second.
    let alone = "0 - 203 -/1 0 202 1/2 0 201 -/3 2 202 3/4 2 201 -/5 4 202 5/6 4 6 6/7 2 201 -/8 7 202 8/9 7 6 6";
    not_implied(cases, &[], "(_*,(_*,{@id}))", alone);
    implied(cases, &["(e,(_*,{@id}))"], "(_*,(_*,{@id}))");
}

/// Any-paths of the profile take fillers, labels do not.
fn any_paths(cases: &mut Cases) {
    implied(cases, &["(_*,(frame,{@seq}))"], "(_*.port,(frame,{@seq}))");
    implied(cases, &["(_*,(frame,{@seq}))"], "(e,(frame,{@seq}))");
    implied(cases, &["(_*,(_*,{@seq}))"], "(run,(port._*.frame,{@seq}))");
    implied(cases, &["(run._*,(frame,{@seq}))"], "(run.port._*.stamp,(frame,{@seq}))");
    let under_filler = "0 - 203 -/1 0 202 1/2 0 201 -/3 2 202 3/4 2 4 -/5 4 202 5/6 4 7 6/7 2 4 -/8 7 202 8/9 7 7 6";
    not_implied(cases, &["(_*.port,(frame,{@seq}))"], "(_*,(frame,{@seq}))", under_filler);
    not_implied(cases, &["(port._*,(frame,{@seq}))", "(e,(frame,{@seq}))"], "(_*,(frame,{@seq}))", under_filler);
    let filler = "0 - 203 -/1 0 202 1/2 0 201 -/3 2 202 3/4 2 6 4/5 0 201 -/6 5 202 6/7 5 6 4";
    not_implied(cases, &["(e,(_*.run,{@id}))"], "(e,(_*,{@id}))", filler);
    implied(cases, &["(e,(_*,{@id}))"], "(e,(_*.run,{@id}))");
    implied(cases, &["(e,(_*.run._*,{@id}))"], "(e,(port.run.frame,{@id}))");
    let drawn = "0 - 203 -/1 0 202 1/2 0 3 -/3 2 202 3/4 2 4 -/5 4 202 5/6 4 6 6/7 0 3 -/8 7 202 8/9 7 4 -/10 9 202 10/11 9 6 6";
    not_implied(cases, &["(e,(_*.run._*,{@id}))"], "(e,(port.frame,{@id}))", drawn);
}

/// "if S holds the empty path, t and everything below it" is marked.
fn empty_key_path(cases: &mut Cases) {
    let asked = "(e,(port,{e,frame.@seq}))";
    for keys in [
        &["(e,(port,{e}))"][..],
        &["(e,(port,{frame}))"],
        &["(e,(port,{e,frame}))"],
        &["(e,(port,{frame.@seq}))"],
        &["(e,(port,{e,frame,frame.@seq}))"],
        &["(e,(port.frame,{e}))"],
        &["(e,(port.frame,{e,@seq}))"],
        &["(e,(port.frame,{@seq}))"],
        &["(e,(port.frame.@seq,{e}))"],
        &["(e,(_*.@seq,{e}))"],
        &["(e,(_*,{e}))"],
    ] {
        implied(cases, keys, asked);
    }
    implied(cases, &["(e,(port,{e,frame}))"], "(e,(port,{e,frame,stamp}))");
    implied(cases, &["(e,(port.frame,{e,stamp,@seq}))"], "(e,(port.frame,{e,@seq,stamp.#}))");
    implied(cases, &["(e,(port,{e}))"], "(e,(port,{e,run,frame,stamp}))");
    implied(cases, &["(run,(port,{frame}))"], "(run,(port,{e,frame}))");
}

/// The same where the profile's key does not reach a mark: nothing lies below the ends of the branches but fillers.
fn empty_key_path_drawn(cases: &mut Cases) {
    let whole = "0 - 203 -/1 0 202 1/2 0 3 -/3 2 202 3/4 2 4 -/5 4 202 5/6 4 7 6/7 0 3 -/8 7 202 3/9 7 4 -/10 9 202 5/11 9 7 6";
    not_implied(cases, &[], "(e,(port,{e,frame.@seq}))", whole);
    for near in ["(e,(port,{stamp}))", "(e,(port,{e,frame.@id}))", "(e,(run,{e}))", "(port,(frame,{e}))", "(e,(port.frame,{e,stamp}))"] {
        not_implied(cases, &[near], "(e,(port,{e,frame.@seq}))", whole);
    }
    let two = "0 - 203 -/1 0 202 1/2 0 3 -/3 2 202 3/4 2 4 -/5 4 202 5/6 0 3 -/7 6 202 3/8 6 4 -/9 8 202 5";
    not_implied(cases, &["(e,(port,{e,frame.stamp}))"], "(e,(port,{e,frame}))", two);
    let one = "0 - 203 -/1 0 202 1/2 0 3 -/3 2 202 3/4 0 3 -/5 4 202 3";
    not_implied(cases, &["(e,(port,{frame}))"], "(e,(port,{e}))", one);
    not_implied(cases, &["(e,(_*.frame,{e}))", "(e,(port,{e,@id}))"], "(e,(port,{e}))", one);
    // Two branches that begin with the same label stay apart, and in d's manner no frame has both, though all is marked.
    let branches = "0 - 203 -/1 0 202 1/2 0 3 -/3 2 202 3/4 2 4 -/5 4 202 5/6 4 6 6/7 2 4 -/8 7 202 8/9 7 7 9/\
                    10 0 3 -/11 10 202 3/12 10 4 -/13 12 202 5/14 12 6 6/15 10 4 -/16 15 202 8/17 15 7 9";
    not_implied(cases, &["(e,(port.frame,{@id,@seq}))"], "(e,(port,{e,frame.@id,frame.@seq}))", branches);
    implied(cases, &["(e,(port,{frame.@id,frame.@seq}))"], "(e,(port,{e,frame.@id,frame.@seq}))");
}

fn leaves_as_targets(cases: &mut Cases) {
    not_implied(cases, &["(e,(_*.@seq,{e}))"], "(port,(@id,{e}))", drawn::M);
    implied(cases, &["(e,(_*.@id,{e}))"], "(port,(@id,{e}))");
    implied(cases, &["(port,(@id,{e}))"], "(port,(@id,{e}))");
    implied(cases, &["(_*,(_*,{e}))"], "(port,(@id,{e}))");
    let ports = "0 - 203 -/1 0 202 1/2 0 3 -/3 2 202 3/4 2 6 4/5 0 3 -/6 5 202 6/7 5 6 4";
    not_implied(cases, &["(port,(@id,{e}))"], "(e,(port.@id,{e}))", ports);
    not_implied(cases, &["(e,(port,{@id}))"], "(e,(port.@id,{e}))",
        "0 - 203 -/1 0 202 1/2 0 3 -/3 2 202 3/4 2 6 4/5 2 6 4");
    implied(cases, &["(port,(@id,{e}))", "(e,(port,{@id}))"], "(e,(port.@id,{e}))");
    let texts = "0 - 203 -/1 0 202 1/2 0 4 -/3 2 202 3/4 2 1 4/5 2 1 4";
    not_implied(cases, &[], "(frame,(#,{e}))", texts);
    not_implied(cases, &["(e,(frame,{#}))"], "(frame,(#,{e}))", texts);
    implied(cases, &["(_*,(#,{e}))"], "(frame,(#,{e}))");
    implied(cases, &["(e,(_*.#,{e}))"], "(frame,(#,{e}))");
    implied(cases, &["(frame,(_*,{e}))"], "(frame,(#,{e}))");
    let any = "0 - 203 -/1 0 202 1/2 0 201 -/3 2 202 3/4 2 1 4/5 0 201 -/6 5 202 6/7 5 1 4";
    not_implied(cases, &["(_*,(#,{e}))"], "(e,(_*.#,{e}))", any);
    implied(cases, &["(_*,(#,{e}))", "(e,(_*,{#}))"], "(e,(_*.#,{e}))");
}

/// 14 before all; the profile's and the question's refusals are in order.rs for every operation.
fn rooms_and_refusals(cases: &mut Cases) {
    let (keys, asked) = (["(port,(frame,{@seq}))"], "(e,(port.frame,{@seq}))");
    let (sound, question) = (profile(&keys), key(asked));
    for (room, wanted) in [(0, "refused 14 4 0"), (65_535, "refused 14 4 0"), (65_536, "not implied 132"), (65_537, "not implied 132")] {
        cases.put(&format!("decide in {} bytes", room), in_room(room, decide(&sound, &question)), wanted);
    }
    let implied = decide(&profile(&[asked]), &question);
    cases.put("decide in 65537 bytes, implied", in_room(65_537, implied.clone()), "implied");
    cases.put("decide in 65535 bytes, implied", in_room(65_535, implied), "refused 14 4 0");
    for (name, profile, asked, wanted) in [
        ("damaged profile", joined(&[&sound, &[9]]), question.clone(), "refused 1 1 7"),
        ("damaged profile and question", joined(&[&sound, &[9]]), vec![9], "refused 1 1 7"),
        ("damaged question", sound.clone(), vec![9], "refused 1 2 0"),
        ("no question", sound.clone(), Vec::new(), "refused 1 2 0"),
        ("two questions", sound.clone(), question.repeat(2), "refused 2 2 1"),
        ("a label that the profile lacks", key_of(&[], "(e,(e,{e}))"), question.clone(), "refused 4 2 0"),
        ("65 keys", profile_with(&different(65, "(run,{@id}))")), question.clone(), "refused 7 1 70"),
    ] {
        cases.put(&format!("decide: {}", name), decide(&profile, &asked), wanted);
    }
}
