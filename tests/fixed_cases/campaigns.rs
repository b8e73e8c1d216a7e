//! 02, request 12: counting over a campaign. The list of names, and the inputs in the same order: the bytes of a file, or nothing for a
//! name that cannot be read.
use super::expectations::Cases;
use super::notation::*;

pub fn put(cases: &mut Cases) {
    rows(cases);
    every_number(cases);
    many_keys(cases);
    lists(cases);
    refusals(cases);
}

const A: &str = "(e,(port.frame,{@seq}))";
/// The tree of b, which breaks a's key.
const TREE_OF_B: &str = "0 - 203 -/1 0 202 1/2 0 3 -/3 2 202 3/4 2 4 -/5 4 202 5/6 4 7 6/7 0 3 -/8 7 202 8/9 7 4 -/10 9 202 10/11 9 7 6";

/// Of each letter an input: b is the tree of b, w the same in wide records, p the root and one port, c the tree of b cut at 100 bytes, e an
/// empty file, x a file that begins with no root, u a name that cannot be read.
fn inputs(letters: &str) -> Vec<Option<Vec<u8>>> {
    let of = |letter: char| match letter {
        'b' => Some(tree(TREE_OF_B)),
        'w' => Some(wide_tree(TREE_OF_B)),
        'p' => Some(tree("0 - 203 -/1 0 3 -")),
        'c' => Some(wide_tree(TREE_OF_B)[..100].to_vec()),
        'e' => Some(Vec::new()),
        'x' => Some(tree("0 0 3 -")),
        _ => None,
    };
    letters.chars().map(of).collect()
}

fn row(cases: &mut Cases, name: &str, profile: &[u8], list: &str, letters: &str, report: &str) {
    let lines = report.replace('/', "\n") + "\n";
    cases.put_bytes(&format!("campaign, {}", name), campaign(profile, list.as_bytes(), &inputs(letters)), "reported", lines.as_bytes());
}

fn rows(cases: &mut Cases) {
    let a = profile(&[A]);
    row(cases, "five names, one missing, one twice", &a, "s1\ns2\ns3\nmissing\ns1\n", "bpcub", "0 1 2/1 1/unread 1");
    row(cases, "an empty name, an empty file", &a, "s1\n\ns4", "bue", "0 0 1/8 1/unread 1");
    row(cases, "an empty list", &a, "", "", "0 0 0/unread 0");
    row(cases, "an empty name alone", &a, "\n", "u", "0 0 0/unread 1");
    row(cases, "no keys", &profile(&[]), "s1\n", "b", "unread 0");
    row(cases, "an empty profile", &[], "s1\n", "p", "8 1/unread 0");
    row(cases, "a carriage return", &a, "s1\r\n", "u", "0 0 0/unread 1");
    row(cases, "all unread", &a, "s\ns\ns", "uuu", "0 0 0/unread 3");
    row(cases, "all kept", &a, "s\ns\ns", "ppp", "0 3 0/unread 0");
    row(cases, "all broken, of both kinds", &a, "s\nt\ns\nt", "bwbw", "0 0 4/unread 0");
    row(cases, "all refused", &a, "s\ns\nt\nt\nt\nr", "cceeex", "0 0 0/1 2/8 4/unread 0");
    row(cases, "a name twice", &a, "s\ns", "bb", "0 0 2/unread 0");
    row(cases, "a name twice, not next to itself", &a, "s\nt\ns", "pep", "0 2 0/8 1/unread 0");
    row(cases, "200 times", &a, &"s1\n".repeat(200), &"b".repeat(200), "0 0 200/unread 0");
    row(cases, "200 times without a last newline", &a, &vec!["s1"; 200].join("\n"), &"b".repeat(200), "0 0 200/unread 0");
    row(cases, "200 empty names", &a, &"\n".repeat(200), &"u".repeat(200), "0 0 0/unread 200");
    row(cases, "199 and an empty name", &a, &("s1\n".repeat(199) + "\n"), &("p".repeat(199) + "u"), "0 199 0/unread 1");
}

/// Every number that a tree can be refused by, ascending, whichever comes first; 16 in edition 2 alone.
fn every_number(cases: &mut Cases) {
    let twice = tree("0 - 203 -/1 0 6 1/2 0 6 2");
    let all = vec![
        Some(twice),
        Some(vec![0; 36_865]),
        Some(joined(&[&tree(ROOT), &key(A)])),
        Some(vec![9]),
        Some(Vec::new()),
        Some(tree(ROOT)),
        Some(vec![9]),
        None,
    ];
    let list = b"a\nb\nc\nd\ne\nf\nd\ng\n";
    for (name, front, report) in [
        ("edition 1", Vec::new(), "0 2 0\n1 2\n2 1\n7 1\n8 1\nunread 1\n"),
        ("edition 2", hex("05 00 06 00 02"), "0 1 0\n1 2\n2 1\n7 1\n8 1\n16 1\nunread 1\n"),
    ] {
        let front = joined(&[&front, &profile(&[A])]);
        cases.put_bytes(&format!("campaign, every number, {}", name), campaign(&front, list, &all), "reported", report.as_bytes());
    }
}

/// A line for each key, in order: port, frame and seq are kept or broken one by one.
fn many_keys(cases: &mut Cases) {
    let three = profile(&["(port,(frame,{@seq}))", A, "(e,(port,{e}))"]);
    row(cases, "three keys", &three, "a\nb\nc\nd\ne", "bpwcu", "0 3 0/1 1 2/2 3 0/1 1/unread 1");
    let full = profile_with(&different(64, "(run,{@id}))"));
    let lines: Vec<String> = (0..64).map(|number| format!("{} 2 0", number)).collect();
    row(cases, "64 keys", &full, "a\nb\nc", "bpe", &(lines.join("/") + "/8 1/unread 0"));
}

/// What a list is to the library: its number of names alone.
fn lists(cases: &mut Cases) {
    let long = "s\n".repeat(199) + &"t".repeat(5_000);
    for (name, list) in [("none", ""), ("one", "s"), ("200", &"s\n".repeat(200)), ("199 and one of 5,000 bytes", &long)] {
        row(cases, &format!("two inputs, names: {}", name), &profile(&[A]), list, "bp", "0 1 1/unread 0");
    }
    // Bytes that are no name's, and a last input that breaks off: 9 of its 18 bytes are a root.
    row(cases, "a list of bytes", &profile(&[A]), "\u{0}\u{7f} \t", "b", "0 0 1/unread 0");
    let whole = campaign(&profile(&[A]), b"s", &inputs("p"));
    let [front, list, framed] = whole.inputs.clone();
    for (end, report) in [(22, "0 1 0\nunread 0\n"), (13, "0 1 0\nunread 0\n"), (4, "0 0 0\n8 1\nunread 0\n"), (3, "0 0 0\nunread 0\n")] {
        let case = crate::reference::stream::Case { inputs: [front.clone(), list.clone(), framed[..end].to_vec()], ..whole.clone() };
        cases.put_bytes(&format!("campaign, inputs that end at byte {}", end), case, "reported", report.as_bytes());
    }
}

/// 14, then 7 of the list, then the profile; the inputs are refused by no number of their own.
fn refusals(cases: &mut Cases) {
    let (a, bad) = (profile(&[A]), vec![9]);
    let twice = profile(&[A, A]);
    for (name, list) in [
        ("201 times", "s1\n".repeat(201)),
        ("201 empty names", "\n".repeat(201)),
        ("201 without a last newline", "\n".repeat(200) + "s"),
    ] {
        for (front, profile) in [("good", &a), ("refused", &bad), ("with a key twice", &twice)] {
            let case = campaign(profile, list.as_bytes(), &inputs("bp"));
            cases.put(&format!("campaign, {}, the profile {}", name, front), case, "refused 7 3 0");
        }
    }
    for (name, profile, wanted) in [
        ("one byte", bad.clone(), "refused 1 1 0"),
        ("a key twice", twice.clone(), "refused 15 1 7"),
        ("another edition byte", hex("05 00 06 00 03"), "refused 3 1 0"),
        ("over its size", vec![0; 16_385], "refused 7 1 0"),
    ] {
        for (of, list, letters) in [("one segment", "s1\n", "b"), ("no segment", "", ""), ("an unread one", "s", "u")] {
            let case = campaign(&profile, list.as_bytes(), &inputs(letters));
            cases.put(&format!("campaign, profile refused, {}, {}", name, of), case, wanted);
        }
    }
    for room in [0, 1, 65_535] {
        for (name, profile, list) in [("good", &a, "s1\n".to_string()), ("all refused", &bad, "\n".repeat(201))] {
            let case = in_room(room, campaign(profile, list.as_bytes(), &inputs("b")));
            cases.put(&format!("campaign, room {}, {}", room, name), case, "refused 14 4 0");
        }
    }
    let more = in_room(65_537, campaign(&a, b"s1\n", &inputs("b")));
    cases.put_bytes("campaign, a byte more room", more, "reported", b"0 0 1\nunread 0\n");
}
