//! 02, request 7: salvage of a cut export. Each record that 2, 8 or 16 would reject is dropped with its descendants, the first fault of
//! number 1 ends the file, and what is left is numbered again; the listing says what was dropped, then which keys are broken by the rest.
use super::expectations::Cases;
use super::notation::*;

pub fn put(cases: &mut Cases) {
    nothing_left(cases);
    rows(cases);
    editions(cases);
    kinds(cases);
    broken_keys(cases);
    cuts(cases, KIND_3);
    cuts(cases, KIND_5);
    blocks(cases);
    inputs(cases);
}

const EDITION: &str = "05 00 06 00 02";
/// (e,(a,{@b})).
const KEY: &str = "0a 00 02 00 00 01 02 01 01 06";
/// Records of kinds that no tree has: of an unknown one, and a key.
const UNKNOWN: &str = "04 00 63 00";
const WHOLE_KEY: &str = "09 00 02 00 00 00 02 00 00";

/// Label 2 is the element `a`, label 6 the attribute `b`.
fn one_label() -> Vec<u8> {
    label(2, 1, "a")
}

fn two_labels() -> Vec<u8> {
    joined(&[&label(2, 1, "a"), &label(6, 2, "b")])
}

/// Node records as `PARENT LABEL VALUE` with `/` between them; those between `<` and `>` are bytes in hex.
fn records(of: NodeKind, text: &str) -> Vec<u8> {
    let record = |line: &str| match line.trim().strip_prefix('<').and_then(|rest| rest.strip_suffix('>')) {
        Some(bytes) => hex(bytes),
        None => of.node(&format!("0 {}", line.trim())),
    };
    text.split('/').flat_map(record).collect()
}

/// A row: the tree that is left, the listing, whose second block is empty, and the tree that is left salvaged again.
fn row(cases: &mut Cases, name: &str, profile: &[u8], tree: &[u8], listing: &str, left: &[u8]) {
    let lines = listing.replace('/', "\n") + "\n";
    cases.put_bytes(&format!("salvage, {}: left", name), salvage(profile, tree), "salvaged", left);
    cases.put_bytes(&format!("salvage, {}: listed", name), salvage_listing(profile, tree, 0), "listed", lines.as_bytes());
    cases.also_by_program(lines.as_bytes().to_vec(), Some(left.to_vec()));
    cases.put_bytes(&format!("salvage, {}: block 1", name), salvage_listing(profile, tree, 1), "listed", &[]);
    cases.put_bytes(&format!("salvage, {}: again", name), salvage(profile, left), "salvaged", left);
}

fn refused(cases: &mut Cases, name: &str, profile: &[u8], tree: &[u8], wanted: &str) {
    cases.put(&format!("salvage, {}", name), salvage(profile, tree), wanted);
    cases.put_by_program(&format!("salvage, {}: listed", name), salvage_listing(profile, tree, 0), wanted);
    cases.put(&format!("salvage, {}: block 7", name), salvage_listing(profile, tree, 7), wanted);
}

/// "one without a valid node 0 gives 8", and a file over its size 7.
fn nothing_left(cases: &mut Cases) {
    for (name, tree) in [
        ("an empty file", Vec::new()),
        ("one byte", vec![4]),
        ("an element first", records(KIND_3, "0 2 0")),
        ("an unknown record first", records(KIND_3, "<05 00 63 00 00>/- 203 0/0 2 0")),
        ("a root with a parent", records(KIND_3, "0 203 0")),
        ("an element without parent first", records(KIND_3, "- 2 0")),
        ("a root with a value", records(KIND_3, "- 203 1/0 2 0")),
        ("a key first", joined(&[&hex(WHOLE_KEY), &records(KIND_3, "- 203 0")])),
        ("a root cut", records(KIND_3, "- 203 0")[..8].to_vec()),
        ("a root with a byte more", hex("0a 00 03 00 ff ff cb 00 00 00")),
        ("36,864 bytes of nothing", vec![0; 36_864]),
        ("45,056 bytes of kind 5 and nothing", joined(&[&hex("0b 00 05 00"), &vec![0; 45_052]])),
    ] {
        refused(cases, name, &one_label(), &tree, "refused 8 3 0");
    }
    let root = records(KIND_3, "- 203 0");
    for (name, tree) in [
        ("36,865 bytes of kind 3", joined(&[&root, &vec![0; 36_856]])),
        ("36,865 bytes of no kind", vec![0; 36_865]),
        ("45,057 bytes of kind 5", joined(&[&hex("0b 00 05 00"), &vec![0; 45_053]])),
    ] {
        refused(cases, name, &one_label(), &tree, "refused 7 3 0");
    }
}

/// Name, tree, listing and what is left, for the one label `a`.
const ROWS: [(&str, &str, &str, &str); 22] = [
    ("the root alone", "- 203 0", "salvaged 0", "- 203 0"),
    ("a byte behind the root", "- 203 0/<05>", "salvaged 1/1 1", "- 203 0"),
    ("three bytes behind the root", "- 203 0/<09 00 03>", "salvaged 1/1 1", "- 203 0"),
    ("a record cut", "- 203 0/0 2 0/<09 00 03 00 00>", "salvaged 1/2 1", "- 203 0/0 2 0"),
    ("a record of length 3", "- 203 0/<03 00 03 00 00>/0 2 0", "salvaged 1/1 1", "- 203 0"),
    ("a node's body of 4 bytes", "- 203 0/<08 00 03 00 00 00 02 00>/0 2 0", "salvaged 1/1 1", "- 203 0"),
    ("an unknown record", "- 203 0/<05 00 63 00 00>/0 2 0/2 2 0", "salvaged 1/1 2", "- 203 0/0 2 0/1 2 0"),
    ("an unknown label, and below it", "- 203 0/0 99 0/1 2 0/2 2 0/0 2 0", "salvaged 3/1 8/2 8/3 8", "- 203 0/0 2 0"),
    ("below an unknown record", "- 203 0/<04 00 63 00>/1 2 0/0 2 0", "salvaged 2/1 2/2 8", "- 203 0/0 2 0"),
    ("a parent that comes later", "- 203 0/2 2 0/0 2 0", "salvaged 1/1 8", "- 203 0/0 2 0"),
    ("its own parent", "- 203 0/1 2 0/0 2 0", "salvaged 1/1 8", "- 203 0/0 2 0"),
    ("a parent beyond the end", "- 203 0/7 2 0/0 2 0", "salvaged 1/1 8", "- 203 0/0 2 0"),
    ("no parent", "- 203 0/- 2 0/0 2 0", "salvaged 1/1 8", "- 203 0/0 2 0"),
    ("an element with a value", "- 203 0/0 2 1/0 2 0", "salvaged 1/1 8", "- 203 0/0 2 0"),
    ("a root again", "- 203 0/0 203 0/0 2 0", "salvaged 1/1 8", "- 203 0/0 2 0"),
    ("a second root", "- 203 0/- 203 0/1 2 0", "salvaged 2/1 8/2 8", "- 203 0"),
    ("fillers and text", "- 203 0/0 201 0/1 202 7/1 1 8/0 1 8", "salvaged 0", "- 203 0/0 201 0/1 202 7/1 1 8/0 1 8"),
    ("below text", "- 203 0/0 1 7/1 2 0/0 2 0", "salvaged 1/2 8", "- 203 0/0 1 7/0 2 0"),
    ("a whole key", "- 203 0/<09 00 02 00 00 00 02 00 00>/0 2 0", "salvaged 1/1 2", "- 203 0/0 2 0"),
    ("a key that does not end", "- 203 0/<09 00 02 00 00 00 03 00 00>/0 2 0", "salvaged 1/1 1", "- 203 0"),
    ("a fault behind another", "- 203 0/0 99 0/<05 00 63 00 00>/0 2 0/<ff>", "salvaged 3/1 8/2 2/4 1", "- 203 0/0 2 0"),
    ("2 before 8", "- 203 0/0 99 0/<0b 00 05 00 01 00 63 00 00 00 00>", "salvaged 2/1 8/2 2", "- 203 0"),
];

/// "Parent numbers are read as record numbers of the damaged file, spoiled records counted."
fn rows(cases: &mut Cases) {
    for (name, tree, listing, left) in ROWS {
        row(cases, name, &one_label(), &records(KIND_3, tree), listing, &records(KIND_3, left));
    }
    let numbers = "- 203 0/<04 00 63 00>/0 2 0/<04 00 63 00>/2 2 0/4 2 0/2 2 0";
    let left = records(KIND_3, "- 203 0/0 2 0/1 2 0/2 2 0/1 2 0");
    row(cases, "two unknown records between", &one_label(), &records(KIND_3, numbers), "salvaged 2/1 2/3 2", &left);
    let sound = records(KIND_3, "- 203 0/0 2 0/1 6 7");
    row(cases, "a sound file", &two_labels(), &sound, "salvaged 0", &sound);
    let below = records(KIND_3, "- 203 0/0 6 1/1 2 0");
    row(cases, "below an attribute", &two_labels(), &below, "salvaged 1/2 8", &records(KIND_3, "- 203 0/0 6 1"));
    let undeclared = records(KIND_3, "- 203 0/0 2 0/1 6 7");
    row(cases, "the attribute is not declared", &one_label(), &undeclared, "salvaged 1/2 8", &records(KIND_3, "- 203 0/0 2 0"));
}

/// Name, tree, listing and what is left in edition 2, for the element `a` and the attribute `b`.
const SECOND_ROWS: [(&str, &str, &str, &str); 9] = [
    ("an attribute again", "- 203 0/0 6 1/0 6 2/0 2 0/3 6 1", "salvaged 1/2 16", "- 203 0/0 6 1/0 2 0/2 6 1"),
    ("an attribute three times", "- 203 0/0 6 1/0 6 1/0 6 1", "salvaged 2/2 16/3 16", "- 203 0/0 6 1"),
    ("an attribute below a dropped one", "- 203 0/0 2 5/1 6 1/0 6 1", "salvaged 2/1 8/2 8", "- 203 0/0 6 1"),
    // The dropped attribute stands below record 2 as well, and does not count.
    ("an attribute before its parent", "- 203 0/2 6 1/0 2 0/2 6 1", "salvaged 1/1 8", "- 203 0/0 2 0/1 6 1"),
    ("two elements with one each", "- 203 0/0 2 0/0 2 0/1 6 1/2 6 1", "salvaged 0", "- 203 0/0 2 0/0 2 0/1 6 1/2 6 1"),
    ("202 again", "- 203 0/0 202 1/0 6 1/0 202 1", "salvaged 1/3 16", "- 203 0/0 202 1/0 6 1"),
    ("text again", "- 203 0/0 1 1/0 1 1", "salvaged 0", "- 203 0/0 1 1/0 1 1"),
    ("8 before 16", "- 203 0/0 6 1/1 6 1/1 6 1", "salvaged 2/2 8/3 8", "- 203 0/0 6 1"),
    ("below a repeated attribute", "- 203 0/0 6 1/0 6 1/2 2 0", "salvaged 2/2 16/3 8", "- 203 0/0 6 1"),
];

fn editions(cases: &mut Cases) {
    let second = joined(&[&hex(EDITION), &two_labels()]);
    for (name, tree, listing, left) in SECOND_ROWS {
        row(cases, &format!("edition 2, {}", name), &second, &records(KIND_3, tree), listing, &records(KIND_3, left));
        row(cases, &format!("edition 2, kind 5, {}", name), &second, &records(KIND_5, tree), listing, &records(KIND_5, left));
    }
    let twice = records(KIND_3, "- 203 0/0 6 1/0 6 2/0 202 1/0 202 1");
    row(cases, "edition 1, an attribute again", &two_labels(), &twice, "salvaged 0", &twice);
}

/// A record of the other kind is whole, and dropped by 2; the kind of record 0 stays.
fn kinds(cases: &mut Cases) {
    let wide = |text: &str| format!("<{}>", text);
    let element = wide("0b 00 05 00 00 00 02 00 00 00 00");
    let mixed = records(KIND_3, &format!("- 203 0/{}/0 2 0/1 2 0", element));
    row(cases, "a wide record among others", &one_label(), &mixed, "salvaged 2/1 2/3 8", &records(KIND_3, "- 203 0/0 2 0"));
    let narrow = wide("09 00 03 00 00 00 02 00 00");
    let mixed = records(KIND_5, &format!("- 203 0/{}/0 2 0/1 2 0", narrow));
    row(cases, "a narrow record among wide ones", &one_label(), &mixed, "salvaged 2/1 2/3 8", &records(KIND_5, "- 203 0/0 2 0"));
    let values = records(KIND_5, "- 203 0/0 99 0/0 6 4294967295/0 6 65536");
    row(cases, "wide values", &two_labels(), &values, "salvaged 1/1 8", &records(KIND_5, "- 203 0/0 6 4294967295/0 6 65536"));
}

/// "Keys are judged over what is left"; a witness has the numbers of what is left.
fn broken_keys(cases: &mut Cases) {
    let profile = joined(&[&two_labels(), &hex(KEY)]);
    let twins = records(KIND_3, "- 203 0/0 2 0/1 6 5/0 99 0/0 2 0/4 6 5");
    let left = records(KIND_3, "- 203 0/0 2 0/1 6 5/0 2 0/3 6 5");
    row(cases, "two frames left", &profile, &twins, "salvaged 1/3 8/broken 0 0 1 3 2 4", &left);
    row(cases, "two frames in a sound file", &profile, &left, "salvaged 0/broken 0 0 1 3 2 4", &left);
    let one = records(KIND_3, "- 203 0/0 2 0/1 6 5/0 2 1/3 6 5");
    row(cases, "a frame dropped", &profile, &one, "salvaged 2/3 8/4 8", &records(KIND_3, "- 203 0/0 2 0/1 6 5"));
    let cut = joined(&[&left, &hex("09 00")]);
    row(cases, "two frames before a cut", &profile, &cut, "salvaged 1/5 1/broken 0 0 1 3 2 4", &left);
    // Keys 1 and 2 are broken, key 0 is not: (a,(e,{e})), (e,(a,{e})), (e,(a,{@b})).
    let three = joined(&[&two_labels(), &hex("09 00 02 00 01 02 00 01 00"), &hex("09 00 02 00 00 01 02 01 00"), &hex(KEY)]);
    let listing = "salvaged 1/3 8/broken 1 0 1 3 1 3/broken 2 0 1 3 2 4";
    row(cases, "two of three keys", &three, &twins, listing, &left);
    let second = joined(&[&hex(EDITION), &three]);
    row(cases, "two of three keys in edition 2", &second, &twins, listing, &left);
}

/// Six sound records cut at every byte: whole records stay, and the one that the cut leaves is listed by 1.
fn cuts(cases: &mut Cases, of: NodeKind) {
    let whole = records(of, "- 203 0/0 2 0/1 6 9/1 2 0/3 1 258/0 202 65535");
    for cut in 0..=whole.len() {
        let (nodes, name) = (cut / of.bytes, format!("salvage, kind {} cut at {}", of.kind, cut));
        let (tree, left) = (&whole[..cut], &whole[..nodes * of.bytes]);
        if nodes == 0 {
            cases.put(&name, salvage(&two_labels(), tree), "refused 8 3 0");
            cases.put(&format!("{}: listed", name), salvage_listing(&two_labels(), tree, 0), "refused 8 3 0");
            continue;
        }
        let listing = if cut == nodes * of.bytes { "salvaged 0\n".to_string() } else { format!("salvaged 1\n{} 1\n", nodes) };
        cases.put_bytes(&name, salvage(&two_labels(), tree), "salvaged", left);
        cases.put_bytes(&format!("{}: listed", name), salvage_listing(&two_labels(), tree, 0), "listed", listing.as_bytes());
    }
}

/// Block k of lines that end in newlines.
fn block(lines: &[String], k: usize) -> Vec<u8> {
    lines.iter().skip(1_024 * k).take(1_024).flat_map(|line| line.bytes()).collect()
}

/// The longest listings; the lines of broken keys behind 1,022, 1,023 and 1,024 dropped records; as many nodes as a tree may have.
fn blocks(cases: &mut Cases) {
    let (unknown, profile) = (hex(UNKNOWN), joined(&[&two_labels(), &hex(KEY)]));
    for (name, of, count, tail, records_of) in [("kind 5", KIND_5, 11_261, 1, 11_263), ("kind 3", KIND_3, 9_213, 3, 9_215)] {
        let root = records(of, "- 203 0");
        let tree = joined(&[&root, &unknown.repeat(count), &vec![4; tail]]);
        assert_eq!(tree.len(), of.tree_bytes);
        let mut lines = vec![format!("salvaged {}\n", count + 1)];
        lines.extend((1..=count).map(|record| format!("{} 2\n", record)));
        lines.push(format!("{} 1\n", count + 1));
        assert_eq!(lines.len(), records_of);
        cases.put_bytes(&format!("salvage, {} records of {}: left", records_of, name), salvage(&one_label(), &tree), "salvaged", &root);
        for k in (0..12).chain([65_535]) {
            let name = format!("salvage, {} records of {}: block {}", records_of, name, k);
            cases.put_bytes(&name, salvage_listing(&one_label(), &tree, k as u32), "listed", &block(&lines, k));
        }
        cases.also_by_program(lines.concat().into_bytes(), Some(root));
    }
    for dropped in [1_022, 1_023, 1_024] {
        let twins = records(KIND_3, "- 203 0/0 2 0/1 6 5/0 2 0/3 6 5");
        let tree = joined(&[&twins, &unknown.repeat(dropped)]);
        let mut lines = vec![format!("salvaged {}\n", dropped)];
        lines.extend((5..5 + dropped).map(|record| format!("{} 2\n", record)));
        lines.push("broken 0 0 1 3 2 4\n".to_string());
        for k in [0, 1, 2] {
            let name = format!("salvage, {} dropped and a broken key: block {}", dropped, k);
            cases.put_bytes(&name, salvage_listing(&profile, &tree, k as u32), "listed", &block(&lines, k));
        }
    }
    for of in [KIND_3, KIND_5] {
        let full = joined(&[&records(of, "- 203 0"), &records(of, "0 2 0").repeat(4_095)]);
        let name = format!("salvage, 4,096 nodes of kind {}", of.kind);
        cases.put_bytes(&format!("{}: left", name), salvage(&one_label(), &full), "salvaged", &full);
        cases.put_bytes(&format!("{}: listed", name), salvage_listing(&one_label(), &full, 0), "listed", b"salvaged 0\n");
        // All but the root stand below a record that is dropped.
        let root = records(of, "- 203 0");
        let below = joined(&[&root, &records(of, "0 2 1"), &records(of, "1 2 0").repeat(4_094)]);
        cases.put_bytes(&format!("{}: all below a dropped one", name), salvage(&one_label(), &below), "salvaged", &root);
        let mut lines = vec!["salvaged 4095\n".to_string()];
        lines.extend((1..4_096).map(|record| format!("{} 8\n", record)));
        for k in [0, 3, 4] {
            let name = format!("{}: all below a dropped one: block {}", name, k);
            cases.put_bytes(&name, salvage_listing(&one_label(), &below, k as u32), "listed", &block(&lines, k));
        }
    }
}

/// 14 before all, then the profile, then the tree.
fn inputs(cases: &mut Cases) {
    let (tree, bad) = (records(KIND_3, "- 203 0/0 2 0"), vec![9]);
    for room in [0, 1, 65_535] {
        for (name, profile, tree) in [("good", &one_label(), &tree), ("all refused", &bad, &bad), ("nothing", &bad, &Vec::new())] {
            let name = |what: &str| format!("salvage, room {}, {}: {}", room, name, what);
            cases.put(&name("left"), in_room(room, salvage(profile, tree)), "refused 14 4 0");
            cases.put(&name("listed"), in_room(room, salvage_listing(profile, tree, 0)), "refused 14 4 0");
        }
    }
    cases.put_bytes("salvage, a byte more room: left", in_room(65_537, salvage(&one_label(), &tree)), "salvaged", &tree);
    let listed = in_room(65_537, salvage_listing(&one_label(), &tree, 0));
    cases.put_bytes("salvage, a byte more room: listed", listed, "listed", b"salvaged 0\n");
    for (name, profile, wanted) in [
        ("one byte", vec![9], "refused 1 1 0"),
        ("a key twice", joined(&[&two_labels(), &hex(KEY), &hex(KEY)]), "refused 15 1 3"),
        ("another edition byte", hex("05 00 06 00 03"), "refused 3 1 0"),
        ("over its size", vec![0; 16_385], "refused 7 1 0"),
    ] {
        for (of, tree) in [("a good tree", &tree), ("a tree that is refused", &bad)] {
            refused(cases, &format!("profile refused, {}, {}", name, of), &profile, tree, wanted);
        }
    }
    let nodes = records(KIND_3, "- 203 0/0 201 0/0 2 0");
    row(cases, "an empty profile", &[], &nodes, "salvaged 1/2 8", &records(KIND_3, "- 203 0/0 201 0"));
}
