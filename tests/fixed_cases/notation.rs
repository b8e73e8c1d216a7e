//! Inputs written down: keys in 01's notation, trees as the listing prints them, proof lines, and bytes.
//!
//! Nothing is put in order or mended here: key paths stand as typed, and a symbol may be any number, so that an input can have
//! the very fault that a case is about.
use crate::reference::campaign::framed;
use crate::reference::encode::record;
use crate::reference::stream::*;

pub const ANSWER: u32 = 65_536;

/// Label numbers, classes (1 element, 2 attribute) and names.
pub type Labels = &'static [(u8, u8, &'static str)];

/// 01, "Bench examples".
pub const BENCH: Labels = &[(2, 1, "run"), (3, 1, "port"), (4, 1, "frame"), (5, 1, "stamp"), (6, 2, "id"), (7, 2, "seq")];

/// Bytes in hex.
pub fn hex(text: &str) -> Vec<u8> {
    text.split_whitespace().map(|byte| u8::from_str_radix(byte, 16).unwrap()).collect()
}

pub fn joined(parts: &[&[u8]]) -> Vec<u8> {
    parts.concat()
}

/// A record whose length field is right.
pub fn of_kind(kind: u16, body: &[u8]) -> Vec<u8> {
    record(kind, body)
}

pub fn label(number: u8, class: u8, name: &str) -> Vec<u8> {
    of_kind(1, &[&[number, class], name.as_bytes()].concat())
}

pub fn labels(of: Labels) -> Vec<u8> {
    of.iter().flat_map(|&(number, class, name)| label(number, class, name)).collect()
}

/// `e` is the empty path, `_*` the any-path, `#` text, `@` stands before an attribute; a number is a symbol itself.
pub fn path(of: Labels, text: &str) -> Vec<u8> {
    let symbol = |word: &str| match (word, word.parse::<u8>()) {
        ("_*", _) => 0,
        ("#", _) => 1,
        (_, Ok(number)) => number,
        _ => of.iter().find(|label| label.2 == word.trim_start_matches('@')).unwrap_or_else(|| panic!("no label {}", word)).0,
    };
    if text == "e" {
        return Vec::new();
    }
    text.split('.').map(symbol).collect()
}

fn with_length(path: Vec<u8>) -> Vec<u8> {
    [vec![path.len() as u8], path].concat()
}

/// The body of a key `(C,(T,{P,..}))`; `{}` has no key path.
pub fn key_body(of: Labels, text: &str) -> Vec<u8> {
    let inner = text.strip_prefix('(').unwrap().strip_suffix("}))").unwrap();
    let (context, rest) = inner.split_once(",(").unwrap();
    let (target, set) = rest.split_once(",{").unwrap();
    let paths: Vec<&str> = if set.is_empty() { Vec::new() } else { set.split(',').collect() };
    let mut body = [with_length(path(of, context)), with_length(path(of, target)), vec![paths.len() as u8]].concat();
    paths.iter().for_each(|each| body.extend(with_length(path(of, each))));
    body
}

pub fn key_of(of: Labels, text: &str) -> Vec<u8> {
    of_kind(2, &key_body(of, text))
}

/// A key over the bench labels.
pub fn key(text: &str) -> Vec<u8> {
    key_of(BENCH, text)
}

pub fn profile_of(of: Labels, keys: &[&str]) -> Vec<u8> {
    let records: Vec<Vec<u8>> = keys.iter().map(|text| key_of(of, text)).collect();
    [labels(of), records.concat()].concat()
}

/// Keys of which no two are equal: the context of each spells its number in seven runs and ports.
pub fn different(count: usize, rest: &str) -> Vec<String> {
    let word = |number: usize, bit: usize| if number >> (6 - bit) & 1 == 1 { "port" } else { "run" };
    let context = |number: usize| (0..7).map(|bit| word(number, bit)).collect::<Vec<&str>>().join(".");
    (0..count).map(|number| format!("({},{}", context(number), rest)).collect()
}

/// The bench labels (records 0 to 5), then keys.
pub fn profile(keys: &[&str]) -> Vec<u8> {
    profile_of(BENCH, keys)
}

/// The same of keys that were made.
pub fn profile_with(keys: &[String]) -> Vec<u8> {
    profile(&keys.iter().map(String::as_str).collect::<Vec<&str>>())
}

fn two(text: &str, none: u16) -> [u8; 2] {
    let number = if text == "-" { none } else { text.parse::<u16>().unwrap_or_else(|_| panic!("{}", text)) };
    number.to_le_bytes()
}

/// The two kinds of node records (01, "Records"; 02, request 11).
#[derive(Clone, Copy)]
pub struct NodeKind {
    pub kind: u8,
    pub value_bytes: usize,
    /// Of a record, and of a tree.
    pub bytes: usize,
    pub tree_bytes: usize,
}

pub const KIND_3: NodeKind = NodeKind { kind: 3, value_bytes: 2, bytes: 9, tree_bytes: 36_864 };
pub const KIND_5: NodeKind = NodeKind { kind: 5, value_bytes: 4, bytes: 11, tree_bytes: 45_056 };

impl NodeKind {
    /// A node as the listing prints it: number, parent, label, value. The number is not written.
    pub fn node(&self, line: &str) -> Vec<u8> {
        let words: Vec<&str> = line.split_whitespace().collect();
        let label = words[2].parse::<u8>().unwrap();
        let value = if words[3] == "-" { 0 } else { words[3].parse::<u32>().unwrap() };
        let (written, rest) = (value.to_le_bytes(), value as u64 >> (8 * self.value_bytes));
        assert_eq!(rest, 0, "{}: the value does not fit kind {}", line, self.kind);
        of_kind(self.kind as u16, &[&two(words[1], 65_535)[..], &[label], &written[..self.value_bytes]].concat())
    }

    /// A tree as the listing prints its nodes, with `/` between the lines.
    pub fn tree(&self, text: &str) -> Vec<u8> {
        let numbered = |(number, line): (usize, &str)| {
            assert_eq!(line.split_whitespace().next(), Some(number.to_string().as_str()), "{}", text);
            self.node(line)
        };
        text.split('/').enumerate().flat_map(numbered).collect()
    }
}

/// A tree of records of kind 3.
pub fn tree(text: &str) -> Vec<u8> {
    KIND_3.tree(text)
}

/// The same of kind 5, which alone the decider writes.
pub fn wide_tree(text: &str) -> Vec<u8> {
    KIND_5.tree(text)
}

/// Only a root.
pub const ROOT: &str = "0 - 203 -";

/// A proof line `RULE FIRST SECOND KEY`; `-` is a premise field that is not used (65535).
pub fn line_of(of: Labels, text: &str) -> Vec<u8> {
    let words: Vec<&str> = text.split_whitespace().collect();
    let rule = words[0].parse::<u8>().unwrap();
    of_kind(4, &[&[rule], &two(words[1], 65_535)[..], &two(words[2], 65_535), &key_body(of, words[3])].concat())
}

pub fn proof_of(of: Labels, lines: &[&str]) -> Vec<u8> {
    lines.iter().flat_map(|text| line_of(of, text)).collect()
}

pub fn proof(lines: &[&str]) -> Vec<u8> {
    proof_of(BENCH, lines)
}

/// The key of a proof line as text.
pub fn key_text(line: &str) -> &str {
    line.split_whitespace().last().unwrap()
}

fn case(operation: u8, number: u32, inputs: [&[u8]; 3]) -> Case {
    Case { operation, number, room: ANSWER, inputs: [inputs[0].to_vec(), inputs[1].to_vec(), inputs[2].to_vec()] }
}

pub fn rewrite(profile: &[u8]) -> Case {
    case(REWRITE, 0, [profile, &[], &[]])
}

pub fn body(profile: &[u8], n: u32) -> Case {
    case(BODY, n, [profile, &[], &[]])
}

pub fn include(profile: &[u8], p: &[u8], q: &[u8]) -> Case {
    case(INCLUDE, 0, [profile, p, q])
}

pub fn keep(profile: &[u8], question: &[u8], tree: &[u8]) -> Case {
    case(KEEP, 0, [profile, question, tree])
}

pub fn check_proof(profile: &[u8], question: &[u8], proof: &[u8]) -> Case {
    case(CHECK_PROOF, 0, [profile, question, proof])
}

pub fn check_tree(profile: &[u8], question: &[u8], tree: &[u8]) -> Case {
    case(CHECK_TREE, 0, [profile, question, tree])
}

pub fn decide(profile: &[u8], question: &[u8]) -> Case {
    case(DECIDE, 0, [profile, question, &[]])
}

pub fn list(profile: &[u8], tree: &[u8], block: u32) -> Case {
    case(LIST, block, [profile, &[], tree])
}

pub fn read_line(profile: &[u8], line: &[u8]) -> Case {
    case(READ_LINE, 0, [profile, line, &[]])
}

pub fn write_line(profile: &[u8], question: &[u8]) -> Case {
    case(WRITE_LINE, 0, [profile, question, &[]])
}

pub fn reduce(profile: &[u8]) -> Case {
    case(REDUCE, 0, [profile, &[], &[]])
}

pub fn prove_dropped(profile: &[u8], n: u32) -> Case {
    case(DROPPED_PROOF, n, [profile, &[], &[]])
}

pub fn trim(profile: &[u8], question: &[u8], proof: &[u8]) -> Case {
    case(TRIM, 0, [profile, question, proof])
}

pub fn salvage(profile: &[u8], tree: &[u8]) -> Case {
    case(SALVAGE, 0, [profile, &[], tree])
}

pub fn salvage_listing(profile: &[u8], tree: &[u8], block: u32) -> Case {
    case(SALVAGE_LISTING, block, [profile, &[], tree])
}

/// The inputs in the order of the names; none for one that cannot be read.
pub fn campaign(profile: &[u8], list: &[u8], inputs: &[Option<Vec<u8>>]) -> Case {
    case(CAMPAIGN, 0, [profile, list, &framed(inputs)])
}

/// The same case with an answer buffer of another size.
pub fn in_room(room: u32, case: Case) -> Case {
    Case { room, ..case }
}
