//! The records of profile, question, tree and proof, each input checked from the front
//! (01, "Records" and "Refusal numbers").
use super::paths::{is_normal, is_simple, is_valid, join, Class, Classes, Path};
use super::paths::{ANY_PATH, FILLER_ATTRIBUTE, FIRST_DECLARED, LAST_DECLARED, ROOT, TEXT};
use super::wrong;

pub use super::encode::*;

pub const PROFILE_BYTES: usize = 16_384;
pub const TREE_BYTES: usize = 36_864;
pub const WIDE_TREE_BYTES: usize = 45_056;
pub const PROOF_BYTES: usize = 65_536;
pub const ANSWER_BYTES: usize = 65_536;
pub const PROFILE_KEYS: usize = 64;
pub const TREE_NODES: usize = 4_096;
pub const PROOF_LINES: usize = 256;
pub const BARE_PATH_SYMBOLS: usize = 32;
pub const NONE: u16 = 65_535;

pub const PROFILE: u32 = 1;
pub const QUESTION: u32 = 2;
pub const TREE_OR_PROOF: u32 = 3;
pub const ANSWER: u32 = 4;

pub const LABEL_KIND: u16 = 1;
pub const KEY_KIND: u16 = 2;
pub const NODE_KIND: u16 = 3;
pub const LINE_KIND: u16 = 4;
/// A node record with a value of four bytes (02, request 11).
pub const WIDE_NODE_KIND: u16 = 5;
pub const NODE_KINDS: [u16; 2] = [NODE_KIND, WIDE_NODE_KIND];
pub const EDITION_KIND: u16 = 6;

pub const FIRST_EDITION: u8 = 1;
pub const SECOND_EDITION: u8 = 2;

#[derive(Clone, Copy, PartialEq, Eq, Debug)]
pub struct Refusal {
    pub number: u32,
    pub input: u32,
    pub record: u32,
}

pub fn refuse<T>(number: u32, input: u32, record: usize) -> Result<T, Refusal> {
    Err(Refusal { number, input, record: record as u32 })
}

#[derive(Clone, PartialEq, Eq, Debug)]
pub struct Key {
    pub context: Path,
    pub target: Path,
    pub paths: Vec<Path>,
}

#[derive(Clone, PartialEq, Eq, Debug)]
pub struct Label {
    pub number: u8,
    pub class: u8,
    pub name: Vec<u8>,
}

#[derive(Clone)]
pub struct Profile {
    pub edition: u8,
    pub labels: Vec<Label>,
    pub keys: Vec<Key>,
    pub classes: Classes,
}

#[derive(Clone, Copy, PartialEq, Eq, Debug)]
pub struct Node {
    pub parent: u16,
    pub label: u8,
    pub value: u32,
}

#[derive(Clone, PartialEq, Eq, Debug)]
pub struct Line {
    pub rule: u8,
    pub first: u16,
    pub second: u16,
    pub key: Key,
}

/// How long the parts of a key may be: in profile and question, and in a proof line.
#[derive(Clone, Copy)]
pub struct KeySizes {
    pub path: usize,
    pub key_path: usize,
    pub count: usize,
}

pub const KEY_SIZES: KeySizes = KeySizes { path: 8, key_path: 8, count: 4 };
pub const LINE_SIZES: KeySizes = KeySizes { path: 32, key_path: 16, count: 64 };

fn two(bytes: &[u8], at: usize) -> u16 {
    bytes[at] as u16 + 256 * bytes[at + 1] as u16
}

/// How many bytes the value of a node record has.
pub fn value_bytes(kind: u16) -> usize {
    if kind == WIDE_NODE_KIND {
        4
    } else {
        2
    }
}

/// The kind of the next record, if its 4 head bytes are there.
pub fn kind_of(rest: &[u8]) -> Option<u16> {
    if rest.len() < 4 {
        None
    } else {
        Some(two(rest, 2))
    }
}

/// One length byte and as many symbols, and what stands after them.
fn counted(bytes: &[u8]) -> Option<(Path, &[u8])> {
    let (&length, rest) = bytes.split_first()?;
    if rest.len() < length as usize {
        return None;
    }
    let (path, after) = rest.split_at(length as usize);
    Some((path.to_vec(), after))
}

/// A key body that ends exactly where its lengths and counts say.
pub fn read_key(body: &[u8]) -> Option<Key> {
    let (context, rest) = counted(body)?;
    let (target, rest) = counted(rest)?;
    let (&count, mut rest) = rest.split_first()?;
    let mut paths = Vec::new();
    for _ in 0..count {
        let (path, after) = counted(rest)?;
        paths.push(path);
        rest = after;
    }
    if rest.is_empty() {
        Some(Key { context, target, paths })
    } else {
        None
    }
}

/// Whether a body ends where its kind says. An unknown kind says nothing.
fn body_fits(kind: u16, body: &[u8]) -> bool {
    match kind {
        LABEL_KIND => body.len() >= 2,
        KEY_KIND => read_key(body).is_some(),
        NODE_KIND | WIDE_NODE_KIND => body.len() == 3 + value_bytes(kind),
        LINE_KIND => body.len() >= 5 && read_key(&body[5..]).is_some(),
        EDITION_KIND => body.len() == 1,
        _ => true,
    }
}

/// The first record of the rest: kind, body and what follows; none is refusal 1.
pub fn first_record(rest: &[u8]) -> Option<(u16, &[u8], &[u8])> {
    let kind = kind_of(rest)?;
    let length = two(rest, 0) as usize;
    if length < 4 || length > rest.len() {
        return None;
    }
    let (record, after) = rest.split_at(length);
    let body = &record[4..];
    if body_fits(kind, body) {
        Some((kind, body, after))
    } else {
        None
    }
}

fn has_symbol_fault(path: &[u8], longest: usize, classes: &Classes) -> bool {
    let is_symbol = |&symbol: &u8| symbol == ANY_PATH || symbol == TEXT || classes.is_declared(symbol);
    path.len() > longest || !path.iter().all(is_symbol) || !is_normal(path)
}

/// Refusals 4, 5 and 6 of a key.
pub fn key_fault(key: &Key, sizes: KeySizes, classes: &Classes) -> Option<u32> {
    let in_order = |two: &[Path]| (two[0].len(), &two[0]) < (two[1].len(), &two[1]);
    let four = has_symbol_fault(&key.context, sizes.path, classes)
        || has_symbol_fault(&key.target, sizes.path, classes)
        || key.paths.iter().any(|path| has_symbol_fault(path, sizes.key_path, classes) || !is_simple(path));
    let five = key.paths.is_empty() || key.paths.len() > sizes.count || !key.paths.windows(2).all(in_order);
    let way = join(&key.context, &key.target);
    let six = key.paths.iter().any(|path| !is_valid(&join(&way, path), classes));
    if wrong(10) && five {
        return Some(5);
    }
    match (four, five, six) {
        (true, _, _) => Some(4),
        (_, true, _) => Some(5),
        (_, _, true) => Some(6),
        _ => None,
    }
}

fn is_name(name: &[u8]) -> bool {
    let is_later = |byte: &u8| byte.is_ascii_alphanumeric() || *byte == b'-' || *byte == b'_';
    (1..=32).contains(&name.len()) && name[0].is_ascii_alphabetic() && name.iter().all(is_later)
}

/// Whether refusal 3 is due for a label after the labels before it.
fn has_label_fault(label: &Label, before: &[Label]) -> bool {
    let ascends = before.last().map_or(true, |last| last.number < label.number);
    !(FIRST_DECLARED..=LAST_DECLARED).contains(&label.number)
        || !ascends
        || !(label.class == 1 || label.class == 2)
        || !is_name(&label.name)
        || before.iter().any(|other| other.name == label.name)
}

/// "A profile with two equal keys is to be refused at the later one." Key paths stand in order, so equal keys have equal paths.
fn stands_before(key: &Key, before: &[Key]) -> bool {
    if wrong(19) {
        return before.last() == Some(key);
    }
    before.contains(key)
}

/// "A profile of edition 2 begins with a record of kind 6, one byte, 2; without it the profile is edition 1": how many records
/// that takes, none or one, and what stands behind it.
fn read_edition(bytes: &[u8]) -> Result<(usize, &[u8]), Refusal> {
    match first_record(bytes) {
        Some((EDITION_KIND, [SECOND_EDITION], after)) => Ok((1, after)),
        Some((EDITION_KIND, _, _)) => refuse(3, PROFILE, 0),
        _ => Ok((0, bytes)),
    }
}

pub fn read_profile(bytes: &[u8]) -> Result<Profile, Refusal> {
    if bytes.len() > PROFILE_BYTES {
        return refuse(7, PROFILE, 0);
    }
    let (before, mut rest) = read_edition(bytes)?;
    let edition = if before == 1 { SECOND_EDITION } else { FIRST_EDITION };
    let mut profile = Profile { edition, labels: Vec::new(), keys: Vec::new(), classes: Classes::none() };
    while !rest.is_empty() {
        let record = before + profile.labels.len() + profile.keys.len();
        if profile.keys.len() == PROFILE_KEYS && kind_of(rest) == Some(KEY_KIND) {
            return refuse(7, PROFILE, record);
        }
        let (kind, body, after) = match first_record(rest) {
            None => return refuse(1, PROFILE, record),
            Some(parts) => parts,
        };
        match kind {
            LABEL_KIND if profile.keys.is_empty() => {
                let label = Label { number: body[0], class: body[1], name: body[2..].to_vec() };
                if has_label_fault(&label, &profile.labels) {
                    return refuse(3, PROFILE, record);
                }
                let class = if label.class == 1 { Class::Element } else { Class::Attribute };
                profile.classes.declare(label.number, class);
                profile.labels.push(label);
            }
            KEY_KIND => {
                let key = read_key(body).unwrap();
                if let Some(number) = key_fault(&key, KEY_SIZES, &profile.classes) {
                    return refuse(number, PROFILE, record);
                }
                if stands_before(&key, &profile.keys) {
                    return refuse(15, PROFILE, record);
                }
                profile.keys.push(key);
            }
            _ => return refuse(2, PROFILE, record),
        }
        rest = after;
    }
    Ok(profile)
}

/// A question is one key record.
pub fn read_question(bytes: &[u8], classes: &Classes) -> Result<Key, Refusal> {
    let (kind, body, after) = match first_record(bytes) {
        None => return refuse(1, QUESTION, 0),
        Some(parts) => parts,
    };
    if kind != KEY_KIND {
        return refuse(2, QUESTION, 0);
    }
    let key = read_key(body).unwrap();
    if let Some(number) = key_fault(&key, KEY_SIZES, classes) {
        return refuse(number, QUESTION, 0);
    }
    if after.is_empty() {
        return Ok(key);
    }
    match first_record(after) {
        None => refuse(1, QUESTION, 1),
        Some(_) => refuse(2, QUESTION, 1),
    }
}

/// Whether a node may stand after the nodes before it: parent, label and value as 01 says.
fn is_node(node: &Node, before: &[Node], classes: &Classes) -> bool {
    let class = match classes.of(node.label) {
        None => return false,
        Some(class) => class,
    };
    let value_fits = class != Class::Element || node.value == 0;
    let parent_fits = match before.get(node.parent as usize) {
        None => before.is_empty() && node.parent == NONE,
        Some(parent) => !classes.is_last_only(parent.label),
    };
    let label_fits = (node.label == ROOT) == before.is_empty();
    value_fits && parent_fits && label_fits
}

/// A node's body: parent, label, and as its value what is left.
pub fn read_node(body: &[u8]) -> Node {
    let value = body[3..].iter().rev().fold(0, |high, &byte| 256 * high + byte as u32);
    Node { parent: two(body, 0), label: body[2], value }
}

/// The kind of all of a tree's records, which is that of record 0, and how many bytes the tree may have.
pub fn tree_kind(bytes: &[u8]) -> (u16, usize) {
    match kind_of(bytes) {
        Some(WIDE_NODE_KIND) => (WIDE_NODE_KIND, WIDE_TREE_BYTES),
        _ => (NODE_KIND, TREE_BYTES),
    }
}

/// "In edition 2 the trees .. have each attribute name at most once under an element"; 202 is a name like any other.
pub fn is_repeated(node: &Node, before: &[Node], profile: &Profile) -> bool {
    let is_name = profile.classes.of(node.label) == Some(Class::Attribute);
    let is_tried = is_name && !(wrong(17) && node.label == FILLER_ATTRIBUTE);
    profile.edition == SECOND_EDITION
        && is_tried
        && before.iter().any(|other| (other.parent, other.label) == (node.parent, node.label))
}

pub fn read_tree(bytes: &[u8], profile: &Profile) -> Result<Vec<Node>, Refusal> {
    let mut nodes: Vec<Node> = Vec::new();
    let (node_kind, most_bytes) = tree_kind(bytes);
    if bytes.len() > most_bytes {
        return refuse(7, TREE_OR_PROOF, 0);
    }
    if bytes.is_empty() {
        return refuse(8, TREE_OR_PROOF, 0);
    }
    let mut rest = bytes;
    while !rest.is_empty() {
        let record = nodes.len();
        if nodes.len() == TREE_NODES && kind_of(rest) == Some(node_kind) {
            return refuse(7, TREE_OR_PROOF, record);
        }
        let (kind, body, after) = match first_record(rest) {
            None => return refuse(1, TREE_OR_PROOF, record),
            Some(parts) => parts,
        };
        if kind != node_kind {
            return refuse(2, TREE_OR_PROOF, record);
        }
        let node = read_node(body);
        if !is_node(&node, &nodes, &profile.classes) {
            return refuse(8, TREE_OR_PROOF, record);
        }
        if is_repeated(&node, &nodes, profile) {
            return refuse(16, TREE_OR_PROOF, record);
        }
        nodes.push(node);
        rest = after;
    }
    Ok(nodes)
}

/// A proof's lines; `follows` says whether a line follows after those before it (refusal 9 belongs
/// to the line, so it comes before anything of the next record).
pub fn read_proof(
    bytes: &[u8],
    classes: &Classes,
    follows: &dyn Fn(&Line, &[Line]) -> bool,
) -> Result<Vec<Line>, Refusal> {
    let mut lines: Vec<Line> = Vec::new();
    if bytes.len() > PROOF_BYTES {
        return refuse(7, TREE_OR_PROOF, 0);
    }
    let mut rest = bytes;
    while !rest.is_empty() {
        let record = lines.len();
        if lines.len() == PROOF_LINES && kind_of(rest) == Some(LINE_KIND) {
            return refuse(7, TREE_OR_PROOF, record);
        }
        let (kind, body, after) = match first_record(rest) {
            None => return refuse(1, TREE_OR_PROOF, record),
            Some(parts) => parts,
        };
        if kind != LINE_KIND {
            return refuse(2, TREE_OR_PROOF, record);
        }
        let key = read_key(&body[5..]).unwrap();
        let line = Line { rule: body[0], first: two(body, 1), second: two(body, 3), key };
        if let Some(number) = key_fault(&line.key, LINE_SIZES, classes) {
            return refuse(number, TREE_OR_PROOF, record);
        }
        if !follows(&line, &lines) {
            return refuse(9, TREE_OR_PROOF, record);
        }
        lines.push(line);
        rest = after;
    }
    Ok(lines)
}

/// A bare path of inclusion: 4, then 6 for the path alone.
pub fn read_bare_path(path: &[u8], input: u32, classes: &Classes) -> Result<(), Refusal> {
    if has_symbol_fault(path, BARE_PATH_SYMBOLS, classes) {
        return refuse(4, input, 0);
    }
    if !is_valid(path, classes) {
        return refuse(6, input, 0);
    }
    Ok(())
}

/// The body of record n of bytes that are records throughout.
pub fn body_of_record(bytes: &[u8], n: usize) -> Option<&[u8]> {
    let mut rest = bytes;
    for _ in 0..n {
        rest = first_record(rest)?.2;
    }
    first_record(rest).map(|parts| parts.1)
}
