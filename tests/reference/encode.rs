//! The bytes of records (01, "Records").
use super::records::{value_bytes, Key, Label, Line, Node, Profile, EDITION_KIND, KEY_KIND, LABEL_KIND, LINE_KIND, SECOND_EDITION};

fn put_two(out: &mut Vec<u8>, number: u16) {
    out.push((number % 256) as u8);
    out.push((number / 256) as u8);
}

pub fn record(kind: u16, body: &[u8]) -> Vec<u8> {
    let mut out = Vec::new();
    put_two(&mut out, 4 + body.len() as u16);
    put_two(&mut out, kind);
    out.extend_from_slice(body);
    out
}

pub fn key_body(key: &Key) -> Vec<u8> {
    let mut out = vec![key.context.len() as u8];
    out.extend_from_slice(&key.context);
    out.push(key.target.len() as u8);
    out.extend_from_slice(&key.target);
    out.push(key.paths.len() as u8);
    for path in &key.paths {
        out.push(path.len() as u8);
        out.extend_from_slice(path);
    }
    out
}

pub fn label_record(label: &Label) -> Vec<u8> {
    record(LABEL_KIND, &[&[label.number, label.class], label.name.as_slice()].concat())
}

pub fn key_record(key: &Key) -> Vec<u8> {
    record(KEY_KIND, &key_body(key))
}

/// The value has to fit the kind.
pub fn node_record(node: &Node, kind: u16) -> Vec<u8> {
    let mut body = Vec::new();
    put_two(&mut body, node.parent);
    body.push(node.label);
    let value = node.value.to_le_bytes();
    let (written, rest) = value.split_at(value_bytes(kind));
    assert!(rest.iter().all(|&byte| byte == 0), "value {} in a record of kind {}", node.value, kind);
    body.extend_from_slice(written);
    record(kind, &body)
}

pub fn line_record(line: &Line) -> Vec<u8> {
    let mut body = vec![line.rule];
    put_two(&mut body, line.first);
    put_two(&mut body, line.second);
    body.extend(key_body(&line.key));
    record(LINE_KIND, &body)
}

pub fn edition_record(edition: u8) -> Vec<u8> {
    record(EDITION_KIND, &[edition])
}

pub fn write_profile(profile: &Profile) -> Vec<u8> {
    let mut out = Vec::new();
    if profile.edition == SECOND_EDITION {
        out.extend(edition_record(SECOND_EDITION));
    }
    for label in &profile.labels {
        out.extend(label_record(label));
    }
    for key in &profile.keys {
        out.extend(key_record(key));
    }
    out
}

/// The nodes as records of one kind, 3 or 5.
pub fn write_tree(nodes: &[Node], kind: u16) -> Vec<u8> {
    nodes.iter().flat_map(|node| node_record(node, kind)).collect()
}

pub fn write_proof(lines: &[Line]) -> Vec<u8> {
    lines.iter().flat_map(line_record).collect()
}
