//! Damaged exports (02, request 7): trees that were sound, then cut, with single records spoiled, lost, doubled, exchanged for short ones
//! or for records of other kinds.
use super::damage::{damaged, spoiled, starts};
use super::generate::{node_kind, tree, woven, Asked};
use super::random::Random;
use super::records::*;

/// A record of another kind that is whole, or one of a node's kind that is too short.
fn short_record(random: &mut Random) -> Vec<u8> {
    let whole: [(u16, &[u8]); 9] = [
        (99, &[]),
        (99, &[0]),
        (0, &[1, 2]),
        (LABEL_KIND, &[2, 1]),
        (LABEL_KIND, &[2, 1, 97, 97]),
        (KEY_KIND, &[0, 0, 0]),
        (KEY_KIND, &[0, 0, 1, 0]),
        (EDITION_KIND, &[2]),
        (65_535, &[0, 0, 0, 0]),
    ];
    if random.chance(1, 12) {
        let body = vec![0; random.below(5)];
        return record(random.one_of(&[NODE_KIND, WIDE_NODE_KIND, KEY_KIND]), &body);
    }
    let (kind, body) = random.one_of(&whole);
    record(kind, body)
}

/// One fault: of the bytes, inside a record, a record put in or exchanged, records lost or written again.
fn faulty(random: &mut Random, asked: &Asked, bytes: &[u8]) -> Vec<u8> {
    let bounds = starts(bytes);
    // The first record is left alone, since without it nothing is left.
    let later = bounds.len().saturating_sub(2);
    if later == 0 {
        return [bytes, &short_record(random)].concat();
    }
    let at = 1 + random.below(later);
    let (from, to) = (bounds[at], bounds[at + 1]);
    let other = at + random.below(later - at + 1);
    let behind = bounds[other + 1];
    match random.below(10) {
        0 => damaged(random, bytes),
        1 | 2 => spoiled(random, &asked.world, bytes),
        3 => [&bytes[..from], &short_record(random), &bytes[from..]].concat(),
        4 => [&bytes[..from], &short_record(random), &bytes[to..]].concat(),
        5 => [&bytes[..from], &bytes[behind..]].concat(),
        6 => [&bytes[..behind], &bytes[from..behind], &bytes[behind..]].concat(),
        // A later record stands here as well, perhaps in front of its parent.
        7 => [&bytes[..from], &bytes[bounds[other]..behind], &bytes[to..]].concat(),
        8 if random.chance(1, 3) => bytes[..from + random.below(bytes.len() - from)].to_vec(),
        _ => other_kind(bytes, from, to),
    }
}

/// A node record as one of the other kind.
fn other_kind(bytes: &[u8], from: usize, to: usize) -> Vec<u8> {
    let kind = bytes[from + 2] as u16;
    if !NODE_KINDS.contains(&kind) || to - from != 7 + value_bytes(kind) {
        return bytes.to_vec();
    }
    let node = read_node(&bytes[from + 4..to]);
    let other = node_record(&Node { value: node.value % 65_536, ..node }, NODE_KIND + WIDE_NODE_KIND - kind);
    [&bytes[..from], &other, &bytes[to..]].concat()
}

/// The nodes of a tree and their records with up to four faults; now and then so many short records that the listing has further blocks.
pub fn export(random: &mut Random, asked: &Asked, most_nodes: usize) -> (Vec<Node>, Vec<u8>) {
    let kind = node_kind(random);
    let size = 1 + random.below(most_nodes);
    let mut nodes = tree(random, &asked.world, size, kind);
    if random.chance(1, 4) {
        nodes = woven(random, &nodes);
    }
    let mut bytes = write_tree(&nodes, kind);
    for _ in 0..random.below(5) {
        bytes = faulty(random, asked, &bytes);
    }
    if random.chance(1, 100) {
        let many = 1_000 + random.below(2_200);
        let at = random.one_of(&starts(&bytes)).max(4.min(bytes.len()));
        bytes = [&bytes[..at], &record(99, &[]).repeat(many)[..], &bytes[at..]].concat();
    }
    (nodes, bytes)
}
