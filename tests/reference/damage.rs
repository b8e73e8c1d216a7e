//! Damaged inputs: truncated, single bytes changed, records swapped or doubled, lengths off by one; and
//! records that are whole but hold one or two faults of the refusal table, so that their order shows.
use super::generate::World;
use super::paths::{ANY_PATH, ROOT, TEXT};
use super::random::Random;
use super::records::*;

/// The places where the records of an input begin, as its length fields say, and its end.
pub fn starts(bytes: &[u8]) -> Vec<usize> {
    let mut found = vec![0];
    let mut at = 0;
    while bytes.len() - at >= 2 {
        let length = bytes[at] as usize + 256 * bytes[at + 1] as usize;
        if length < 4 || length > bytes.len() - at {
            break;
        }
        at += length;
        found.push(at);
    }
    found
}

pub fn damaged(random: &mut Random, bytes: &[u8]) -> Vec<u8> {
    let mut out = bytes.to_vec();
    if out.is_empty() {
        return random.one_of(&[vec![0], vec![4, 0, 2], vec![4, 0, 2, 0], vec![4, 0, 3, 0], vec![4, 0, 5, 0], vec![4, 0, 9, 9]]);
    }
    let bounds = starts(bytes);
    let records = bounds.len() - 1;
    match random.below(10) {
        0 => out.truncate(random.below(bytes.len())),
        1 => {
            let at = random.below(out.len());
            out[at] = random.next() as u8;
        }
        2 => {
            let at = random.below(out.len());
            out[at] = random.one_of(&[0, 1, 2, 3, 4, 5, 8, 9, 200, 201, 202, 203, 255]);
        }
        3 => {
            let at = random.below(out.len());
            out[at] = if random.chance(1, 2) { out[at].wrapping_add(1) } else { out[at].wrapping_sub(1) };
        }
        4 if records >= 1 => {
            // A length field off by one.
            let at = bounds[random.below(records)];
            out[at] = if random.chance(1, 2) { out[at].wrapping_add(1) } else { out[at].wrapping_sub(1) };
        }
        5 if records >= 2 => {
            let (i, j) = (random.below(records), random.below(records));
            let (i, j) = (i.min(j), i.max(j));
            let part = |k: usize| &bytes[bounds[k]..bounds[k + 1]];
            let mut order: Vec<usize> = (0..records).collect();
            order.swap(i, j);
            out = order.iter().flat_map(|&k| part(k).to_vec()).collect();
        }
        6 if records >= 1 => {
            let i = random.below(records);
            let again = bytes[bounds[i]..bounds[i + 1]].to_vec();
            out.splice(bounds[i]..bounds[i], again);
        }
        7 if records >= 1 => {
            let i = random.below(records);
            out.drain(bounds[i]..bounds[i + 1]);
        }
        8 if records >= 1 => {
            // Another kind, the length as it was.
            out[bounds[random.below(records)] + 2] = random.one_of(&[1, 2, 3, 4, 5, 6]);
        }
        _ => {
            let at = random.below(out.len() + 1);
            out.insert(at, random.one_of(&[0, 1, 2, 4, 9, 255]));
        }
    }
    out
}

/// One fault of 4, 5 or 6 in a key; the sizes are those of its place.
fn spoil_key(random: &mut Random, world: &World, sizes: KeySizes, key: &mut Key) {
    let element = random.one_of(&world.elements);
    let last = random.one_of(&world.last_only);
    let in_target = random.chance(1, 2);
    let which = random.below(key.paths.len().max(1));
    let fault = random.below(13);
    let path = if in_target { &mut key.target } else { &mut key.context };
    let at = random.below(path.len() + 1);
    match fault {
        0 => path.insert(at, random.one_of(&[5, 199, 201, 202, 203, 255])),
        1 => {
            path.insert(at, ANY_PATH);
            path.insert(at, ANY_PATH);
        }
        2 => path.resize(sizes.path, element),
        3 => path.resize(sizes.path + 1, element),
        4 | 5 => path.insert(at, last),
        6 => key.paths.clear(),
        7 => key.paths.reverse(),
        8 => {
            let most = sizes.count + random.below(2);
            key.paths = (0..most).map(|k| vec![element; k.min(sizes.key_path)]).collect();
        }
        9 if !key.paths.is_empty() => key.paths.push(key.paths[which].clone()),
        10 if !key.paths.is_empty() => key.paths[which].push(ANY_PATH),
        11 if !key.paths.is_empty() => key.paths[which].insert(0, last),
        _ if !key.paths.is_empty() => {
            let length = sizes.key_path + random.below(2);
            key.paths[which].resize(length, element);
        }
        _ => key.paths.push(vec![TEXT, TEXT]),
    }
}

fn spoil_label(random: &mut Random, labels: &mut [Label]) {
    let at = random.below(labels.len());
    let other = random.below(labels.len());
    match random.below(6) {
        0 => labels[at].number = random.one_of(&[0, 1, 2, 200, 201, 202, 203, 255]),
        1 => labels[at].number = labels[other].number,
        2 => labels[at].class = random.one_of(&[0, 1, 2, 3, 255]),
        3 => labels[at].name = labels[other].name.clone(),
        4 => {
            let byte = random.one_of(&[b'-', b'_', b'0', b'.', b' ', 0, 200, b'@', b'[', b'`', b'{', b'/', b':']);
            let into = random.below(labels[at].name.len() + 1);
            labels[at].name.insert(into, byte);
        }
        _ => {
            let length = random.one_of(&[0, 1, 31, 32, 33, 34]);
            labels[at].name.resize(length, b'x');
        }
    }
}

fn spoil_node(random: &mut Random, number: usize, node: &mut Node) {
    match random.below(4) {
        0 => node.parent = random.one_of(&[0, number as u16, number as u16 + 1, NONE - 1, NONE]),
        1 => node.parent = random.below(number + 1) as u16,
        2 => node.label = random.one_of(&[0, TEXT, 5, 200, 201, 202, ROOT, 204, 255]),
        _ => node.value = random.one_of(&[0, 1, 256, 65_535, 65_536, u32::MAX]),
    }
}

/// A node record with one fault, or as a whole record of the other kind. A value that kind 3 cannot hold loses its high bytes.
fn spoiled_node(random: &mut Random, number: usize, kind: u16, body: &[u8]) -> Vec<u8> {
    let mut node = read_node(body);
    let mut kind = kind;
    if random.chance(1, 4) {
        kind = NODE_KIND + WIDE_NODE_KIND - kind;
    } else {
        spoil_node(random, number, &mut node);
    }
    if kind == NODE_KIND {
        node.value %= 65_536;
    }
    node_record(&node, kind)
}

/// The edition's record with another byte or another length, left out, written twice, or moved behind other records.
fn spoiled_edition(random: &mut Random, bytes: &[u8], bounds: &[usize], chosen: usize) -> Vec<u8> {
    let (from, to) = (bounds[chosen], bounds[chosen + 1]);
    let other = random.one_of(&[0, 1, 3, 6, 255]);
    let new = match random.below(5) {
        0 => edition_record(other),
        1 => Vec::new(),
        2 => bytes[from..to].repeat(2),
        3 => record(EDITION_KIND, &random.one_of(&[vec![], vec![2, 2]])),
        _ => {
            let behind = to + random.one_of(bounds).saturating_sub(to);
            return [&bytes[..from], &bytes[to..behind], &bytes[from..to], &bytes[behind..]].concat();
        }
    };
    let mut out = bytes.to_vec();
    out.splice(from..to, new);
    out
}

/// A key record once more, behind itself or behind any record after it.
fn doubled_key(random: &mut Random, bytes: &[u8], bounds: &[usize], chosen: usize) -> Vec<u8> {
    let behind = random.one_of(&bounds[chosen + 1..]);
    [&bytes[..behind], &bytes[bounds[chosen]..bounds[chosen + 1]], &bytes[behind..]].concat()
}

/// A profile, question, tree or proof with one or two faults inside its records.
pub fn spoiled(random: &mut Random, world: &World, bytes: &[u8]) -> Vec<u8> {
    let mut out = bytes.to_vec();
    for _ in 0..1 + random.below(2) {
        out = spoiled_once(random, world, &out);
    }
    out
}

fn spoiled_once(random: &mut Random, world: &World, bytes: &[u8]) -> Vec<u8> {
    let bounds = starts(bytes);
    let records = bounds.len() - 1;
    if records == 0 {
        return bytes.to_vec();
    }
    let has_edition = bytes[2] as u16 == EDITION_KIND;
    let chosen = if has_edition && random.chance(1, 4) { 0 } else { random.below(records) };
    let (from, to) = (bounds[chosen], bounds[chosen + 1]);
    let (kind, body) = (bytes[from + 2] as u16, &bytes[from + 4..to]);
    if kind == EDITION_KIND {
        return spoiled_edition(random, bytes, &bounds, chosen);
    }
    if kind == KEY_KIND && random.chance(1, 8) {
        return doubled_key(random, bytes, &bounds, chosen);
    }
    let new = match kind {
        LABEL_KIND if body.len() > 2 => {
            let label = |body: &[u8]| Label { number: body[0], class: body[1], name: body[2..].to_vec() };
            let other = &bytes[bounds[0] + 4..bounds[1]];
            let mut labels = vec![label(body), label(if other.len() > 2 { other } else { body })];
            spoil_label(random, &mut labels);
            label_record(&labels[0])
        }
        KEY_KIND => match read_key(body) {
            None => return bytes.to_vec(),
            Some(mut key) => {
                spoil_key(random, world, KEY_SIZES, &mut key);
                key_record(&key)
            }
        },
        LINE_KIND if body.len() > 5 => match read_key(&body[5..]) {
            None => return bytes.to_vec(),
            Some(mut key) => {
                spoil_key(random, world, LINE_SIZES, &mut key);
                record(LINE_KIND, &[&body[..5], &key_body(&key)].concat())
            }
        },
        NODE_KIND | WIDE_NODE_KIND if body.len() == 3 + value_bytes(kind) => spoiled_node(random, chosen, kind, body),
        _ => return bytes.to_vec(),
    };
    let mut out = bytes.to_vec();
    out.splice(from..to, new);
    out
}
