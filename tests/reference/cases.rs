//! The cases of a run: fixed ones at each limit, then random ones, whole and damaged.
use super::campaign::{framed, CAMPAIGN_NAMES};
use super::damage::{damaged, spoiled};
use super::derivations::{derivation, padded};
use super::examples::{bench_profile_of, question, ROWS};
use super::exports::export;
use super::generate::*;
use super::paths::*;
use super::random::Random;
use super::records::*;
use super::stream::*;
use super::typing::typed_line;

const ROOM: u32 = ANSWER_BYTES as u32;

fn case(operation: u8, profile: &[u8], second: &[u8], third: &[u8]) -> Case {
    Case { operation, number: 0, room: ROOM, inputs: [profile.to_vec(), second.to_vec(), third.to_vec()] }
}

/// The cases of a seed, one after the other: fixed ones, then as many random ones as asked. The true
/// reference makes them, so that a wrong line changes answers alone.
pub struct Cases {
    fixed: std::vec::IntoIter<Case>,
    random: Random,
    left: usize,
}

pub fn cases(seed: u64, count: usize) -> Cases {
    Cases { fixed: fixed_cases().into_iter(), random: Random::new(seed), left: count }
}

impl Iterator for Cases {
    type Item = Case;

    fn next(&mut self) -> Option<Case> {
        assert!(super::wrong(0));
        if let Some(case) = self.fixed.next() {
            return Some(case);
        }
        self.left = self.left.checked_sub(1)?;
        Some(whole_or_damaged(&mut self.random))
    }
}

fn fixed_cases() -> Vec<Case> {
    let mut all = Vec::new();
    examples(&mut all);
    easily_wrong(&mut all);
    profile_limits(&mut all);
    path_limits(&mut all);
    tree_limits(&mut all);
    proof_limits(&mut all);
    editions(&mut all);
    doubled_keys(&mut all);
    many_witnesses(&mut all);
    lean_profiles(&mut all);
    typed_lines(&mut all);
    damaged_exports(&mut all);
    campaigns(&mut all);
    all
}

/// A random case: of 20 one has a key twice, of six one is damaged and one spoiled, and some lend another buffer than 01 asks.
fn whole_or_damaged(random: &mut Random) -> Case {
    let mut asked = asked(random);
    if random.chance(1, 20) {
        double_key(random, &mut asked.profile.keys);
    }
    let mut next = random_case(random, &asked);
    let input = random.below(3);
    match random.below(6) {
        0 => next.inputs[input] = damaged(random, &next.inputs[input]),
        1 => next.inputs[input] = spoiled(random, &asked.world, &next.inputs[input]),
        _ => {}
    }
    if random.chance(1, 200) {
        next.room = random.one_of(&[0, 1, ROOM - 1, ROOM + 1]);
    }
    next
}

fn examples(all: &mut Vec<Case>) {
    for (_, edition, keys, asked, _) in ROWS.iter() {
        let (profile, question) = (bench_profile_of(*edition, keys), question(asked));
        let decide = case(DECIDE, &profile, &question, &[]);
        let evidence = answer(&decide).bytes;
        all.push(decide);
        all.push(case(CHECK_PROOF, &profile, &question, &evidence));
        all.push(case(CHECK_TREE, &profile, &question, &evidence));
        all.push(case(KEEP, &profile, &question, &evidence));
        all.push(case(LIST, &profile, &[], &evidence));
        all.push(case(REWRITE, &profile, &[], &[]));
        all.push(case(REDUCE, &profile, &[], &[]));
        all.push(case(WRITE_LINE, &profile, &question, &[]));
        for number in 0..10 {
            all.push(Case { number, ..case(BODY, &profile, &[], &[]) });
        }
    }
}

/// Small cases on which programs that look right go wrong.
fn easily_wrong(all: &mut Vec<Case>) {
    let base = labels(3, 0);
    // Only a label that neither path names tells these two apart.
    all.push(case(INCLUDE, &base, &[2, 0, 2], &[0, 2, 2]));
    all.push(case(INCLUDE, &base, &[2, 0, 3], &[0, 2, 3]));
    // Attributes and other children are two lists: these two elements are equal.
    let node = |parent: u16, label: u8, value: u32| Node { parent, label, value };
    let first = [node(NONE, ROOT, 0), node(0, 2, 0), node(1, 3, 5), node(1, TEXT, 7)];
    let second = [node(0, 2, 0), node(4, TEXT, 7), node(4, 3, 5)];
    let apart = Key { context: vec![], target: vec![2], paths: vec![vec![]] };
    all.push(case(KEEP, &base, &key_record(&apart), &write_tree(&[&first[..], &second[..]].concat(), NODE_KIND)));
    // Text and elements are one list: these two are not.
    let third = [node(0, 2, 0), node(4, TEXT, 7), node(4, 4, 0)];
    let fourth = [node(0, 2, 0), node(7, 4, 0), node(7, TEXT, 7)];
    let mixed = [&first[..], &third[..], &fourth[..]].concat();
    all.push(case(KEEP, &base, &key_record(&apart), &write_tree(&mixed, NODE_KIND)));
    // Both key paths have to agree, in one and the same context.
    let pairs = [node(NONE, ROOT, 0), node(0, 2, 0), node(1, 3, 1), node(1, TEXT, 1), node(0, 2, 0), node(4, 3, 1), node(4, TEXT, 2)];
    let both = Key { context: vec![], target: vec![2], paths: vec![vec![TEXT], vec![3]] };
    all.push(case(KEEP, &base, &key_record(&both), &write_tree(&pairs, NODE_KIND)));
    let below = Key { context: vec![2], target: vec![3], paths: vec![vec![]] };
    all.push(case(KEEP, &base, &key_record(&below), &write_tree(&pairs, NODE_KIND)));
    interactions(all, &base);
}

/// Rule 9 with the second premise's context right, and wrong.
fn interactions(all: &mut Vec<Case>, base: &[u8]) {
    let first = Key { context: vec![], target: vec![2], paths: vec![vec![4, 3]] };
    let new = Key { context: vec![], target: vec![2, 4], paths: vec![vec![3]] };
    for context in [vec![2], vec![4], vec![], vec![0]] {
        let second = Key { context, target: vec![4], paths: vec![vec![3]] };
        let profile = [base.to_vec(), key_record(&first), key_record(&second)].concat();
        let cite = |number: u16, key: &Key| Line { rule: 0, first: number, second: NONE, key: key.clone() };
        for (one, two) in [(0, 1), (1, 0), (0, 0), (0, 2), (0, NONE)] {
            let last = Line { rule: 9, first: one, second: two, key: new.clone() };
            let proof = write_proof(&[cite(0, &first), cite(1, &second), last]);
            all.push(case(CHECK_PROOF, &profile, &key_record(&new), &proof));
        }
    }
}

fn labels(count: usize, name: usize) -> Vec<u8> {
    let record = |number: usize| {
        let class = if number % 3 == 0 { 2 } else { 1 };
        let mut text = format!("L{}", number).into_bytes();
        text.resize(name.max(text.len()), b'-');
        label_record(&Label { number: number as u8, class, name: text })
    };
    (2..2 + count).flat_map(record).collect()
}

/// Labels 2 and 4 are elements, 3 is an attribute.
fn key_of(context: usize, target: usize, paths: &[usize]) -> Key {
    Key { context: vec![2; context], target: vec![4; target], paths: paths.iter().map(|&n| vec![2; n]).collect() }
}

/// Different keys: the context spells each one's number in labels 2 and 4, the rest is that of the given key.
fn different_keys(count: usize, rest: &Key) -> Vec<u8> {
    let spelled = |number: usize| (0..8).map(|bit| if number >> bit & 1 == 1 { 4 } else { 2 }).collect();
    (0..count).flat_map(|number| key_record(&Key { context: spelled(number), ..rest.clone() })).collect()
}

fn profile_limits(all: &mut Vec<Case>) {
    let base = labels(3, 0);
    let mut profiles: Vec<Vec<u8>> = vec![Vec::new(), labels(199, 0), labels(200, 0), labels(3, 32), labels(3, 33)];
    for (context, target) in [(8, 8), (9, 0), (0, 9), (8, 9)] {
        profiles.push([base.clone(), key_record(&key_of(context, target, &[0]))].concat());
    }
    for paths in [&[8][..], &[9], &[], &[0, 1, 2, 3], &[0, 1, 2, 3, 4], &[0, 1, 2, 3, 9], &[1, 0], &[1, 1]] {
        profiles.push([base.clone(), key_record(&key_of(1, 1, paths))].concat());
    }
    for count in [63, 64, 65] {
        let whole = [base.clone(), different_keys(count, &key_of(0, 1, &[0]))].concat();
        for tail in [&[][..], &[0], &[4, 0, 2], &[4, 0, 2, 0], &[0, 0, 2, 0], &[255, 255, 2, 0], &[4, 0, 1, 0], &[4, 0, 4, 0]] {
            profiles.push([whole.clone(), tail.to_vec()].concat());
        }
    }
    // The longest names and keys come near the size; what is over it is refused whatever it holds.
    let large = [labels(199, 32), different_keys(64, &key_of(0, 8, &[5, 6, 7, 8]))].concat();
    for size in [PROFILE_BYTES - 1, PROFILE_BYTES, PROFILE_BYTES + 1] {
        let mut padded = large.clone();
        padded.resize(size, 9);
        profiles.push(padded);
        profiles.push(vec![9; size]);
    }
    profiles.push(large);
    for profile in &profiles {
        every_operation(all, profile);
        all.push(Case { number: 1_000, ..case(BODY, profile, &[], &[]) });
        for operation in [REWRITE, READ_LINE, WRITE_LINE, REDUCE, DROPPED_PROOF, SALVAGE, SALVAGE_LISTING, CAMPAIGN] {
            all.push(Case { room: ROOM - 1, ..case(operation, profile, &[], &[]) });
        }
    }
    for tail in [&[][..], &[9], &[4, 0, 2, 0], &[4, 0, 9, 0], &[255, 255, 2, 0]] {
        for operation in [DECIDE, WRITE_LINE] {
            all.push(case(operation, &base, &[key_record(&key_of(1, 1, &[0])), tail.to_vec()].concat(), &[]));
            all.push(case(operation, &base, tail, &[]));
        }
    }
}

/// Each operation on one profile, with other inputs that are accepted where 2 and 4 are elements.
fn every_operation(all: &mut Vec<Case>, profile: &[u8]) {
    let asked = key_of(1, 0, &[0]);
    let question = key_record(&asked);
    let root = write_tree(&[Node { parent: NONE, label: ROOT, value: 0 }], WIDE_NODE_KIND);
    let proof = write_proof(&[Line { rule: 1, first: NONE, second: NONE, key: asked }]);
    all.push(case(REWRITE, profile, &[], &[]));
    all.push(Case { number: 2, ..case(BODY, profile, &[], &[]) });
    all.push(case(INCLUDE, profile, &[2], &[ANY_PATH, 2]));
    all.push(case(KEEP, profile, &question, &root));
    all.push(case(CHECK_PROOF, profile, &question, &proof));
    all.push(case(CHECK_TREE, profile, &question, &root));
    all.push(case(DECIDE, profile, &key_record(&key_of(1, 1, &[0])), &[]));
    all.push(case(LIST, profile, &[], &root));
    all.push(case(READ_LINE, profile, b"(L2, (., {.}))", &[]));
    all.push(case(WRITE_LINE, profile, &question, &[]));
    all.push(case(REDUCE, profile, &[], &[]));
    all.push(case(DROPPED_PROOF, profile, &[], &[]));
    all.push(case(TRIM, profile, &question, &proof));
    all.push(case(SALVAGE, profile, &[], &root));
    all.push(case(SALVAGE_LISTING, profile, &[], &root));
    all.push(case(CAMPAIGN, profile, b"s\n", &framed(&[Some(root)])));
}

fn path_limits(all: &mut Vec<Case>) {
    let base = labels(3, 0);
    let paths: [Vec<u8>; 9] = [
        vec![],
        vec![2; 32],
        vec![2; 33],
        vec![2, 0].repeat(16),
        [vec![2, 0].repeat(16), vec![2]].concat(),
        vec![0, 0],
        vec![3, 2],
        vec![99],
        vec![0],
    ];
    for p in &paths {
        for q in &paths {
            all.push(case(INCLUDE, &base, p, q));
        }
    }
}

const COMB_VALUES: usize = 7;

/// A chain, a star of attributes, a comb with many equal attributes: each of the given number of nodes. With four bytes the star's
/// values agree in the low two by pairs.
fn large_trees(size: usize, kind: u16) -> Vec<Vec<Node>> {
    let root = Node { parent: NONE, label: ROOT, value: 0 };
    let with_root = |nodes: Vec<Node>| [vec![root], nodes].concat();
    let chain = (1..size).map(|number| Node { parent: number as u16 - 1, label: 2, value: 0 }).collect();
    let different = |number: u32| if kind == WIDE_NODE_KIND { 65_536 * (number % 2) + number / 2 } else { number };
    let star = (1..size).map(|number| Node { parent: 0, label: 3, value: different(number as u32) }).collect();
    let tooth = |number: usize| match number % 2 {
        1 => Node { parent: number.saturating_sub(2) as u16, label: 2, value: 0 },
        _ => Node { parent: number as u16 - 1, label: 3, value: (number % COMB_VALUES) as u32 },
    };
    vec![with_root(chain), with_root(star), with_root((1..size).map(tooth).collect())]
}

fn tree_limits(all: &mut Vec<Case>) {
    let base = labels(3, 0);
    let everywhere = Key { context: vec![0], target: vec![0], paths: vec![vec![]] };
    let attributes = Key { context: vec![0], target: vec![2], paths: vec![vec![3]] };
    for (kind, size) in [1, 1_023, 1_024, 1_025, 4_095, 4_096, 4_097].iter().flat_map(|&size| NODE_KINDS.map(|kind| (kind, size))) {
        for nodes in large_trees(size, kind) {
            let bytes = write_tree(&nodes, kind);
            for key in [&everywhere, &attributes] {
                all.push(case(KEEP, &base, &key_record(key), &bytes));
                all.push(case(CHECK_TREE, &base, &key_record(key), &bytes));
            }
            for block in [0, 1, 3, 4, 5, u32::MAX] {
                all.push(Case { number: block, ..case(LIST, &base, &[], &bytes) });
            }
        }
    }
    all.push(Case { room: ROOM - 1, ..case(LIST, &base, &[], &[]) });
    // The head of record 0 alone says how large a tree may be.
    for head in [&[9, 9, 9, 9][..], &[9, 0, 3, 0], &[11, 0, 5, 0], &[3, 0, 5, 0], &[11, 0, 5, 1]] {
        for size in [3, 4, TREE_BYTES, TREE_BYTES + 1, WIDE_TREE_BYTES, WIDE_TREE_BYTES + 1] {
            let mut padded = head.to_vec();
            padded.resize(size, 9);
            all.push(case(KEEP, &base, &key_record(&everywhere), &padded));
            salvage(all, &base, &padded, &[0]);
        }
    }
    mixed_kinds(all, &base, &key_record(&everywhere));
}

/// A tree of three nodes, each record of either kind, whole, cut and with a byte more.
fn mixed_kinds(all: &mut Vec<Case>, base: &[u8], question: &[u8]) {
    let nodes = [(NONE, ROOT, 0), (0, 2, 0), (1, 3, 7)].map(|(parent, label, value)| Node { parent, label, value });
    for chosen in 0..8 {
        let kind = |at: usize| NODE_KINDS[chosen >> at & 1];
        let bytes: Vec<u8> = (0..3).flat_map(|at| node_record(&nodes[at], kind(at))).collect();
        all.push(case(KEEP, base, question, &bytes));
        all.push(case(LIST, base, &[], &bytes));
        all.push(case(LIST, base, &[], &bytes[..bytes.len() - 1]));
        all.push(case(LIST, base, &[], &[bytes, vec![9]].concat()));
    }
}

fn proof_limits(all: &mut Vec<Case>) {
    let base = labels(3, 0);
    let asked = key_of(1, 0, &[0]);
    let line = |rule: u8, first: u16, key: &Key| line_record(&Line { rule, first, second: NONE, key: key.clone() });
    let put = |all: &mut Vec<Case>, proof: &[u8]| {
        all.push(case(CHECK_PROOF, &base, &key_record(&asked), proof));
        all.push(case(TRIM, &base, &key_record(&asked), proof));
    };
    for count in [0, 1, 255, 256, 257] {
        let lines: Vec<u8> = (0..count).flat_map(|at| if at == 0 { line(1, NONE, &asked) } else { line(3, 0, &asked) }).collect();
        for tail in [&[][..], &[4, 0, 4], &[4, 0, 4, 0], &[4, 0, 2, 0], &[0, 0, 4, 0]] {
            put(all, &[lines.clone(), tail.to_vec()].concat());
        }
    }
    for key in [key_of(32, 0, &[0]), key_of(33, 0, &[0]), key_of(0, 0, &[16]), key_of(0, 0, &[17])] {
        put(all, &line(1, NONE, &key));
    }
    let wide = |count: usize| {
        let path = |k: usize| (0..16).map(|bit| if (k >> (15 - bit)) & 1 == 1 { 4 } else { 2 }).collect();
        Key { context: vec![2; 32], target: vec![], paths: (0..count).map(path).collect() }
    };
    for count in [64, 65, 255] {
        put(all, &line(1, NONE, &wide(count)));
    }
    let full = line(1, NONE, &wide(64)).repeat(57);
    for size in [full.len(), PROOF_BYTES - 1, PROOF_BYTES, PROOF_BYTES + 1] {
        let mut padded = full.clone();
        padded.resize(size, 0);
        put(all, &padded);
    }
    // Accepted: large lines that nothing uses; as many lines as there may be, each from the one before, or each for itself.
    put(all, &[full, line(1, NONE, &asked)].concat());
    let spelled = |number: usize| Key { context: (0..8).map(|bit| if number >> bit & 1 == 1 { 4 } else { 2 }).collect(), ..asked.clone() };
    let idle: Vec<u8> = (0..255).flat_map(|at| line(1, NONE, &spelled(at))).collect();
    put(all, &[idle, line(1, NONE, &asked)].concat());
    let each_from_the_last: Vec<u8> =
        (0..256).flat_map(|at| if at == 0 { line(1, NONE, &asked) } else { line(3, at - 1, &asked) }).collect();
    put(all, &each_from_the_last);
}

/// The edition's record, rule 10 and attributes of one name at their borders, each in both editions.
fn editions(all: &mut Vec<Case>) {
    let (base, second) = (labels(3, 0), edition_record(SECOND_EDITION));
    let keys = different_keys(65, &key_of(0, 1, &[0]));
    let mut profiles = vec![second.clone(), second.repeat(2), [base.clone(), second.clone()].concat()];
    for byte in [0, 1, 2, 3, 255] {
        profiles.push([edition_record(byte), base.clone()].concat());
        profiles.push([edition_record(byte), base.clone(), keys.clone()].concat());
        profiles.push([second.clone(), edition_record(byte), base.clone()].concat());
    }
    for head in [&[][..], &[6, 0], &[5, 0, 6, 0], &[4, 0, 6, 0], &[6, 0, 6, 0, 2, 2], &[255, 255, 6, 0, 2]] {
        profiles.push(head.to_vec());
        profiles.push([second.clone(), head.to_vec()].concat());
    }
    for profile in &profiles {
        every_operation(all, profile);
        (0..3).for_each(|number| all.push(Case { number, ..case(BODY, profile, &[], &[]) }));
    }
    for profile in [base.clone(), [second, base].concat()] {
        repeated_attributes(all, &profile);
        tenth_rule(all, &profile);
    }
}

/// One key twice: next to each other and apart, early, late and one too many, before and behind other faults; each in both editions.
fn doubled_keys(all: &mut Vec<Case>) {
    let base = labels(3, 0);
    let [a, b, c] = [1, 2, 3].map(|symbols| key_record(&key_of(symbols, 1, &[0])));
    let full = different_keys(64, &key_of(0, 1, &[0]));
    let one = full.len() / 64;
    let (early, late) = (&full[..one], &full[62 * one..63 * one]);
    let fault = key_record(&key_of(9, 1, &[0]));
    for keys in [
        vec![&a, &a],
        vec![&a, &b, &a],
        vec![&a, &b, &b, &a],
        vec![&a, &b, &c, &c, &b],
        vec![&a, &fault, &a],
        vec![&a, &a, &fault],
    ] {
        let keys: Vec<u8> = keys.into_iter().flatten().copied().collect();
        for tail in [&[][..], &[9], &[4, 0, 1, 0], &fault] {
            in_both_editions(all, &[&base, &keys[..], tail].concat());
        }
    }
    for again in [early, late] {
        for before in [1, 63, 64] {
            in_both_editions(all, &[&base, &full[..before * one], again].concat());
        }
    }
}

const NUMBERINGS: usize = 40;

/// A tree with many witnesses against each of the keys, numbered in many orders: elements 2 in each other, with two elements 4 each, and
/// these with two attributes 3 of few values.
fn many_witnesses(all: &mut Vec<Case>) {
    let mut random = Random::new(NUMBERINGS as u64);
    let mut nodes = vec![Node { parent: NONE, label: ROOT, value: 0 }];
    for above in [0, 0, 1, 1] {
        let element = nodes.len() as u16;
        nodes.push(Node { parent: above, label: 2, value: 0 });
        for values in [[1, 2], [2, 3]] {
            let child = nodes.len() as u16;
            nodes.push(Node { parent: element, label: 4, value: 0 });
            nodes.extend(values.map(|value| Node { parent: child, label: 3, value }));
        }
    }
    let any = || vec![ANY_PATH];
    let keys = [
        (vec![], vec![2], vec![vec![4, 3]]),
        (vec![2], vec![4], vec![vec![3]]),
        (any(), vec![2], vec![vec![4], vec![4, 3]]),
        (any(), vec![ANY_PATH, 2], vec![vec![4, 3]]),
        (any(), vec![ANY_PATH, 4], vec![vec![3]]),
        (any(), any(), vec![vec![3], vec![]]),
    ];
    for (context, target, mut paths) in keys {
        in_order(&mut paths);
        let broken = key_record(&Key { context, target, paths });
        let profile = [labels(3, 0), key_record(&key_of(1, 0, &[0])), broken.clone()].concat();
        for _ in 0..NUMBERINGS {
            let tree = write_tree(&woven(&mut random, &nodes), WIDE_NODE_KIND);
            all.push(case(KEEP, &labels(3, 0), &broken, &tree));
            all.push(case(CHECK_TREE, &labels(3, 0), &broken, &tree));
            all.push(case(CHECK_TREE, &profile, &key_record(&key_of(0, 1, &[0])), &tree));
        }
    }
}

/// Keys of the bench that follow from each other, and a fourth that gives all of them, or that follows in edition 2 alone: in every
/// order, in both editions, with each key's proof and that of numbers that are no key.
fn lean_profiles(all: &mut Vec<Case>) {
    let three = ["(e,(port.frame,{@seq}))", "(port,(frame,{@seq}))", "(e,(port,{frame.@seq}))"];
    for fourth in ["(e,(_*.frame,{@seq}))", "(run,(@id,{e}))"] {
        for order in orders(three.len() + 1) {
            let keys: Vec<&str> = order.iter().map(|&at| three.get(at).copied().unwrap_or(fourth)).collect();
            for edition in [FIRST_EDITION, SECOND_EDITION] {
                reduce_and_prove(all, &bench_profile_of(edition, &keys));
            }
        }
    }
}

fn reduce_and_prove(all: &mut Vec<Case>, profile: &[u8]) {
    all.push(case(REDUCE, profile, &[], &[]));
    for number in [0, 1, 2, 3, 4, u32::MAX] {
        all.push(Case { number, ..case(DROPPED_PROOF, profile, &[], &[]) });
    }
}

/// All orders of so many numbers.
fn orders(count: usize) -> Vec<Vec<usize>> {
    if count == 0 {
        return vec![Vec::new()];
    }
    let put_last = |order: Vec<usize>| (0..count).map(move |at| [&order[..at], &[count - 1], &order[at..]].concat());
    orders(count - 1).into_iter().flat_map(put_last).collect()
}

fn in_both_editions(all: &mut Vec<Case>, profile: &[u8]) {
    for front in [Vec::new(), edition_record(SECOND_EDITION)] {
        every_operation(all, &[&front, profile].concat());
    }
}

/// Below the root two nodes of each label: 3 is an attribute, 2 an element.
fn repeated_attributes(all: &mut Vec<Case>, profile: &[u8]) {
    let node = |parent: u16, label: u8| Node { parent, label, value: 0 };
    for label in [TEXT, 2, 3, FILLER_ELEMENT, FILLER_ATTRIBUTE] {
        for parent in [0, 1] {
            let nodes = [node(NONE, ROOT), node(0, 2), node(0, label), node(parent, label), node(3, 3)];
            let bytes = write_tree(&nodes, WIDE_NODE_KIND);
            let question = key_record(&Key { context: vec![], target: vec![label.min(3)], paths: vec![vec![]] });
            all.push(case(KEEP, profile, &question, &bytes));
            all.push(case(CHECK_TREE, profile, &question, &bytes));
            all.push(case(LIST, profile, &[], &bytes));
        }
    }
}

fn tenth_rule(all: &mut Vec<Case>, profile: &[u8]) {
    for target in [vec![], vec![2], vec![3], vec![TEXT], vec![ANY_PATH], vec![2, 3], vec![ANY_PATH, 3]] {
        let key = Key { context: vec![ANY_PATH, 2], target, paths: vec![vec![]] };
        for (rule, first, second) in [(10, NONE, NONE), (10, 0, NONE), (10, NONE, 0), (11, NONE, NONE)] {
            let line = line_record(&Line { rule, first, second, key: key.clone() });
            all.push(case(CHECK_PROOF, profile, &key_record(&key), &line));
        }
        all.push(case(DECIDE, profile, &key_record(&key), &[]));
    }
}

/// Lines over the bench labels that the reader accepts.
const ACCEPTED_LINES: [&str; 8] = [
    "(port, (frame, {@seq}))",
    "(port, (frame, {@seq, stamp}))",
    "(., (., {.}))",
    "(_*, (port._*.frame, {#}))",
    "(., (., {stamp, frame, port, run}))",
    "(., (run, {frame.stamp, @seq, ., port}))",
    "(#, (., {.}))",
    "(port.port.port.port.port.port.port.port, (., {.}))",
];
/// What each of their bytes is replaced by: the signs of the grammar, and a letter.
const REPLACED_BY: &[u8] = b".,(){}_*#@ a";

/// Each accepted line cut at each byte, each of its bytes replaced, and a line that is longer than any buffer.
fn typed_lines(all: &mut Vec<Case>) {
    let profile = bench_profile_of(FIRST_EDITION, &[]);
    let mut put = |line: &[u8]| all.push(case(READ_LINE, &profile, line, &[]));
    for line in ACCEPTED_LINES.map(str::as_bytes) {
        for at in 0..line.len() {
            put(&line[..at]);
            REPLACED_BY.iter().for_each(|&sign| put(&[&line[..at], &[sign], &line[at + 1..]].concat()));
        }
        put(line);
    }
    for (count, name) in [(9, "port"), (300, "port"), (300, "nobody"), (20_000, "run")] {
        let path = vec![name; count].join(".");
        put(format!("({}, (., {{.}}))", path).as_bytes());
        put(format!("(., (., {{{}}}))", vec![name; count].join(", ")).as_bytes());
        put(format!("(., (., {{{}, }}))", path).as_bytes());
    }
}

/// Both calls on a tree, the listing for each of these blocks.
fn salvage(all: &mut Vec<Case>, profile: &[u8], tree: &[u8], blocks: &[u32]) {
    all.push(case(SALVAGE, profile, &[], tree));
    all.extend(blocks.iter().map(|&number| Case { number, ..case(SALVAGE_LISTING, profile, &[], tree) }));
}

/// Large trees as they are and with one record spoiled; as many records as a file can hold, all but the first of 4 bytes; a tree of three
/// nodes of mixed kinds, cut at each byte; an attribute in front of its parent, which is none of its attributes.
fn damaged_exports(all: &mut Vec<Case>) {
    let broken = Key { context: vec![ANY_PATH], target: vec![2], paths: vec![vec![3]] };
    let keys = [key_record(&broken), key_record(&key_of(0, 1, &[0]))].concat();
    for profile in [labels(3, 0), [labels(3, 0), keys.clone()].concat(), [edition_record(SECOND_EDITION), labels(3, 0), keys].concat()] {
        for (kind, size) in [(NODE_KIND, 1_025), (WIDE_NODE_KIND, 4_096)] {
            for nodes in large_trees(size, kind) {
                let bytes = write_tree(&nodes, kind);
                let mut spoiled = bytes.clone();
                spoiled[bytes.len() / size * 3 + 6] = 99;
                salvage(all, &profile, &bytes, &[0, 1]);
                salvage(all, &profile, &spoiled, &[0, 1, 2, 3, 4]);
            }
        }
        for (kind, tail) in NODE_KINDS.iter().flat_map(|&kind| [&[][..], &[4]].map(|tail| (kind, tail))) {
            let root = write_tree(&[Node { parent: NONE, label: ROOT, value: 0 }], kind);
            let size = if kind == NODE_KIND { TREE_BYTES } else { WIDE_TREE_BYTES };
            let records = record(99, &[]).repeat((size - root.len() - tail.len()) / 4);
            salvage(all, &profile, &[&root, &records[..], tail].concat(), &[0, 1, 8, 9, 10, 11, u32::MAX]);
        }
        for chosen in 0..8 {
            let nodes = [(NONE, ROOT, 0), (0, 2, 0), (1, 3, 7)].map(|(parent, label, value)| Node { parent, label, value });
            let bytes: Vec<u8> = (0..3).flat_map(|at| node_record(&nodes[at], NODE_KINDS[chosen >> at & 1])).collect();
            (0..=bytes.len()).for_each(|end| salvage(all, &profile, &bytes[..end], &[0]));
        }
        let before = [(NONE, ROOT, 0), (2, 3, 7), (0, 2, 0), (2, 3, 7), (2, 3, 8)];
        let nodes = before.map(|(parent, label, value)| Node { parent, label, value });
        salvage(all, &profile, &write_tree(&nodes, NODE_KIND), &[0]);
    }
}

/// Lists with as many names as there may be, and about as many, that end in a newline and do not; of trees that keep and break a key, are
/// refused, or are not read.
fn campaigns(all: &mut Vec<Case>) {
    let key = Key { context: vec![], target: vec![2], paths: vec![vec![3]] };
    let profile = [labels(3, 0), key_record(&key), key_record(&key_of(0, 1, &[0]))].concat();
    let node = |parent: u16, label: u8, value: u32| Node { parent, label, value };
    let twins = [node(NONE, ROOT, 0), node(0, 2, 0), node(1, 3, 7), node(0, 2, 0), node(3, 3, 7)];
    let segments = [
        Some(write_tree(&twins, NODE_KIND)),
        Some(write_tree(&twins[..3], WIDE_NODE_KIND)),
        Some(write_tree(&twins, WIDE_NODE_KIND)[..30].to_vec()),
        Some(write_tree(&twins[1..], NODE_KIND)),
        Some(Vec::new()),
        None,
    ];
    for count in [0, 1, 2, 6, 12, CAMPAIGN_NAMES - 1, CAMPAIGN_NAMES, CAMPAIGN_NAMES + 1] {
        let names: Vec<String> = (0..count).map(|at| format!("s{}", at % segments.len())).collect();
        let inputs: Vec<Option<Vec<u8>>> = (0..count).map(|at| segments[at % segments.len()].clone()).collect();
        for end in ["", "\n", "\n\n", "\r\n"] {
            let list = names.join("\n") + end;
            for profile in [&profile[..], &labels(3, 0), &[], &[9]] {
                all.push(case(CAMPAIGN, profile, list.as_bytes(), &framed(&inputs)));
            }
        }
    }
    let inputs = framed(&segments);
    for end in 0..=inputs.len() {
        all.push(case(CAMPAIGN, &profile, b"s\n", &inputs[..end]));
    }
}

type Maker = fn(&mut Random, &Asked) -> Case;

/// How many random cases of all of them together each maker makes: as many as give each verdict its minimum
/// (differential/counts.rs), and more where cases that look right go wrong.
const SHARES: [(usize, Maker); 16] = [
    (6, rewrite_case),
    (9, body_case),
    (13, include_case),
    (13, tree_case),
    (7, list_case),
    (9, derivation_case),
    (31, evidence_case),
    (15, decide_case),
    (2, reduce_case),
    (3, dropped_proof_case),
    (9, trim_case),
    (14, read_line_case),
    (6, write_line_case),
    (7, salvage_case),
    (9, salvage_listing_case),
    (3, campaign_case),
];

fn random_case(random: &mut Random, asked: &Asked) -> Case {
    let mut drawn = random.below(SHARES.iter().map(|share| share.0).sum());
    for (share, maker) in SHARES {
        if drawn < share {
            return maker(random, asked);
        }
        drawn -= share;
    }
    unreachable!("the number drawn is below the sum of the shares")
}

fn profile_of(asked: &Asked) -> Vec<u8> {
    write_profile(&asked.profile)
}

fn rewrite_case(_: &mut Random, asked: &Asked) -> Case {
    case(REWRITE, &profile_of(asked), &[], &[])
}

fn body_case(random: &mut Random, asked: &Asked) -> Case {
    Case { number: random.below(8) as u32, ..case(BODY, &profile_of(asked), &[], &[]) }
}

fn include_case(random: &mut Random, asked: &Asked) -> Case {
    let longest = random.one_of(&[3, 8, 32]);
    let p = path(random, &asked.world, longest, true);
    let q = if random.chance(1, 2) { wider(random, &p) } else { path(random, &asked.world, longest, true) };
    case(INCLUDE, &profile_of(asked), &p, &q)
}

/// Trees are small, now and then as large as they may be; of some the numbers do not go branch by branch.
fn tree_case(random: &mut Random, asked: &Asked) -> Case {
    let size = if random.chance(1, 100) { 200 + random.below(TREE_NODES - 199) } else { 1 + random.below(40) };
    let kind = node_kind(random);
    let mut nodes = tree(random, &asked.world, size, kind);
    if random.chance(1, 3) {
        nodes = woven(random, &nodes);
    }
    let operation = if random.chance(2, 3) { KEEP } else { CHECK_TREE };
    let near = key_on(random, &asked.world, &nodes);
    let key = if random.chance(2, 3) { &near } else { &asked.question };
    case(operation, &profile_of(asked), &key_record(key), &write_tree(&nodes, kind))
}

/// Some trees have more lines than a block.
fn list_case(random: &mut Random, asked: &Asked) -> Case {
    let size = if random.chance(1, 20) { 1_000 + random.below(1_200) } else { 1 + random.below(40) };
    let kind = node_kind(random);
    let nodes = tree(random, &asked.world, size, kind);
    Case { number: random.below(3) as u32, ..case(LIST, &profile_of(asked), &[], &write_tree(&nodes, kind)) }
}

fn derivation_case(random: &mut Random, asked: &Asked) -> Case {
    let length = 1 + random.below(16);
    let lines = derivation(random, asked, length);
    let last = lines.last().map(|line| line.key.clone()).filter(|key| is_good(key, &asked.profile.classes));
    let question = key_record(&last.unwrap_or_else(|| asked.question.clone()));
    case(CHECK_PROOF, &profile_of(asked), &question, &write_proof(&lines))
}

/// A proof with lines that are not needed: of the question where it is implied, else of the last key of a derivation that may be asked.
fn trim_case(random: &mut Random, asked: &Asked) -> Case {
    let mut lines = match evidence(asked) {
        Evidence::Proof(lines) if random.chance(1, 2) => lines,
        _ => {
            let length = 1 + random.below(12);
            derivation(random, asked, length)
        }
    };
    let last = lines.iter().rposition(|line| is_good(&line.key, &asked.profile.classes));
    lines.truncate(last.map_or(lines.len(), |last| last + 1));
    let question = key_record(last.map_or(&asked.question, |last| &lines[last].key));
    case(TRIM, &profile_of(asked), &question, &write_proof(&padded(random, asked, &lines)))
}

fn decide_case(_: &mut Random, asked: &Asked) -> Case {
    case(DECIDE, &profile_of(asked), &key_record(&asked.question), &[])
}

/// A line that says the question, or one of the profile's keys, or nearly so.
fn read_line_case(random: &mut Random, asked: &Asked) -> Case {
    let key = match asked.profile.keys.len() {
        0 => &asked.question,
        keys if random.chance(1, 2) => &asked.profile.keys[random.below(keys)],
        _ => &asked.question,
    };
    case(READ_LINE, &profile_of(asked), &typed_line(random, &asked.profile.labels, key), &[])
}

fn write_line_case(_: &mut Random, asked: &Asked) -> Case {
    case(WRITE_LINE, &profile_of(asked), &key_record(&asked.question), &[])
}

/// Most damaged exports are small.
const EXPORT_NODES: usize = 40;

/// So many nodes at most has a segment of a campaign, so many segments has most of them, and so many keys are asked of each.
const SEGMENT_NODES: usize = 20;
const SEGMENTS: usize = 8;
const CAMPAIGN_KEYS: usize = 8;

/// Up to four files, of which some cannot be read and some are damaged, named in any order and again; a key of the profile holds on to the
/// first.
fn campaign_case(random: &mut Random, asked: &Asked) -> Case {
    let mut profile = asked.profile.clone();
    profile.keys.truncate(CAMPAIGN_KEYS);
    let mut files: Vec<Option<Vec<u8>>> = Vec::new();
    for _ in 0..1 + random.below(4) {
        let (nodes, bytes) = export(random, asked, SEGMENT_NODES);
        let near = key_on(random, &asked.world, &nodes);
        if files.is_empty() && !profile.keys.contains(&near) {
            profile.keys.push(near);
        }
        let sound = write_tree(&nodes, WIDE_NODE_KIND);
        files.push(random.one_of(&[None, Some(Vec::new()), Some(bytes.clone()), Some(bytes), Some(sound.clone()), Some(sound)]));
    }
    let named: Vec<usize> = (0..random.below(SEGMENTS + 1)).map(|_| random.below(files.len())).collect();
    let list: Vec<String> = named.iter().map(|at| format!("s{}", at)).collect();
    let inputs: Vec<Option<Vec<u8>>> = named.iter().map(|&at| files[at].clone()).collect();
    let end = if list.is_empty() || random.chance(1, 2) { "" } else { "\n" };
    case(CAMPAIGN, &write_profile(&profile), (list.join("\n") + end).as_bytes(), &framed(&inputs))
}

fn salvage_case(random: &mut Random, asked: &Asked) -> Case {
    let most = if random.chance(1, 200) { TREE_NODES } else { EXPORT_NODES };
    let (_, bytes) = export(random, asked, most);
    case(SALVAGE, &profile_of(asked), &[], &bytes)
}

/// A key of the profile holds on to the tree, so that it depends on what is left whether it is broken.
fn salvage_listing_case(random: &mut Random, asked: &Asked) -> Case {
    let (nodes, bytes) = export(random, asked, EXPORT_NODES);
    let mut profile = asked.profile.clone();
    let near = key_on(random, &asked.world, &nodes);
    if profile.keys.len() < PROFILE_KEYS && !profile.keys.contains(&near) {
        profile.keys.insert(random.below(profile.keys.len() + 1), near);
    }
    let number = if random.chance(1, 8) { random.one_of(&[1, 2, 3, u32::MAX]) } else { 0 };
    Case { number, ..case(SALVAGE_LISTING, &write_profile(&profile), &[], &bytes) }
}

fn reduce_case(random: &mut Random, asked: &Asked) -> Case {
    case(REDUCE, &write_profile(&related(random, asked)), &[], &[])
}

/// Each number of a key, and the first that is none.
fn dropped_proof_case(random: &mut Random, asked: &Asked) -> Case {
    let profile = related(random, asked);
    Case { number: random.below(profile.keys.len() + 1) as u32, ..case(DROPPED_PROOF, &write_profile(&profile), &[], &[]) }
}

/// The reference's own evidence, sometimes with one value, label or line changed.
fn evidence_case(random: &mut Random, asked: &Asked) -> Case {
    let (profile, question) = (profile_of(asked), key_record(&asked.question));
    match evidence(asked) {
        Evidence::Proof(mut lines) => {
            if random.chance(1, 3) {
                let at = random.below(lines.len());
                let other = random.below(lines.len());
                lines[at].key = lines[other].key.clone();
            }
            case(CHECK_PROOF, &profile, &question, &write_proof(&lines))
        }
        Evidence::Tree(mut nodes) => {
            if random.chance(1, 3) {
                let at = random.below(nodes.len());
                let from = random.below(nodes.len());
                if nodes[at].label == nodes[from].label {
                    nodes[at].value = nodes[from].value;
                }
            }
            if random.chance(1, 3) {
                nodes = woven(random, &nodes);
            }
            let operation = if random.chance(4, 7) { CHECK_TREE } else { KEEP };
            case(operation, &profile, &question, &write_tree(&nodes, node_kind(random)))
        }
    }
}
