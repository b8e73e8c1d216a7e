//! Random profiles, questions, trees and proofs over few labels, so that both verdicts, kept and broken
//! keys, accepted and refused proofs are all frequent.
use super::decide::{counterexample, proof, verdict, Pattern, Verdict};
use super::paths::*;
use super::random::Random;
use super::records::*;
use std::collections::BTreeMap;

/// The edition and the labels of one random profile.
pub struct World {
    pub edition: u8,
    pub labels: Vec<Label>,
    pub classes: Classes,
    pub elements: Vec<u8>,
    /// Attributes and text: what stands only last.
    pub last_only: Vec<u8>,
}

impl World {
    /// The labels of a given profile. A tree has some element below its root: the filler where none is declared.
    pub fn of(profile: &Profile) -> World {
        let of_class = |class: u8| profile.labels.iter().filter(move |label| label.class == class).map(|label| label.number);
        let mut elements: Vec<u8> = of_class(1).collect();
        if elements.is_empty() {
            elements.push(FILLER_ELEMENT);
        }
        let last_only = std::iter::once(TEXT).chain(of_class(2)).collect();
        World { edition: profile.edition, labels: profile.labels.clone(), classes: profile.classes.clone(), elements, last_only }
    }

    fn is_attribute(&self, label: u8) -> bool {
        self.classes.of(label) == Some(Class::Attribute)
    }

    pub fn attributes(&self) -> Vec<u8> {
        self.last_only.iter().copied().filter(|&label| self.is_attribute(label)).collect()
    }
}

const NAMES: [&str; 6] = ["a", "Bee", "c-1", "d_", "element-name-of-32-bytes-ABCDEFG", "z9"];

pub fn world(random: &mut Random) -> World {
    let sets: [&[u8]; 3] = [&[2, 3, 4, 6, 7], &[2, 57, 100, 199, 200], &[10, 11, 12, 13, 14]];
    let numbers = random.one_of(&sets);
    let elements = 1 + random.below(3);
    let attributes = random.below(3);
    let edition = if random.chance(1, 3) { SECOND_EDITION } else { FIRST_EDITION };
    let mut world = World { edition, labels: Vec::new(), classes: Classes::none(), elements: vec![], last_only: vec![TEXT] };
    for at in 0..elements + attributes {
        let number = numbers[at];
        let class = if at < elements { 1 } else { 2 };
        if class == 1 {
            world.elements.push(number);
            world.classes.declare(number, Class::Element);
        } else {
            world.last_only.push(number);
            world.classes.declare(number, Class::Attribute);
        }
        world.labels.push(Label { number, class, name: NAMES[at].as_bytes().to_vec() });
    }
    world
}

/// A path of element labels and, where `any` says so, any-paths, in normal form.
pub fn inner_path(random: &mut Random, world: &World, longest: usize, any: bool) -> Path {
    let length = random.below(longest + 1);
    let mut path: Path = Vec::new();
    while path.len() < length {
        if any && path.last() != Some(&ANY_PATH) && random.chance(1, 4) {
            path.push(ANY_PATH);
        } else {
            path.push(random.one_of(&world.elements));
        }
    }
    path
}

/// The same, perhaps with an attribute or text last.
pub fn path(random: &mut Random, world: &World, longest: usize, any: bool) -> Path {
    let mut path = inner_path(random, world, longest, any);
    if path.len() < longest && random.chance(1, 2) {
        path.push(random.one_of(&world.last_only));
    }
    path
}

pub fn in_order(paths: &mut Vec<Path>) {
    paths.sort_by_key(|each| (each.len(), each.clone()));
    paths.dedup();
}

/// A key that stands in a profile without refusal.
pub fn key(random: &mut Random, world: &World) -> Key {
    let (way, branch, count) = if random.chance(1, 8) { (8, 8, 4) } else { (4, 2, 3) };
    let mut context = inner_path(random, world, way - 1, true);
    let mut target = inner_path(random, world, way - 1, true);
    if target.is_empty() && random.chance(3, 4) {
        target.push(random.one_of(&world.elements));
    }
    // An attribute or text as target, or as context of an empty target: in edition 2 that makes a difference.
    if random.chance(1, if world.edition == SECOND_EDITION { 4 } else { 8 }) {
        let last = random.one_of(&world.last_only);
        if random.chance(3, 4) {
            target.push(last);
        } else {
            target.clear();
            context.push(last);
        }
        return Key { context, target, paths: vec![vec![]] };
    }
    let number = 1 + random.below(count);
    let mut paths: Vec<Path> = (0..number).map(|_| path(random, world, branch, false)).collect();
    in_order(&mut paths);
    Key { context, target, paths }
}

pub fn is_good(key: &Key, classes: &Classes) -> bool {
    let way = join(&key.context, &key.target);
    let fits = |path: &Path| path.len() <= KEY_SIZES.path && is_normal(path);
    fits(&key.context)
        && fits(&key.target)
        && (1..=KEY_SIZES.count).contains(&key.paths.len())
        && key.paths.iter().all(|each| fits(each) && is_simple(each) && is_valid(&join(&way, each), classes))
}

/// A path that holds the given symbols as a word: some parts give way to any-paths.
pub fn wider(random: &mut Random, symbols: &[u8]) -> Path {
    let mut path = Vec::new();
    let mut at = 0;
    while at < symbols.len() {
        if random.chance(1, 5) {
            path.push(ANY_PATH);
            at += random.below(3);
        } else {
            path.push(symbols[at]);
            at += 1;
        }
    }
    if random.chance(1, 10) {
        path.push(ANY_PATH);
    }
    normal_form(&path)
}

/// A profile key that lets some node of the question's pattern step upwards, or nearly does.
fn key_near(random: &mut Random, world: &World, asked: &Key) -> Key {
    let way = asked.context.len() + asked.target.len();
    let branch = random.below(asked.paths.len());
    let from = random.below(way + asked.paths[branch].len() + 1);
    let to = random.below(from.min(way) + 1);
    key_between(random, world, asked, branch, from, to)
}

/// The same with the place below, on the way C, T and one branch, and the place above given.
fn key_between(random: &mut Random, world: &World, asked: &Key, branch: usize, from: usize, to: usize) -> Key {
    let way = [asked.context.as_slice(), &asked.target].concat();
    let line = [way.as_slice(), &asked.paths[branch]].concat();
    let holds_empty = asked.paths.iter().any(|each| each.is_empty());
    let mut paths: Vec<Path> = Vec::new();
    for each in &asked.paths {
        let whole = [way.as_slice(), each].concat();
        if whole.len() >= from && whole[..from] == line[..from] {
            let mut rest = whole[from..].to_vec();
            if holds_empty && random.chance(1, 3) {
                let least = way.len().saturating_sub(from);
                rest.truncate(least + random.below(rest.len() - least.min(rest.len()) + 1));
            }
            if paths.is_empty() || random.chance(1, 2) {
                paths.push(rest);
            }
        }
    }
    if random.chance(1, 12) {
        paths.push(path(random, world, 2, false));
    }
    in_order(&mut paths);
    let key = Key { context: wider(random, &line[..to]), target: wider(random, &line[to..from]), paths };
    if is_good(&key, &world.classes) {
        key
    } else {
        self::key(random, world)
    }
}

/// Keys whose steps together lead from t up to q, rung by rung; now and then a rung is missing. In edition 2 an attribute needs no key for
/// the step to its parent.
fn ladder(random: &mut Random, world: &World, asked: &Key) -> Vec<Key> {
    let (c, mut n) = (asked.context.len(), asked.context.len() + asked.target.len());
    let ends_single = asked.target.last().map_or(false, |&label| world.is_attribute(label));
    if world.edition == SECOND_EDITION && ends_single && random.chance(2, 3) {
        n -= 1;
    }
    let mut keys = Vec::new();
    let mut upper = c;
    while upper < n {
        let branch = random.below(asked.paths.len());
        let mut from = upper + 1 + random.below(n - upper);
        if from == n {
            from += random.below(asked.paths[branch].len() + 1);
        }
        let to = if random.chance(1, 2) { upper } else { random.below(upper + 1) };
        if !random.chance(1, 10) {
            keys.push(key_between(random, world, asked, branch, from, to));
        }
        upper = from;
    }
    keys
}

/// A world, a question and a profile of keys near it.
pub struct Asked {
    pub world: World,
    pub profile: Profile,
    pub question: Key,
}

/// Now and then as many keys as a profile may have, else few; no two of them are equal.
fn keys_of(random: &mut Random, world: &World, question: &Key) -> Vec<Key> {
    let rungs = if random.chance(1, 2) { ladder(random, world, question) } else { Vec::new() };
    let mut keys: Vec<Key> = Vec::new();
    for rung in rungs {
        if !keys.contains(&rung) {
            keys.push(rung);
        }
    }
    // Over few labels some of the keys drawn are equal: a full profile takes more of them.
    let drawn = if random.chance(1, 40) { 4 * PROFILE_KEYS } else { random.below(4) };
    for _ in 0..drawn {
        let at = random.below(keys.len() + 1);
        let next = if random.chance(3, 4) { key_near(random, world, question) } else { key(random, world) };
        if keys.len() < PROFILE_KEYS && !keys.contains(&next) {
            keys.insert(at, next);
        }
    }
    keys
}

/// Writes one of the keys once more, anywhere behind it.
pub fn double_key(random: &mut Random, keys: &mut Vec<Key>) {
    if !keys.is_empty() {
        let first = random.below(keys.len());
        let second = first + 1 + random.below(keys.len() - first);
        keys.insert(second, keys[first].clone());
    }
}

pub fn asked(random: &mut Random) -> Asked {
    let world = world(random);
    let question = key(random, &world);
    let keys = keys_of(random, &world, &question);
    let profile = Profile { edition: world.edition, labels: world.labels.clone(), keys, classes: world.classes.clone() };
    Asked { world, profile, question }
}

/// A search for each key is dear, so few of the keys are taken, and now and then more.
const FEW_KEYS: usize = 5;
const MORE_KEYS: usize = 24;

/// A profile of keys that follow from each other: some of those near the question, the question itself, and for some of them a key
/// with wider paths, from which it follows; anywhere among them.
pub fn related(random: &mut Random, asked: &Asked) -> Profile {
    let mut profile = asked.profile.clone();
    profile.keys.truncate(if random.chance(1, 50) { MORE_KEYS } else { FEW_KEYS });
    let mut more = vec![asked.question.clone()];
    for key in &profile.keys {
        if random.chance(1, 4) {
            more.push(Key { context: wider(random, &key.context), target: wider(random, &key.target), paths: key.paths.clone() });
        }
    }
    for key in more {
        if is_good(&key, &profile.classes) && !profile.keys.contains(&key) && random.chance(3, 4) {
            let at = random.below(profile.keys.len() + 1);
            profile.keys.insert(at, key);
        }
    }
    profile
}

/// Half of the trees have records of each kind.
pub fn node_kind(random: &mut Random) -> u16 {
    random.one_of(&NODE_KINDS)
}

/// A value of few, for a record of that kind. With four bytes some agree in the low two alone.
fn value(random: &mut Random, values: usize, kind: u16) -> u32 {
    let high = if kind == WIDE_NODE_KIND && random.chance(1, 3) { random.one_of(&[1, 256, 65_535]) } else { 0 };
    65_536 * high + random.below(values) as u32
}

/// A tree of few labels and values, in which whole subtrees are written again; its values fit records of that kind. In edition 2
/// some have an attribute repeated.
pub fn tree(random: &mut Random, world: &World, size: usize, kind: u16) -> Vec<Node> {
    if random.chance(1, 8) {
        return any_tree(random, world, size, kind);
    }
    tree_of_edition(random, world, size, kind)
}

/// The same without repeated attributes where the edition has none.
pub fn tree_of_edition(random: &mut Random, world: &World, size: usize, kind: u16) -> Vec<Node> {
    let nodes = any_tree(random, world, size, kind);
    if world.edition == SECOND_EDITION {
        return without_repeats(&nodes, world);
    }
    nodes
}

/// Drops each attribute whose name stands before it under the same element, and renumbers the others. Attributes have no children.
fn without_repeats(nodes: &[Node], world: &World) -> Vec<Node> {
    let mut kept: Vec<Node> = Vec::new();
    let mut place = vec![NONE; nodes.len()];
    for (number, node) in nodes.iter().enumerate() {
        let parent = if node.parent == NONE { NONE } else { place[node.parent as usize] };
        let is_twin = |other: &Node| (other.parent, other.label) == (parent, node.label);
        if !(world.is_attribute(node.label) && kept.iter().any(is_twin)) {
            place[number] = kept.len() as u16;
            kept.push(Node { parent, ..*node });
        }
    }
    kept
}

fn any_tree(random: &mut Random, world: &World, size: usize, kind: u16) -> Vec<Node> {
    let mut nodes = vec![Node { parent: NONE, label: ROOT, value: 0 }];
    let values = 1 + random.below(4);
    while nodes.len() < size {
        let parents: Vec<usize> =
            (0..nodes.len()).filter(|&node| !world.classes.is_last_only(nodes[node].label)).collect();
        let parent = if random.chance(1, 2) { *parents.last().unwrap() } else { random.one_of(&parents) };
        if nodes.len() > 1 && random.chance(1, 6) {
            let copied = 1 + random.below(nodes.len() - 1);
            copy_below(random, world, &mut nodes, copied, size);
            continue;
        }
        let label = if random.chance(1, 12) {
            random.one_of(&[FILLER_ELEMENT, FILLER_ATTRIBUTE])
        } else if random.chance(1, 2) {
            random.one_of(&world.elements)
        } else {
            random.one_of(&world.last_only)
        };
        let value = if world.classes.is_last_only(label) { value(random, values, kind) } else { 0 };
        nodes.push(Node { parent: parent as u16, label, value });
    }
    // Last, elements with something below them, whose copies then stay as they are.
    for _ in 0..random.below(3) {
        let inner: Vec<usize> = (1..nodes.len()).filter(|&node| nodes.iter().any(|each| each.parent as usize == node)).collect();
        if !inner.is_empty() && size < 1_000 {
            let copied = random.one_of(&inner);
            let most = nodes.len() + 20;
            copy_below(random, world, &mut nodes, copied, most);
        }
    }
    if size < 1_000 && random.chance(1, 3) {
        reordered_twins(random, world, &mut nodes, kind);
    }
    nodes
}

/// The same tree, its nodes numbered in another order: still a parent before its children, and these in their order. So it keeps the
/// same keys; which witness comes first is another matter.
pub fn woven(random: &mut Random, nodes: &[Node]) -> Vec<Node> {
    let mut children: Vec<Vec<usize>> = vec![Vec::new(); nodes.len()];
    for number in (1..nodes.len()).rev() {
        children[nodes[number].parent as usize].push(number);
    }
    let mut place = vec![0; nodes.len()];
    let mut all = vec![nodes[0]];
    // Nodes that are written and have children left, the next of which is last in its list.
    let mut open: Vec<usize> = if children[0].is_empty() { Vec::new() } else { vec![0] };
    while !open.is_empty() {
        let at = random.below(open.len());
        let parent = open[at];
        let child = children[parent].pop().expect("an open node has a child left");
        if children[parent].is_empty() {
            open.swap_remove(at);
        }
        if !children[child].is_empty() {
            open.push(child);
        }
        place[child] = all.len() as u16;
        all.push(Node { parent: place[parent], ..nodes[child] });
    }
    all
}

/// Two elements next to each other that have the same attributes in two orders: of the first's, the first comes last.
fn reordered_twins(random: &mut Random, world: &World, nodes: &mut Vec<Node>, kind: u16) {
    let parents: Vec<usize> = (0..nodes.len()).filter(|&node| !world.classes.is_last_only(nodes[node].label)).collect();
    let (parent, label) = (random.one_of(&parents) as u16, random.one_of(&world.elements));
    let names: Vec<u8> = world.last_only.iter().map(|&last| if last == TEXT { FILLER_ATTRIBUTE } else { last }).collect();
    let mut attributes: Vec<(u8, u32)> =
        (0..2 + random.below(2)).map(|_| (random.one_of(&names), value(random, 3, kind))).collect();
    for _ in 0..2 {
        let twin = nodes.len() as u16;
        nodes.push(Node { parent, label, value: 0 });
        nodes.extend(attributes.iter().map(|&(label, value)| Node { parent: twin, label, value }));
        attributes.rotate_left(1);
    }
}

/// Writes a node with what lies below it once more, a value perhaps changed (one over two bytes in those above), the attributes perhaps
/// after everything else, and perhaps in another order among themselves.
fn copy_below(random: &mut Random, world: &World, nodes: &mut Vec<Node>, copied: usize, size: usize) {
    let last = nodes.len();
    let mut inside = vec![false; last];
    let mut order = Vec::new();
    for node in copied..last {
        let parent = nodes[node].parent;
        if node == copied || (parent != NONE && inside[parent as usize]) {
            inside[node] = true;
            order.push(node);
        }
    }
    if random.chance(1, 2) {
        order.sort_by_key(|&node| world.classes.of(nodes[node].label) == Some(Class::Attribute));
    }
    if random.chance(1, 3) {
        rotate_attributes(world, nodes, &mut order);
    }
    let mut place = vec![0; last];
    for node in order {
        if nodes.len() >= size {
            return;
        }
        let old = nodes[node];
        let parent = if node == copied { old.parent } else { place[old.parent as usize] };
        place[node] = nodes.len() as u16;
        let value = match old.value {
            0 => 0,
            same if !random.chance(1, 10) => same,
            wide if wide > 65_535 => wide % 65_536,
            other => other - 1,
        };
        nodes.push(Node { parent, label: old.label, value });
    }
}

/// Of each element's attributes the first goes behind the last; no other node of the order moves.
fn rotate_attributes(world: &World, nodes: &[Node], order: &mut [usize]) {
    let mut places_of: BTreeMap<u16, Vec<usize>> = BTreeMap::new();
    for (place, &node) in order.iter().enumerate() {
        if world.classes.of(nodes[node].label) == Some(Class::Attribute) {
            places_of.entry(nodes[node].parent).or_default().push(place);
        }
    }
    for places in places_of.values() {
        places.windows(2).for_each(|two| order.swap(two[0], two[1]));
    }
}

/// A key whose targets hold a node of the tree, so that it depends on the tree's values whether it is kept.
pub fn key_on(random: &mut Random, world: &World, nodes: &[Node]) -> Key {
    let mut labels: Path = Vec::new();
    let inner: Vec<usize> = (1..nodes.len()).filter(|&node| nodes.iter().any(|each| each.parent as usize == node)).collect();
    let mut at = random.below(nodes.len());
    if !inner.is_empty() && nodes.len() < 1_000 && random.chance(1, 2) {
        at = random.one_of(&inner);
    }
    while nodes[at].parent != NONE {
        labels.push(nodes[at].label);
        at = nodes[at].parent as usize;
    }
    labels.reverse();
    // The fillers are in no path: any-paths take them.
    let symbols: Path = labels.iter().map(|&label| if label < FILLER_ELEMENT { label } else { ANY_PATH }).collect();
    let cut = random.below(symbols.len() + 1);
    let mut end = cut + random.below(symbols.len() - cut + 1);
    while !is_simple(&symbols[end..]) {
        end += 1;
    }
    let mut paths = vec![symbols[end..].to_vec()];
    if random.chance(1, 4) {
        paths.push(path(random, world, 2, false));
    }
    in_order(&mut paths);
    let key = Key { context: wider(random, &symbols[..cut.min(end)]), target: wider(random, &symbols[cut.min(end)..end]), paths };
    if is_good(&key, &world.classes) {
        key
    } else {
        self::key(random, world)
    }
}

/// The evidence that the reference itself gives for a question.
pub enum Evidence {
    Proof(Vec<Line>),
    Tree(Vec<Node>),
}

pub fn evidence(asked: &Asked) -> Evidence {
    let pattern = Pattern::of(&asked.question);
    match verdict(&pattern, &asked.profile) {
        Verdict::Implied => Evidence::Proof(proof(&asked.question, &asked.profile).unwrap_or_default()),
        Verdict::NotImplied { u } => Evidence::Tree(counterexample(&pattern, u, &asked.profile)),
    }
}
