//! Trees drawn: those that `decide` writes, random ones, and damaged ones, each as `tree`, as `all` and as `dot`.
use crate::reference::damage::{damaged, spoiled};
use crate::reference::generate::*;
use crate::reference::operations::keep;
use crate::reference::paths::*;
use crate::reference::random::Random;
use crate::reference::records::*;
use crate::reference::reduce::is_implied;
use crate::reference::shown::{shown, Showing};
use crate::runner::Runner;
use std::process::{Command, Stdio};

const MOST_NODES: usize = 178;
const FEW_NODES: usize = 40;
/// So many graphs are given to Graphviz, where it is installed; it takes minutes for a tree of over so many bytes.
const GRAPHS: usize = 6;
const GRAPH_BYTES: usize = 2_000;

fn count_broken(runner: &mut Runner, [profile, question, tree]: [&[u8]; 3]) {
    let witness = match keep(profile, question, tree) {
        Ok(Some(witness)) => witness,
        _ => return,
    };
    let read = read_profile(profile).expect("it was read");
    let key = read_question(question, &read.classes).expect("it was read");
    let nodes = read_tree(tree, &read).expect("it was read");
    let is_marked_twice = (0..witness.len()).any(|at| witness[at + 1..].contains(&witness[at]));
    let found = [
        (nodes.len() == MOST_NODES, "trees of 178 nodes"),
        (witness[1..3].contains(&witness[0]), "trees with a context that is a target"),
        (is_marked_twice, "trees with a node of several marks"),
        (key.paths[0].is_empty(), "trees equal by ."),
        (key.paths.len() > 1, "trees with several key paths"),
        (nodes.iter().any(|node| node.value > 65_535), "trees with a value over 65,535"),
    ];
    found.iter().filter(|(holds, _)| *holds).for_each(|(_, what)| runner.count(what));
}

/// The three drawings of a tree.
fn draw(runner: &mut Runner, profile: &[u8], question: &[u8], tree: &[u8]) {
    count_broken(runner, [profile, question, tree]);
    for showing in [Showing::Tree, Showing::All, Showing::Dot] {
        runner.hold(showing, &[profile, question, tree]);
    }
}

/// The tree that `decide` writes.
fn draw_decided(runner: &mut Runner, profile: &[u8], question: &[u8]) {
    runner.put("profile", profile);
    runner.put("question", question);
    let said = runner.program(&["decide"], &["profile", "question", "tree"]);
    assert!(said.starts_with(b"not implied "), "decide: {}", String::from_utf8_lossy(&said));
    runner.count("trees decided");
    let tree = runner.get("tree");
    draw(runner, profile, question, &tree);
}

/// The same tree with other values, equal ones equal still, as large as its kind has them.
fn with_far_values(nodes: &[Node], classes: &Classes, kind: u16) -> Vec<Node> {
    let most = if kind == WIDE_NODE_KIND { u32::MAX } else { 65_535 };
    let far = |node: &Node| if classes.is_last_only(node.label) { Node { value: most - node.value, ..*node } } else { *node };
    nodes.iter().map(far).collect()
}

fn ask_random(runner: &mut Runner, random: &mut Random, asked: &Asked) {
    let kind = node_kind(random);
    let size = 2 + random.below(FEW_NODES);
    let mut nodes = tree(random, &asked.world, size, kind);
    if random.chance(1, 3) {
        nodes = woven(random, &nodes);
    }
    if random.chance(1, 3) {
        nodes = with_far_values(&nodes, &asked.world.classes, kind);
    }
    let mut key = key_on(random, &asked.world, &nodes);
    // A context that is a target itself.
    if random.chance(1, 3) {
        key = Key { target: vec![ANY_PATH], paths: vec![vec![random.one_of(&asked.world.last_only)]], ..key };
    }
    if !is_good(&key, &asked.world.classes) {
        key = asked.question.clone();
    }
    let mut inputs = [write_profile(&asked.profile), key_record(&key), write_tree(&nodes, kind)];
    let input = random.below(3);
    match random.below(8) {
        0 => inputs[input] = damaged(random, &inputs[input]),
        1 => inputs[input] = spoiled(random, &asked.world, &inputs[input]),
        _ => {}
    }
    let [profile, question, tree] = &inputs;
    draw(runner, profile, question, tree);
}

fn labels(names: &[(u8, u8, &str)]) -> Vec<u8> {
    let record = |&(number, class, name): &(u8, u8, &str)| label_record(&Label { number, class, name: name.as_bytes().to_vec() });
    names.iter().flat_map(record).collect()
}

/// The longest keys there are, with names of 32 bytes: the tree of the first has 178 nodes.
fn ask_longest(runner: &mut Runner) {
    let names = ["element-name-of-32-bytes-ABCDEFG", "element_name_of_32_bytes_abcdefg", "attribute-name-of-32-bytes-_-_-_"];
    let profile = labels(&[(2, 1, names[0]), (3, 1, names[1]), (4, 2, names[2])]);
    let path = |ends: [u8; 2]| [vec![2; 6], ends.to_vec()].concat();
    for ends in [[[2, 2], [2, 3], [3, 2], [3, 3]], [[2, TEXT], [2, 2], [2, 4], [3, 4]]] {
        for count in [4, 1] {
            let key = Key { context: vec![2; 8], target: vec![3; 8], paths: ends[..count].iter().map(|&ends| path(ends)).collect() };
            draw_decided(runner, &profile, &key_record(&key));
        }
    }
}

/// Nodes of several marks: a node that is equal by two key paths, a root that is context, target and equal; attributes that are called
/// as the fillers are; one mark behind a long text.
fn ask_marks(runner: &mut Runner) {
    let profile = labels(&[(2, 1, "p"), (3, 2, "q"), (4, 2, "any"), (5, 1, "any-"), (6, 1, "root")]);
    let node = |(parent, label, value): (u16, u8, u32)| Node { parent, label, value };
    let chain = [(NONE, ROOT, 0), (0, 2, 0), (1, 3, 7), (1, 2, 0), (3, 3, 7), (3, 2, 0), (5, 3, 7), (5, 4, 4), (5, 202, 4), (5, 201, 0)];
    let chain = chain.map(node);
    let deep: Vec<Node> = (0..300).map(|at| node(if at == 0 { (NONE, ROOT, 0) } else { (at - 1, 2, 0) })).collect();
    let twin = |at: u16| [(0, 5, 0), (at, 4, u32::MAX), (at, 202, 1)];
    let twins: Vec<Node> = [&[(NONE, ROOT, 0)][..], &twin(1), &twin(4), &[(0, 6, 0), (0, 1, 9)]].concat().into_iter().map(node).collect();
    let key = |context: &[u8], target: &[u8], paths: &[&[u8]]| {
        key_record(&Key { context: context.to_vec(), target: target.to_vec(), paths: paths.iter().map(|path| path.to_vec()).collect() })
    };
    let questions = [
        key(&[], &[0], &[&[3], &[2, 3]]),
        key(&[0], &[0], &[&[3], &[2, 3], &[2, 2, 3]]),
        key(&[0], &[0], &[&[]]),
        key(&[], &[0, 2], &[&[]]),
        key(&[], &[0], &[&[], &[4]]),
        key(&[], &[5], &[&[], &[4]]),
        key(&[0], &[0, 4], &[&[]]),
        key(&[], &[0], &[&[2]]),
        key(&[6], &[0], &[&[]]),
    ];
    for question in &questions {
        for nodes in [&chain[..], &deep, &twins, &chain[..1]] {
            draw(runner, &profile, question, &write_tree(nodes, WIDE_NODE_KIND));
        }
    }
}

/// As large as trees may be: a star of fillers with marks, and one without.
fn ask_large(runner: &mut Runner) {
    let profile = labels(&[(2, 1, "p"), (3, 2, "q")]);
    for (label, target) in [(202, 0), (201, 0), (3, 3), (2, 2)] {
        let mut nodes = vec![Node { parent: NONE, label: ROOT, value: 0 }];
        let value = |at: usize| if label == 202 || label == 3 { (at / 2) as u32 } else { 0 };
        nodes.extend((1..TREE_NODES).map(|at| Node { parent: 0, label, value: value(at) }));
        let question = key_record(&Key { context: vec![], target: vec![target], paths: vec![vec![]] });
        draw(runner, &profile, &question, &write_tree(&nodes, WIDE_NODE_KIND));
    }
}

/// Graphviz takes the graphs of `show dot`, where it is installed.
fn ask_graphviz(runner: &mut Runner) {
    let found = Command::new("dot").arg("-V").stderr(Stdio::null()).status();
    if !found.map_or(false, |status| status.success()) {
        return;
    }
    let is_graph = |inputs: &[Vec<u8>]| inputs[2].len() <= GRAPH_BYTES && shown(Showing::Tree, inputs).text.starts_with(b"   0 ");
    let graphs = runner.asked().iter().filter(|(case, _)| case.showing == Showing::Dot && is_graph(&case.inputs));
    let graphs: Vec<Vec<Vec<u8>>> = graphs.take(GRAPHS).map(|(case, _)| case.inputs.clone()).collect();
    for inputs in graphs {
        let names = ["profile", "question", "tree"];
        names.iter().zip(&inputs).for_each(|(name, bytes)| runner.put(name, bytes));
        let graph = runner.program(&["show", "dot"], &names);
        runner.put("graph", &graph);
        let drawn = Command::new("dot").arg("-Tsvg").arg(runner.file("graph")).output().expect("dot runs");
        let said = String::from_utf8_lossy(&drawn.stderr).to_string();
        assert!(drawn.status.success() && said.is_empty(), "dot -Tsvg {}: {}", runner.file("graph").display(), said);
        runner.count("graphs drawn by Graphviz");
    }
}

/// So many decided questions and as many random trees.
pub fn ask(runner: &mut Runner, seed: u64, count: usize) {
    let mut random = Random::new(seed);
    ask_longest(runner);
    ask_marks(runner);
    ask_large(runner);
    let (mut decided, mut tried) = (0, 0);
    while decided < count / 2 || tried < count {
        let asked = asked(&mut random);
        if decided < count / 2 && !is_implied(&asked.question, &asked.profile) {
            decided += 1;
            draw_decided(runner, &write_profile(&asked.profile), &key_record(&asked.question));
        }
        if tried < count {
            tried += 1;
            ask_random(runner, &mut random, &asked);
        }
    }
    ask_graphviz(runner);
}
