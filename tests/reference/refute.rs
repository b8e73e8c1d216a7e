//! A search for a tree that refutes an implied question: one that keeps the profile and breaks the question.
use super::decide::{counterexample, Pattern};
use super::generate::{tree_of_edition, World};
use super::random::Random;
use super::records::*;
use super::trees::Tree;

const RANDOM_TREES: usize = 2;
const RANDOM_NODES: usize = 14;

/// Trees tried, how many of them break the question, and one that keeps the profile besides.
#[derive(Default)]
pub struct Search {
    pub tried: usize,
    pub breaking: usize,
    pub found: Option<Vec<Node>>,
}

pub fn search(random: &mut Random, profile: &Profile, question: &Key) -> Search {
    let mut search = Search::default();
    for nodes in candidates(random, profile, question) {
        let table = Tree::new(&nodes, &profile.classes);
        search.tried += 1;
        if table.keeps(question) {
            continue;
        }
        search.breaking += 1;
        if profile.keys.iter().all(|key| table.keeps(key)) {
            search.found = Some(nodes);
        }
    }
    search
}

/// Few random trees break a given key. So the question's pattern is doubled besides, below each node from
/// q to t and not below u alone: its two targets agree on every key path. In edition 2 a doubled pattern that
/// has an attribute twice under an element is no tree.
fn candidates(random: &mut Random, profile: &Profile, question: &Key) -> Vec<Vec<Node>> {
    let world = World::of(profile);
    let mut trees = Vec::new();
    for _ in 0..RANDOM_TREES {
        let size = 1 + random.below(RANDOM_NODES);
        trees.push(tree_of_edition(random, &world, size, WIDE_NODE_KIND));
    }
    let pattern = Pattern::of(question);
    for node in pattern.q..pattern.t {
        let doubled = counterexample(&pattern, node, profile);
        if (0..doubled.len()).any(|at| is_repeated(&doubled[at], &doubled[..at], profile)) {
            continue;
        }
        trees.push(with_other_values(random, &doubled, profile));
        trees.push(doubled);
    }
    trees
}

/// The tree with some values taken from other nodes.
fn with_other_values(random: &mut Random, nodes: &[Node], profile: &Profile) -> Vec<Node> {
    let has_value = |node: &Node| profile.classes.is_last_only(node.label);
    let values: Vec<u32> = nodes.iter().filter(|node| has_value(node)).map(|node| node.value).collect();
    let mut changed = nodes.to_vec();
    for node in changed.iter_mut().filter(|node| has_value(node)) {
        if random.chance(1, 4) {
            node.value = random.one_of(&values);
        }
    }
    changed
}
