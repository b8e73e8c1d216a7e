//! Trees: what a path reaches, value equality, keys kept (01, "Trees, paths and keys"; attributes in any order: 02, request 2).
use super::paths::{is_whole, is_word, places_after, places_at_start, Class, Classes, Places};
use super::records::{Key, Node, NONE};
use super::wrong;
use std::collections::HashMap;
use std::rc::Rc;

pub struct Tree<'a> {
    pub nodes: &'a [Node],
    pub classes: &'a Classes,
    pub children: Vec<Vec<usize>>,
    /// Two nodes are value-equal exactly when they have the same number here.
    pub worth: Vec<usize>,
}

impl<'a> Tree<'a> {
    pub fn new(nodes: &'a [Node], classes: &'a Classes) -> Tree<'a> {
        let mut children = vec![Vec::new(); nodes.len()];
        for (number, node) in nodes.iter().enumerate() {
            if node.parent != NONE {
                children[node.parent as usize].push(number);
            }
        }
        let worth = worths(nodes, classes, &children);
        Tree { nodes, classes, children, worth }
    }

    pub fn parent(&self, node: usize) -> Option<usize> {
        match self.nodes[node].parent {
            NONE => None,
            parent => Some(parent as usize),
        }
    }

    pub fn is_attribute(&self, node: usize) -> bool {
        self.classes.of(self.nodes[node].label) == Some(Class::Attribute)
    }

    /// The nodes reached from v by a path, in table order.
    pub fn reached(&self, v: usize, path: &[u8]) -> Vec<usize> {
        let mut found = self.reached_on_the_way_down(v, path);
        found.sort_unstable();
        found
    }

    /// The same in the order of the way down: a node, what lies below its first child, what lies below the next.
    pub fn reached_on_the_way_down(&self, v: usize, path: &[u8]) -> Vec<usize> {
        let mut found = Vec::new();
        let mut waiting = vec![(v, places_at_start(path))];
        while let Some((node, places)) = waiting.pop() {
            if is_whole(path, places) {
                found.push(node);
            }
            for &child in self.children[node].iter().rev() {
                let next = places_after(path, places, self.nodes[child].label);
                if next != 0 {
                    waiting.push((child, next));
                }
            }
        }
        found
    }

    /// The labels below v down to and including w, or none where w does not lie at or below v.
    pub fn run(&self, v: usize, w: usize) -> Option<Vec<u8>> {
        let mut labels = Vec::new();
        let mut at = w;
        while at != v {
            labels.push(self.nodes[at].label);
            at = self.parent(at)?;
        }
        labels.reverse();
        Some(labels)
    }

    /// Whether a path reaches w from v, by 01's sentence.
    pub fn is_reached(&self, v: usize, w: usize, path: &[u8]) -> bool {
        self.run(v, w).map_or(false, |run| is_word(&run, path))
    }

    /// Value equality by 01's sentence, with no memory; attributes by 02's "some one-to-one pairing". For small trees.
    pub fn is_equal_by_definition(&self, x: usize, y: usize) -> bool {
        let (a, b) = (&self.nodes[x], &self.nodes[y]);
        if a.label != b.label {
            return false;
        }
        if self.classes.of(a.label) != Some(Class::Element) {
            return a.value == b.value;
        }
        let part = |v: usize, wanted: bool| -> Vec<usize> {
            self.children[v].iter().copied().filter(|&child| self.is_attribute(child) == wanted).collect()
        };
        let (xs, ys) = (part(x, false), part(y, false));
        self.is_paired(&part(x, true), part(y, true))
            && xs.len() == ys.len()
            && xs.iter().zip(&ys).all(|(&a, &b)| self.is_equal_by_definition(a, b))
    }

    /// Whether some one-to-one pairing of two lists of attributes makes them value-equal: the first gets a mate, the others
    /// are paired without it. Which mate is taken does not matter, since all of them have its label and its value.
    fn is_paired(&self, xs: &[usize], mut ys: Vec<usize>) -> bool {
        match xs.split_first() {
            None => ys.is_empty(),
            Some((&x, others)) => match ys.iter().position(|&y| self.is_equal_by_definition(x, y)) {
                None => false,
                Some(mate) => {
                    ys.remove(mate);
                    self.is_paired(others, ys)
                }
            },
        }
    }

    /// Whether the tree keeps a key, by 01's sentence. For small trees.
    pub fn keeps_by_definition(&self, key: &Key) -> bool {
        let all = 0..self.nodes.len();
        let agree = |a: usize, b: usize, path: &[u8]| {
            all.clone().any(|x| {
                self.is_reached(a, x, path)
                    && all.clone().any(|y| self.is_reached(b, y, path) && self.is_equal_by_definition(x, y))
            })
        };
        all.clone().filter(|&q| self.is_reached(0, q, &key.context)).all(|q| {
            all.clone().filter(|&a| self.is_reached(q, a, &key.target)).all(|a| {
                all.clone()
                    .filter(|&b| b != a && self.is_reached(q, b, &key.target))
                    .all(|b| key.paths.iter().any(|path| !agree(a, b, path)))
            })
        })
    }

    /// Whether the tree keeps a key. Whether two nodes agree on every key path does not depend on
    /// the context, and few nodes do: so pairs that agree come first, then their contexts.
    pub fn keeps(&self, key: &Key) -> bool {
        let breaks = |one: &Target, other: &Target| one.agrees(other) && one.first_context_with(other).is_some();
        self.alike(key).iter().all(|alike| {
            alike.iter().enumerate().all(|(at, one)| !alike[..at].iter().any(|other| breaks(one, other)))
        })
    }

    /// The key's targets that reach something by every key path, in lists of those that share a value on the first; each list ascends.
    pub fn alike(&self, key: &Key) -> Vec<Vec<Rc<Target>>> {
        let contexts = self.marks(&[0], &key.context);
        let starts: Vec<usize> = (0..self.nodes.len()).filter(|&v| contexts[v]).collect();
        let is_target = self.marks(&starts, &key.target);
        let mut values_of: HashMap<usize, Vec<Vec<usize>>> = HashMap::new();
        let mut by_first: HashMap<usize, Vec<usize>> = HashMap::new();
        for a in (0..self.nodes.len()).filter(|&a| is_target[a]) {
            let values: Vec<Vec<usize>> = key.paths.iter().map(|path| self.worths_reached(a, path)).collect();
            if values.iter().any(|each| each.is_empty()) && !wrong(4) {
                continue;
            }
            for &worth in &values[0] {
                by_first.entry(worth).or_insert_with(Vec::new).push(a);
            }
            values_of.insert(a, values);
        }
        // A target has several values, so it may stand in several lists.
        let mut known: HashMap<usize, Rc<Target>> = HashMap::new();
        let mut target = |a: &usize| {
            let make = || Rc::new(Target { node: *a, values: values_of[a].clone(), contexts: self.contexts_of(*a, &contexts, &key.target) });
            known.entry(*a).or_insert_with(make).clone()
        };
        by_first.values().filter(|alike| alike.len() > 1).map(|alike| alike.iter().map(&mut target).collect()).collect()
    }

    /// Which nodes a path reaches from some of the given nodes: once through the table.
    fn marks(&self, starts: &[usize], path: &[u8]) -> Vec<bool> {
        let mut places: Vec<Places> = vec![0; self.nodes.len()];
        let mut is_start = vec![false; self.nodes.len()];
        for &start in starts {
            is_start[start] = true;
        }
        for v in 0..self.nodes.len() {
            if let Some(parent) = self.parent(v) {
                places[v] = places_after(path, places[parent], self.nodes[v].label);
            }
            if is_start[v] {
                places[v] |= places_at_start(path);
            }
        }
        places.iter().map(|&each| is_whole(path, each)).collect()
    }

    fn worths_reached(&self, a: usize, path: &[u8]) -> Vec<usize> {
        let mut worths: Vec<usize> = self.reached(a, path).iter().map(|&x| self.worth[x]).collect();
        worths.sort_unstable();
        worths.dedup();
        worths
    }

    /// The contexts from which the target path reaches a: ancestors or a itself. The path is read
    /// backwards on the way up. They are given from the top, so their numbers ascend.
    fn contexts_of(&self, a: usize, contexts: &[bool], target: &[u8]) -> Vec<usize> {
        let backwards: Vec<u8> = target.iter().rev().copied().collect();
        let mut found = Vec::new();
        let mut places = places_at_start(&backwards);
        let mut at = Some(a);
        while let Some(node) = at {
            if contexts[node] && is_whole(&backwards, places) {
                found.push(node);
            }
            places = places_after(&backwards, places, self.nodes[node].label);
            at = if places == 0 { None } else { self.parent(node) };
        }
        found.reverse();
        found
    }
}

/// A target of a key: the numbers of the values that each key path reaches from it, and the contexts that reach it; all ascend.
pub struct Target {
    pub node: usize,
    pub values: Vec<Vec<usize>>,
    pub contexts: Vec<usize>,
}

impl Target {
    /// Whether both have a value in common on each key path; they are known to on the first.
    pub fn agrees(&self, other: &Target) -> bool {
        (1..self.values.len()).all(|path| first_common(&self.values[path], &other.values[path]).is_some()) || wrong(4)
    }

    /// The first context that reaches both.
    pub fn first_context_with(&self, other: &Target) -> Option<usize> {
        first_common(&self.contexts, &other.contexts)
    }
}

/// The first number that two ascending lists have in common.
fn first_common(xs: &[usize], ys: &[usize]) -> Option<usize> {
    let (mut i, mut j) = (0, 0);
    while i < xs.len() && j < ys.len() {
        if xs[i] == ys[j] {
            return Some(xs[i]);
        }
        if xs[i] < ys[j] {
            i += 1;
        } else {
            j += 1;
        }
    }
    None
}

/// Gives value-equal nodes the same number and others different ones. Children stand after their
/// parents, so from the back each node's children have theirs already. Attributes are paired in any
/// order exactly when their sorted numbers are the same.
fn worths(nodes: &[Node], classes: &Classes, children: &[Vec<usize>]) -> Vec<usize> {
    let mut known: HashMap<(u8, u32, Vec<usize>, Vec<usize>), usize> = HashMap::new();
    let mut worth = vec![0; nodes.len()];
    for number in (0..nodes.len()).rev() {
        let node = &nodes[number];
        let value = match classes.of(node.label) {
            Some(Class::Element) => 0,
            _ if wrong(15) => node.value % 65_536,
            _ => node.value,
        };
        let mut attributes = Vec::new();
        let mut others = Vec::new();
        for &child in &children[number] {
            if classes.of(nodes[child].label) == Some(Class::Attribute) && !wrong(3) {
                attributes.push(worth[child]);
            } else {
                others.push(worth[child]);
            }
        }
        if !wrong(14) {
            attributes.sort_unstable();
        }
        let next = known.len();
        worth[number] = *known.entry((node.label, value, attributes, others)).or_insert(next);
    }
    worth
}
