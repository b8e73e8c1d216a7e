//! The first witness against a key that a tree breaks (02, request 9), in two ways.
use super::paths::Path;
use super::records::Key;
use super::trees::{Target, Tree};
use super::wrong;
use std::rc::Rc;

/// "The context node, the two target nodes, and for each key path one value-equal pair": the numbers of context, smaller target and larger,
/// then two for each key path in its order, the node below the smaller target first.
pub type Witness = Vec<usize>;

impl<'a> Tree<'a> {
    /// "Of all such witnesses it is the first by context number, then smaller target number, then larger, then each pair by its two numbers
    /// in key-path order": all are gone through in this order. None where the tree keeps the key. For small trees.
    pub fn first_witness_by_definition(&self, key: &Key) -> Option<Witness> {
        let all = 0..self.nodes.len();
        for q in all.clone().filter(|&q| self.is_reached(0, q, &key.context)) {
            for a in all.clone().filter(|&a| self.is_reached(q, a, &key.target)) {
                for b in (a + 1..self.nodes.len()).filter(|&b| self.is_reached(q, b, &key.target)) {
                    if let Some(pairs) = self.first_pairs_by_definition(a, b, &key.paths) {
                        return Some([vec![q, a, b], pairs].concat());
                    }
                }
            }
        }
        None
    }

    fn first_pairs_by_definition(&self, a: usize, b: usize, paths: &[Path]) -> Option<Vec<usize>> {
        let (path, others) = match paths.split_first() {
            None => return Some(Vec::new()),
            Some(parts) => parts,
        };
        let all = 0..self.nodes.len();
        for x in all.clone().filter(|&x| self.is_reached(a, x, path)) {
            for y in all.clone().filter(|&y| self.is_reached(b, y, path) && self.is_equal_by_definition(x, y)) {
                if let Some(pairs) = self.first_pairs_by_definition(a, b, others) {
                    return Some([vec![x, y], pairs].concat());
                }
            }
        }
        None
    }

    /// The same: of the pairs of targets that agree, each with its first common context, the first; then for each key path the first pair, which
    /// does not depend on the others'.
    pub fn first_witness(&self, key: &Key) -> Option<Witness> {
        let mut best = None;
        for alike in self.alike(key) {
            for (at, one) in alike.iter().enumerate() {
                best = with_mates(best, one, &alike[at + 1..]);
            }
        }
        let (q, a, b) = best?;
        let pairs = key.paths.iter().filter_map(|path| self.first_pair(a, b, path));
        Some([q, a, b].into_iter().chain(pairs.flatten()).collect())
    }

    /// The first x below a that has an equal y below b, and the first such y.
    fn first_pair(&self, a: usize, b: usize, path: &[u8]) -> Option<[usize; 2]> {
        let below = |v: usize| if wrong(21) { self.reached_on_the_way_down(v, path) } else { self.reached(v, path) };
        let (xs, ys) = (below(a), below(b));
        let mate = |x: usize| ys.iter().copied().find(|&y| self.worth[y] == self.worth[x]);
        xs.iter().find_map(|&x| mate(x).map(|y| [x, y]))
    }
}

/// Context, smaller target and larger.
type Targets = (usize, usize, usize);

/// The best so far, or what comes before it: the target with one of the larger ones. No common context of two comes before the first of
/// either, so most need not be looked at.
fn with_mates(best: Option<Targets>, one: &Target, larger: &[Rc<Target>]) -> Option<Targets> {
    let mut best = best;
    let comes_before = |best: Option<Targets>, first: Option<&usize>, b: usize| match best {
        None => true,
        Some((q, a, other)) => (first, one.node, b) < (Some(&q), a, other),
    };
    if !comes_before(best, one.contexts.first(), one.node) {
        return best;
    }
    for other in larger {
        let first = one.contexts.first().max(other.contexts.first());
        if comes_before(best, first, other.node) && one.agrees(other) {
            let found = chosen_context(one, other).map(|q| (q, one.node, other.node));
            best = best.into_iter().chain(found).min();
        }
    }
    best
}

fn chosen_context(one: &Target, other: &Target) -> Option<usize> {
    if wrong(20) {
        return one.contexts.iter().rev().copied().find(|context| other.contexts.contains(context));
    }
    one.first_context_with(other)
}
