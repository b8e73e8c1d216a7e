//! The decider: pattern, steps, verdict and evidence (01, "The counterexample that is written").
use super::paths::{is_word, normal_form, Class, Path, ANY_PATH, FILLER_ATTRIBUTE, FILLER_ELEMENT, ROOT};
use super::records::{Key, Line, Node, Profile, NONE, SECOND_EDITION};
use super::wrong;

/// The pattern of a key: nodes in 01's order, downwards, branch after branch.
pub struct Pattern {
    pub parent: Vec<Option<usize>>,
    pub label: Vec<u8>,
    pub marked: Vec<bool>,
    pub q: usize,
    pub t: usize,
}

impl Pattern {
    pub fn of(key: &Key) -> Pattern {
        let mut pattern = Pattern { parent: vec![None], label: vec![ROOT], marked: vec![false], q: 0, t: 0 };
        pattern.q = pattern.draw(0, &key.context);
        pattern.t = pattern.draw(pattern.q, &key.target);
        let ends: Vec<usize> = key.paths.iter().map(|path| pattern.draw(pattern.t, path)).collect();
        for end in ends {
            pattern.marked[end] = true;
        }
        if key.paths.iter().any(|path| path.is_empty()) {
            for node in pattern.t..pattern.len() {
                pattern.marked[node] |= pattern.is_below(node, pattern.t) && !(wrong(7) && node != pattern.t);
            }
        }
        pattern
    }

    pub fn len(&self) -> usize {
        self.label.len()
    }

    /// Draws a path downwards from a node and gives its end; "each any-path drawn as one filler".
    fn draw(&mut self, from: usize, path: &[u8]) -> usize {
        let mut at = from;
        for &symbol in path {
            self.parent.push(Some(at));
            self.label.push(if symbol == ANY_PATH { FILLER_ELEMENT } else { symbol });
            self.marked.push(false);
            at = self.len() - 1;
        }
        at
    }

    /// Whether a node lies at or below v.
    fn is_below(&self, node: usize, v: usize) -> bool {
        self.run(v, node).is_some()
    }

    /// The labels below v down to and including w, where w lies at or below v.
    fn run(&self, v: usize, w: usize) -> Option<Vec<u8>> {
        let mut labels = Vec::new();
        let mut at = w;
        while at != v {
            labels.push(self.label[at]);
            at = self.parent[at]?;
        }
        labels.reverse();
        Some(labels)
    }

    fn is_reached(&self, v: usize, w: usize, path: &[u8]) -> bool {
        self.run(v, w).map_or(false, |run| is_word(&run, path))
    }

    /// All steps (from, to): to children, in edition 2 from each attribute to its parent, and those that the profile's keys let
    /// be taken.
    pub fn steps(&self, profile: &Profile) -> Vec<(usize, usize)> {
        let mut steps: Vec<(usize, usize)> = Vec::new();
        for node in 0..self.len() {
            if let Some(parent) = self.parent[node] {
                steps.push((parent, node));
                let is_attribute = profile.classes.of(self.label[node]) == Some(Class::Attribute);
                if profile.edition == SECOND_EDITION && is_attribute && !(wrong(18) && parent != self.q) {
                    steps.push((node, parent));
                }
            }
        }
        for key in &profile.keys {
            let lands = |from: usize, path: &[u8]| {
                (0..self.len()).any(|end| self.marked[end] && self.is_reached(from, end, path))
            };
            for w in (0..self.len()).filter(|&w| self.is_reached(0, w, &key.context)) {
                for from in (0..self.len()).filter(|&from| self.is_reached(w, from, &key.target)) {
                    if key.paths.iter().all(|path| lands(from, path)) {
                        steps.push((from, w));
                    }
                }
            }
        }
        steps
    }

    /// Which nodes lead to q by no or more steps.
    pub fn leads_to_q(&self, profile: &Profile) -> Vec<bool> {
        let steps = self.steps(profile);
        let mut leads = vec![false; self.len()];
        leads[self.q] = true;
        let mut grew = true;
        while grew {
            grew = false;
            for &(from, to) in &steps {
                if leads[to] && !leads[from] {
                    leads[from] = true;
                    grew = true;
                }
            }
        }
        leads
    }
}

pub enum Verdict {
    Implied,
    NotImplied { u: usize },
}

pub fn verdict(pattern: &Pattern, profile: &Profile) -> Verdict {
    let leads = pattern.leads_to_q(profile);
    if leads[pattern.t] {
        return Verdict::Implied;
    }
    // The nodes from q to t are numbered downwards.
    let mut leading = (pattern.q..=pattern.t).filter(|&node| leads[node]);
    let u = if wrong(8) { leading.next() } else { leading.last() };
    Verdict::NotImplied { u: u.unwrap() }
}

/// Writes pattern nodes into the tree, each element followed at once by its filler attribute.
/// `at` holds the tree number of each pattern node written so far; `twins` that of the first copy
/// while the second is written.
fn write_nodes(
    tree: &mut Vec<Node>,
    at: &mut [usize],
    twins: Option<&[usize]>,
    pattern: &Pattern,
    these: &[usize],
    profile: &Profile,
) {
    for &node in these {
        let number = tree.len();
        let parent = pattern.parent[node].map_or(NONE, |above| at[above] as u16);
        at[node] = number;
        // A marked node of the second copy, and its filler, have the value of the twin.
        let twin = twins.filter(|_| pattern.marked[node]).map(|of| of[node]);
        let label = pattern.label[node];
        if profile.classes.of(label) == Some(Class::Element) {
            tree.push(Node { parent, label, value: 0 });
            let twin = if wrong(9) { None } else { twin };
            let value = twin.map_or(number + 1, |first| first + 1) as u32;
            tree.push(Node { parent: number as u16, label: FILLER_ATTRIBUTE, value });
        } else {
            tree.push(Node { parent, label, value: twin.unwrap_or(number) as u32 });
        }
    }
}

/// The one counterexample that 01 fixes.
pub fn counterexample(pattern: &Pattern, u: usize, profile: &Profile) -> Vec<Node> {
    let once: Vec<usize> = (0..=u).collect();
    let others: Vec<usize> = (u + 1..pattern.len()).collect();
    let mut tree = Vec::new();
    let mut at = vec![0; pattern.len()];
    write_nodes(&mut tree, &mut at, None, pattern, &once, profile);
    write_nodes(&mut tree, &mut at, None, pattern, &others, profile);
    let first_copy = at.clone();
    write_nodes(&mut tree, &mut at, Some(&first_copy), pattern, &others, profile);
    tree
}

/// A proof of an implied question, by the argument's section 5 (which proof is written is open).
/// Places along C, T and a branch are counted in symbols.
struct Writer<'a> {
    question: &'a Key,
    keys: &'a [Key],
    /// C ++ T as it stands, not joined.
    way: Path,
    c: usize,
    n: usize,
    /// In edition 2 the target ends in an attribute.
    ends_single: bool,
    lines: Vec<Line>,
}

/// A profile key lets the place `k` of branch j's line step to place `i` of the way.
struct Step {
    key: usize,
    branch: usize,
    from: usize,
    to: usize,
}

pub fn proof(question: &Key, profile: &Profile) -> Option<Vec<Line>> {
    let way = [question.context.as_slice(), &question.target].concat();
    let (c, n) = (question.context.len(), way.len());
    let is_attribute = |&label: &u8| profile.classes.of(label) == Some(Class::Attribute);
    let ends_single = profile.edition == SECOND_EDITION && question.target.last().map_or(false, is_attribute);
    let mut writer = Writer { question, keys: &profile.keys, way, c, n, ends_single, lines: Vec::new() };
    let (steps, lowest) = writer.search()?;
    writer.write(&steps, lowest);
    Some(writer.lines)
}

impl<'a> Writer<'a> {
    fn line(&self, branch: usize) -> Path {
        [self.way.as_slice(), &self.question.paths[branch]].concat()
    }

    fn holds_empty(&self) -> bool {
        self.question.paths.iter().any(|path| path.is_empty())
    }

    fn lands(&self, branch: usize, k: usize, path: &[u8]) -> bool {
        (0..self.question.paths.len()).any(|other| {
            let line = self.line(other);
            let end = k + path.len();
            let is_marked = end == line.len() || (self.holds_empty() && end >= self.n);
            (k <= self.n || other == branch) && end <= line.len() && line[k..end] == *path && is_marked
        })
    }

    fn may_step(&self, step: &Step) -> bool {
        // Any-paths of the question are played by fillers, which only any-paths consume.
        let played: Vec<u8> = self
            .line(step.branch)
            .iter()
            .map(|&symbol| if symbol == ANY_PATH { FILLER_ELEMENT } else { symbol })
            .collect();
        let key = &self.keys[step.key];
        is_word(&played[..step.to], &key.context)
            && is_word(&played[step.to..step.from], &key.target)
            && key.paths.iter().all(|path| self.lands(step.branch, step.from, path))
    }

    /// A step from below place u to u or above it.
    fn step_over(&self, u: usize) -> Option<Step> {
        for key in 0..self.keys.len() {
            for branch in 0..self.question.paths.len() {
                for from in u + 1..=self.line(branch).len() {
                    for to in 0..=u {
                        let step = Step { key, branch, from, to };
                        if self.may_step(&step) {
                            return Some(step);
                        }
                    }
                }
            }
        }
        None
    }

    /// The steps from q downwards, and the place where they end: t, or in edition 2 the parent of an attribute.
    fn search(&self) -> Option<(Vec<Step>, usize)> {
        let mut u = self.c;
        let mut steps = Vec::new();
        while u < self.n && !(self.ends_single && u + 1 == self.n) {
            let step = self.step_over(u)?;
            u = step.from.min(self.n);
            steps.push(step);
        }
        Some((steps, u))
    }

    fn put(&mut self, rule: u8, first: u16, second: u16, context: &[u8], target: &[u8], paths: &[Path]) -> u16 {
        let mut set: Vec<Path> = paths.to_vec();
        set.sort_by_key(|path| (path.len(), path.clone()));
        set.dedup();
        let key = Key { context: normal_form(context), target: normal_form(target), paths: set };
        self.lines.push(Line { rule, first, second, key });
        (self.lines.len() - 1) as u16
    }

    /// The first line has no premise: an empty target by rule 1, or an attribute alone by rule 10.
    fn write(&mut self, steps: &[Step], lowest: usize) {
        let (way, asked) = (self.way.clone(), self.question.paths.clone());
        let mut h = lowest;
        let rule = if lowest < self.n { 10 } else { 1 };
        let mut last = self.put(rule, NONE, NONE, &way[..lowest], &way[lowest..], &asked);
        for step in steps.iter().rev() {
            last = self.write_step(step, last);
            h = step.to;
        }
        if h < self.c {
            let (c, t) = (self.question.context.clone(), self.question.target.clone());
            self.put(7, last, NONE, &c, &t, &asked);
        }
    }

    fn write_step(&mut self, step: &Step, last: u16) -> u16 {
        let key = self.keys[step.key].clone();
        let part = self.line(step.branch)[step.to..step.from].to_vec();
        let above = self.way[..step.to].to_vec();
        let cited = self.put(0, step.key as u16, NONE, &key.context, &key.target, &key.paths);
        let moved = self.put(5, cited, NONE, &above, &key.target, &key.paths);
        let aimed = self.put(6, moved, NONE, &above, &part, &key.paths);
        if step.from <= self.n {
            self.write_from_way(step, aimed, last, &key)
        } else {
            self.write_from_branch(step, aimed, &key)
        }
    }

    fn write_from_way(&mut self, step: &Step, aimed: u16, last: u16, key: &Key) -> u16 {
        let (way, asked) = (self.way.clone(), self.question.paths.clone());
        let (above, below) = (&way[..step.to], &way[step.to..]);
        let (upper, f) = (&way[..step.from], &way[step.from..]);
        let mut united = asked.clone();
        united.extend(key.paths.iter().map(|path| path[f.len()..].to_vec()));
        let lifted: Vec<Path> = united.iter().map(|path| [f, path.as_slice()].concat()).collect();
        let wide = self.put(3, aimed, NONE, above, &way[step.to..step.from], &lifted);
        let split = self.put(7, last, NONE, upper, f, &asked);
        let split = self.put(3, split, NONE, upper, f, &united);
        let both = self.put(9, wide, split, above, below, &united);
        if self.holds_empty() {
            self.put(2, both, NONE, above, below, &asked)
        } else {
            both
        }
    }

    fn write_from_branch(&mut self, step: &Step, aimed: u16, key: &Key) -> u16 {
        let (way, asked) = (self.way.clone(), self.question.paths.clone());
        let (above, below) = (&way[..step.to], &way[step.to..]);
        let line = self.line(step.branch);
        let branch = asked[step.branch].clone();
        if !self.holds_empty() {
            let lifted = self.put(4, aimed, NONE, above, below, &[branch]);
            return self.put(3, lifted, NONE, above, below, &asked);
        }
        let part = &line[step.to..step.from];
        let h = line[step.from..].to_vec();
        let mut with_empty = key.paths.clone();
        with_empty.push(Vec::new());
        let wide = self.put(3, aimed, NONE, above, part, &with_empty);
        let whole = self.put(2, wide, NONE, above, part, &[Vec::new(), h]);
        let lifted = self.put(8, whole, NONE, above, below, &[Vec::new(), branch]);
        self.put(3, lifted, NONE, above, below, &asked)
    }
}
