//! A tree that breaks the question, drawn: as indented text, and the parts of its graph.
use super::operations::keep;
use super::paths::{Class, FILLER_ATTRIBUTE, FILLER_ELEMENT, ROOT, TEXT};
use super::records::*;
use super::shown::*;
use super::text::{print_typed, typed_of};
use super::trees::Tree;
use super::witness::Witness;

/// "The number right-aligned to 4; one space; two spaces for each step below the root", and marks from column 5 + max(20, w) + 2 on.
const NUMBER_COLUMNS: usize = 4;
const STEP_COLUMNS: usize = 2;
const LEAST_COLUMNS: usize = 20;
const GAP_COLUMNS: usize = 2;

/// A node as it is shown.
struct Drawn {
    number: usize,
    parent: Option<usize>,
    depth: usize,
    /// Its label by name, of attributes and text with the value.
    name: String,
    /// By its number and not by its name: an attribute may be declared as `any`.
    is_filler: bool,
    marks: Vec<String>,
}

impl Drawn {
    fn indented(&self) -> String {
        format!("{}{}", " ".repeat(STEP_COLUMNS * self.depth), self.name)
    }

    /// "`show tree` leaves out nodes of label 202 that have no mark."
    fn is_printed(&self) -> bool {
        !self.is_filler || !self.marks.is_empty() || wrong_shown(FILLERS_SHOWN)
    }
}

/// The text `equal by P` and the two nodes.
type Pair = (String, usize, usize);

/// A path as it stands in a key line.
fn path_text(labels: &[Label], path: &[u8]) -> String {
    let key = Key { context: Vec::new(), target: Vec::new(), paths: vec![path.to_vec()] };
    let line = String::from_utf8(print_typed(&typed_of(labels, &key))).expect("names are ASCII");
    let path = line.strip_prefix("(., (., {").and_then(|rest| rest.strip_suffix("}))"));
    path.expect("a line of two empty paths").to_string()
}

fn label_text(profile: &Profile, number: u8) -> String {
    let declared = profile.labels.iter().find(|label| label.number == number);
    let name = declared.map_or(String::new(), |label| String::from_utf8_lossy(&label.name).to_string());
    match number {
        TEXT => "#".to_string(),
        ROOT => "root".to_string(),
        FILLER_ELEMENT => "any".to_string(),
        FILLER_ATTRIBUTE => "@any".to_string(),
        label if profile.classes.of(label) == Some(Class::Attribute) => format!("@{}", name),
        _ => name,
    }
}

fn node_text(profile: &Profile, node: &Node) -> String {
    let label = label_text(profile, node.label);
    let value = if wrong_shown(LOW_VALUES) { node.value % 65_536 } else { node.value };
    match profile.classes.of(node.label) {
        Some(Class::Element) => label,
        _ => format!("{} = {}", label, value),
    }
}

/// The equal pairs in the order of the key paths. A witness has the context, the two targets, then two nodes for each key path.
fn pairs_of(profile: &Profile, key: &Key, witness: &Witness) -> Vec<Pair> {
    let count = key.paths.len();
    let shift = wrong_shown(OTHER_PATH) as usize;
    let text = |at: usize| format!("equal by {}", path_text(&profile.labels, &key.paths[(at + shift) % count]));
    (0..count).map(|at| (text(at), witness[3 + 2 * at], witness[4 + 2 * at])).collect()
}

/// "In this order: `context`, `first`, `second`, then for each key path j of the question in order `equal by P`."
fn marks_of(node: usize, witness: &Witness, pairs: &[Pair]) -> Vec<String> {
    let named = ["context", "first", "second"].iter().zip(witness);
    let mut marks: Vec<String> = named.filter(|(_, &at)| at == node).map(|(name, _)| name.to_string()).collect();
    marks.extend(pairs.iter().filter(|(_, x, y)| *x == node || *y == node).map(|(text, _, _)| text.clone()));
    if wrong_shown(FIRST_MARK) {
        marks.truncate(1);
    }
    marks
}

/// All nodes as they are shown, and the equal pairs; none where the tree keeps the question.
fn drawing(profile: &[u8], question: &[u8], tree: &[u8]) -> Result<Option<(Vec<Drawn>, Vec<Pair>)>, Refusal> {
    let witness = match keep(profile, question, tree)? {
        None => return Ok(None),
        Some(witness) => witness,
    };
    let profile = read_profile(profile)?;
    let key = read_question(question, &profile.classes)?;
    let nodes = read_tree(tree, &profile)?;
    let table = Tree::new(&nodes, &profile.classes);
    let pairs = pairs_of(&profile, &key, &witness);
    let draw = |(number, node): (usize, &Node)| Drawn {
        number,
        parent: table.parent(number),
        depth: table.run(0, number).map_or(0, |run| run.len()),
        name: node_text(&profile, node),
        is_filler: node.label == FILLER_ATTRIBUTE,
        marks: marks_of(number, &witness, &pairs),
    };
    let drawn = nodes.iter().enumerate().map(draw).collect();
    Ok(Some((drawn, pairs)))
}

/// The numbers of a branch's nodes: the node, then the branches of its children "in the order of their numbers".
fn branch(nodes: &[Drawn], top: usize) -> Vec<usize> {
    let mut found = Vec::new();
    let mut waiting = vec![top];
    while let Some(node) = waiting.pop() {
        found.push(node);
        waiting.extend((node + 1..nodes.len()).rev().filter(|&child| nodes[child].parent == Some(node)));
    }
    found
}

/// "A line for each node", branch by branch, `all` or those that `show tree` prints; as `profile keep` where nothing is broken.
pub fn tree_text(profile: &[u8], question: &[u8], tree: &[u8], all: bool) -> Result<Vec<u8>, Refusal> {
    let nodes = match drawing(profile, question, tree)? {
        None => return Ok(b"kept\n".to_vec()),
        Some((nodes, _)) => nodes,
    };
    let is_printed = |node: &&Drawn| all || node.is_printed();
    let is_measured = |node: &&Drawn| is_printed(node) || wrong_shown(WIDEST_OF_ALL);
    let widest = nodes.iter().filter(is_measured).map(|node| node.indented().len()).max().unwrap_or(0);
    let widest = if wrong_shown(FIXED_COLUMN) { LEAST_COLUMNS } else { widest.max(LEAST_COLUMNS) };
    let line = |node: &Drawn| {
        let shown = format!("{:>1$} {2}", node.number, NUMBER_COLUMNS, node.indented());
        if node.marks.is_empty() {
            return shown + "\n";
        }
        format!("{:<1$}{2}\n", shown, NUMBER_COLUMNS + 1 + widest + GAP_COLUMNS, node.marks.join(", "))
    };
    let order = if wrong_shown(BY_NUMBERS) { (0..nodes.len()).collect() } else { branch(&nodes, 0) };
    Ok(order.iter().map(|&number| &nodes[number]).filter(is_printed).flat_map(|node| line(node).into_bytes()).collect())
}

/// The parts of the graph, a line each: nodes with their labels, the smaller node of each edge first; sorted, since their order is the
/// program's. What stands behind `\n` in a label are the marks.
pub fn graph_parts(profile: &[u8], question: &[u8], tree: &[u8]) -> Result<Vec<u8>, Refusal> {
    let (nodes, pairs) = match drawing(profile, question, tree)? {
        None => return Ok(b"kept\n".to_vec()),
        Some(parts) => parts,
    };
    let mut parts: Vec<String> = Vec::new();
    for node in nodes.iter().filter(|node| node.is_printed()) {
        let marks = if node.marks.is_empty() { String::new() } else { format!("\\n{}", node.marks.join(", ")) };
        parts.push(format!("node {}: {} {}{}\n", node.number, node.number, node.name, marks));
        parts.extend(node.parent.map(|parent| edge("below", parent, node.number)));
    }
    parts.extend(pairs.iter().map(|(text, x, y)| edge(text, *x, *y)));
    parts.sort();
    Ok(parts.concat().into_bytes())
}

/// A line of an edge or of an equal pair.
pub fn edge(text: &str, one: usize, other: usize) -> String {
    format!("{}: {} {}\n", text, one.min(other), one.max(other))
}
