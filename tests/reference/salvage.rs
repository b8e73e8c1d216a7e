//! Salvage of a cut export (02, request 7): what becomes of each record of the damaged file, as a list; then a second pass that numbers the
//! kept ones again.
use super::listing::block_of;
use super::paths::{Class, ROOT};
use super::records::*;
use super::trees::Tree;
use super::wrong;

/// The numbers in `WRONG_LINES`.
const NEW_PARENTS: usize = 29;
const DROPPED_COUNTS: usize = 30;
const STOPS_AT_2: usize = 31;

/// A record of the damaged file. A dropped one has its reason and, where it is a node record, what it says.
#[derive(Clone, Copy, PartialEq, Eq, Debug)]
pub enum Outcome {
    Kept(Node),
    Dropped(u32, Option<Node>),
}

impl Outcome {
    fn kept(&self) -> Option<Node> {
        match self {
            Outcome::Kept(node) => Some(*node),
            Outcome::Dropped(_, _) => None,
        }
    }
}

/// What is left of a damaged file: the kind of its records, the nodes that are kept with their new parents, and each dropped record with
/// its reason.
#[derive(Clone, PartialEq, Eq, Debug)]
pub struct Salvage {
    pub kind: u16,
    pub nodes: Vec<Node>,
    pub dropped: Vec<(usize, u32)>,
}

/// The node that a parent number names: "Parent numbers are read as record numbers of the damaged file, spoiled records counted."
fn named(outcomes: &[Outcome], parent: u16) -> Option<Node> {
    if wrong(NEW_PARENTS) {
        return outcomes.iter().filter_map(Outcome::kept).nth(parent as usize);
    }
    outcomes.get(parent as usize).and_then(Outcome::kept)
}

/// Whether refusal 8 is due: "parent, label or value not as above; parent is attribute or text", "one whose parent is not kept has
/// reason 8".
fn has_node_fault(node: &Node, outcomes: &[Outcome], profile: &Profile) -> bool {
    let is_first = outcomes.is_empty();
    let parent_fits = match named(outcomes, node.parent) {
        Some(parent) => profile.classes.of(parent.label) == Some(Class::Element),
        None => is_first && node.parent == NONE,
    };
    let label_and_value_fit = match profile.classes.of(node.label) {
        None => false,
        Some(Class::Element) => node.value == 0,
        Some(_) => true,
    };
    !parent_fits || !label_and_value_fit || (node.label == ROOT) != is_first
}

/// Whether refusal 16 is due: of the records kept so far one has this attribute's name under the same parent.
fn repeats(node: &Node, outcomes: &[Outcome], profile: &Profile) -> bool {
    let counted = |outcome: &Outcome| match outcome {
        Outcome::Kept(other) => Some(*other),
        Outcome::Dropped(_, other) => other.filter(|_| wrong(DROPPED_COUNTS)),
    };
    let before: Vec<Node> = match (profile.edition, profile.classes.of(node.label)) {
        (SECOND_EDITION, Some(Class::Attribute)) => outcomes.iter().filter_map(counted).collect(),
        _ => return false,
    };
    is_repeated(node, &before, profile)
}

/// Record after record, "judged in order against those kept so far": 1, which ends it, then 2, 8, 16.
pub fn outcomes(bytes: &[u8], kind: u16, profile: &Profile) -> Vec<Outcome> {
    let mut all: Vec<Outcome> = Vec::new();
    let mut rest = bytes;
    while !rest.is_empty() {
        let (found, body, after) = match first_record(rest) {
            None => {
                all.push(Outcome::Dropped(1, None));
                return all;
            }
            Some(parts) => parts,
        };
        if found != kind {
            all.push(Outcome::Dropped(2, None));
            if wrong(STOPS_AT_2) {
                return all;
            }
            rest = after;
            continue;
        }
        let node = read_node(body);
        let next = if has_node_fault(&node, &all, profile) {
            Outcome::Dropped(8, Some(node))
        } else if repeats(&node, &all, profile) {
            Outcome::Dropped(16, Some(node))
        } else {
            Outcome::Kept(node)
        };
        all.push(next);
        rest = after;
    }
    all
}

/// "Renumbers the rest in order": a kept record's new number is how many are kept before it.
fn renumbered(outcomes: &[Outcome]) -> Vec<Node> {
    let mut numbers = Vec::new();
    let mut count = 0;
    for outcome in outcomes {
        numbers.push(count);
        count += outcome.kept().is_some() as u16;
    }
    let new = |parent: u16| if parent == NONE || wrong(NEW_PARENTS) { parent } else { numbers[parent as usize] };
    outcomes.iter().filter_map(Outcome::kept).map(|node| Node { parent: new(node.parent), ..node }).collect()
}

/// "A file over its size gives 7, one without a valid node 0 gives 8, both with no output."
pub fn salvaged(bytes: &[u8], profile: &Profile) -> Result<Salvage, Refusal> {
    let (kind, most_bytes) = tree_kind(bytes);
    if bytes.len() > most_bytes {
        return refuse(7, TREE_OR_PROOF, 0);
    }
    let outcomes = outcomes(bytes, kind, profile);
    if outcomes.first().and_then(Outcome::kept).is_none() {
        return refuse(8, TREE_OR_PROOF, 0);
    }
    let reason = |(record, outcome): (usize, &Outcome)| match outcome {
        Outcome::Kept(_) => None,
        Outcome::Dropped(reason, _) => Some((record, *reason)),
    };
    let dropped = outcomes.iter().enumerate().filter_map(reason).collect();
    Ok(Salvage { kind, nodes: renumbered(&outcomes), dropped })
}

/// "`salvaged` and the number dropped, then a line each: record, reason"; then, "Keys are judged over what is left", for each broken key of
/// the profile in order `broken`, its number and the first witness. Each with its newline.
pub fn salvage_lines(salvage: &Salvage, profile: &Profile) -> Vec<String> {
    let mut lines = vec![format!("salvaged {}\n", salvage.dropped.len())];
    lines.extend(salvage.dropped.iter().map(|(record, reason)| format!("{} {}\n", record, reason)));
    let tree = Tree::new(&salvage.nodes, &profile.classes);
    for (number, key) in profile.keys.iter().enumerate() {
        if let Some(witness) = tree.first_witness(key) {
            let numbers: Vec<String> = witness.iter().map(|node| node.to_string()).collect();
            lines.push(format!("broken {} {}\n", number, numbers.join(" ")));
        }
    }
    lines
}

/// "It is asked for in blocks of 1,024 lines, as the listing of 01."
pub fn salvage_block(salvage: &Salvage, profile: &Profile, k: u64) -> Vec<u8> {
    block_of(&salvage_lines(salvage, profile), k)
}
