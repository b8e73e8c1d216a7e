//! The listing of a tree, in blocks of lines (01, "The listing program").
use super::paths::{Class, Classes};
use super::records::{Node, NONE};
use super::wrong;

pub const BLOCK_LINES: usize = 1_024;

/// All lines, each with its newline: "the word nodes and their number. Then number, parent, label,
/// value; `-` for no parent or no value."
pub fn lines(nodes: &[Node], classes: &Classes) -> Vec<String> {
    let mut lines = vec![format!("nodes {}\n", nodes.len())];
    for (number, node) in nodes.iter().enumerate() {
        let parent = if node.parent == NONE { "-".to_string() } else { node.parent.to_string() };
        let is_element = classes.of(node.label) == Some(Class::Element);
        let value = if is_element { "-".to_string() } else { node.value.to_string() };
        lines.push(format!("{} {} {} {}\n", number, parent, node.label, value));
    }
    lines
}

/// "Block k is lines 1,024k to 1,024k + 1,023, past the end 0 bytes."
pub fn block_of(lines: &[String], k: u64) -> Vec<u8> {
    let size = if wrong(11) { BLOCK_LINES - 1 } else { BLOCK_LINES };
    let from = k.saturating_mul(BLOCK_LINES as u64).min(usize::MAX as u64) as usize;
    lines.iter().skip(from).take(size).flat_map(|line| line.bytes()).collect()
}

pub fn block(nodes: &[Node], classes: &Classes, k: u64) -> Vec<u8> {
    block_of(&lines(nodes, classes), k)
}
