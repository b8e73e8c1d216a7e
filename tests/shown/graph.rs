//! Reads a graph for Graphviz loosely: nodes, edges, equal pairs, and whether its braces balance. Colours and shapes are not looked at.
use crate::reference::drawn::edge;

const BEGINNING: &str = "graph tree {";
const LEGEND: &str = "subgraph cluster_legend {";

/// How many braces are open behind a text; none where one is closed that is not open. Those in quotes do not count.
fn open_braces(text: &str) -> Option<usize> {
    let mut open: usize = 0;
    let mut is_quoted = false;
    for sign in text.chars() {
        match sign {
            '"' => is_quoted = !is_quoted,
            '{' if !is_quoted => open += 1,
            '}' if !is_quoted => open = open.checked_sub(1)?,
            _ => {}
        }
    }
    Some(open).filter(|_| !is_quoted)
}

/// The number of a node's id: `n12`.
fn number(id: &str) -> Option<usize> {
    let digits = id.strip_prefix('n')?;
    let number = digits.parse::<usize>().ok()?;
    Some(number).filter(|number| number.to_string() == digits)
}

/// The text of a node or an edge, between the quotes; an edge may have it as `xlabel`.
fn label(list: &str) -> Option<&str> {
    let (_, rest) = list.split_once("label=\"")?;
    rest.split_once('"').map(|(text, _)| text)
}

/// The part that a line of the graph states, if it does: a node, an edge, or an equal pair, whose text may have spaces around it.
fn part(line: &str) -> Option<String> {
    let statement = line.trim().strip_suffix(';')?;
    let (ids, list) = statement.split_once('[').unwrap_or((statement, ""));
    match ids.trim().split_once(" -- ") {
        None => Some(format!("node {}: {}\n", number(ids.trim())?, label(list)?)),
        Some((one, other)) if list.is_empty() => Some(edge("below", number(one)?, number(other)?)),
        Some((one, other)) if list.contains("style=dashed") => Some(edge(label(list)?.trim(), number(one)?, number(other)?)),
        Some(_) => None,
    }
}

/// The lines that state the tree: those of the legend are left out.
fn without_legend(text: &str) -> Option<String> {
    let (before, behind) = text.split_once(LEGEND)?;
    let lines: Vec<&str> = behind.lines().collect();
    let end = (0..=lines.len()).find(|&end| open_braces(&format!("{{\n{}", lines[..end].join("\n"))) == Some(0))?;
    Some(format!("{}{}", before, lines[end..].join("\n")))
}

/// The parts of a graph as `drawn::graph_parts` has them; any other text as it is.
pub fn parts(text: &[u8]) -> Vec<u8> {
    let graph = String::from_utf8_lossy(text).to_string();
    if !graph.starts_with(BEGINNING) {
        return text.to_vec();
    }
    if open_braces(&graph) != Some(0) || !graph.ends_with("}\n") {
        return b"braces or quotes do not balance\n".to_vec();
    }
    let stated = match without_legend(&graph) {
        None => return b"no legend\n".to_vec(),
        Some(stated) => stated,
    };
    // What begins as a statement of the tree and is none stays as it is, which no reference has.
    let begins = |line: &str| line.trim().strip_prefix('n').map_or(false, |rest| rest.starts_with(char::is_numeric));
    let is_odd = |line: &&str| begins(line) && part(line).is_none();
    let odd = stated.lines().filter(is_odd).map(|line| format!("odd: {}\n", line));
    let mut parts: Vec<String> = stated.lines().filter_map(part).chain(odd).collect();
    parts.sort();
    parts.concat().into_bytes()
}
