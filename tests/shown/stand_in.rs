//! The reference in the place of the programs, so that the runner can be tried where none is built.
use crate::reference::operations::{decide, read_line, trim, Decision};
use crate::reference::records::{Refusal, ANSWER_BYTES};
use crate::reference::shown::{refused_line, shown, Printed, Showing};
use std::fs::{read, write};
use std::io::Write;

const SHOWINGS: [Showing; 7] =
    [Showing::Profile, Showing::Made, Showing::Proof, Showing::Tree, Showing::All, Showing::Dot, Showing::Advice];

/// A graph of the parts, with a legend.
fn graph_of(parts: &[u8]) -> Vec<u8> {
    let text = String::from_utf8_lossy(parts).to_string();
    if !text.starts_with("below: ") && !text.starts_with("equal by ") && !text.starts_with("node ") {
        return parts.to_vec();
    }
    let statement = |line: &str| match line.split_once(": ") {
        Some((node, label)) if node.starts_with("node ") => format!("  n{} [label=\"{}\"];\n", &node[5..], label),
        Some(("below", ids)) => format!("  n{};\n", ids.replace(' ', " -- n")),
        Some((text, ids)) => format!("  n{} [style=dashed, label=\"{}\"];\n", ids.replace(' ', " -- n"), text),
        None => String::new(),
    };
    let statements: String = text.lines().map(statement).collect();
    let legend = "  subgraph cluster_legend {\n    label=\"legend\";\n    n_context [label=\"context\"];\n  }\n";
    format!("graph tree {{\n  graph [rankdir=TB];\n{}{}}}\n", statements, legend).into_bytes()
}

/// The bytes go to OUT, and their number is printed behind the word.
fn filled(word: &str, out: &str, answer: Result<Vec<u8>, Refusal>) -> Vec<u8> {
    match answer {
        Err(refusal) => refused_line(&refusal),
        Ok(bytes) if write(out, &bytes).is_err() => b"unwritable\n".to_vec(),
        Ok(bytes) => format!("{} {}\n", word, bytes.len()).into_bytes(),
    }
}

fn decided(inputs: &[Vec<u8>], out: &str) -> Vec<u8> {
    match decide(&inputs[0], &inputs[1], ANSWER_BYTES) {
        Err(refusal) => filled("", out, Err(refusal)),
        Ok(Decision::Implied(proof)) => filled("implied", out, Ok(proof)),
        Ok(Decision::NotImplied(tree)) => filled("not implied", out, Ok(tree)),
    }
}

fn drawn(showing: Showing, inputs: &[Vec<u8>], out: Option<&&str>) -> Vec<u8> {
    let Printed { text, out: made } = shown(showing, inputs);
    match (showing, made, out) {
        (Showing::Dot, _, _) => graph_of(&text),
        (_, Some(bytes), Some(out)) if write(out, &bytes).is_err() => b"unwritable\n".to_vec(),
        _ => text,
    }
}

/// What the program of these words prints; none where the words are wrong.
fn said(words: &[&str]) -> Option<Vec<u8>> {
    let showing = SHOWINGS.iter().copied().find(|showing| words.starts_with(showing.words()));
    let (first, files, has_out) = match (showing, words) {
        (Some(showing), _) => (showing.words().len(), showing.inputs().len(), showing == Showing::Made),
        (None, ["decide", ..]) => (1, 2, true),
        (None, ["trim", ..]) => (1, 3, true),
        (None, ["text", "key", ..]) => (2, 2, true),
        _ => return None,
    };
    let names = words.get(first..first + files).filter(|_| words.len() == first + files + has_out as usize)?;
    let mut inputs = Vec::new();
    for name in names {
        match read(name) {
            Ok(bytes) => inputs.push(bytes),
            Err(_) => return Some(format!("unreadable {}\n", name).into_bytes()),
        }
    }
    let out = words.last().filter(|_| has_out);
    Some(match (showing, words, out) {
        (Some(showing), _, out) => drawn(showing, &inputs, out),
        (None, ["decide", ..], Some(out)) => decided(&inputs, out),
        (None, ["trim", ..], Some(out)) => filled("trimmed", out, trim(&inputs[0], &inputs[1], &inputs[2], ANSWER_BYTES)),
        (None, _, Some(out)) => filled("key", out, read_line(&inputs[0], &inputs[1], ANSWER_BYTES)),
        _ => return None,
    })
}

pub fn answer(words: &[&str]) -> Option<bool> {
    let text = said(words).unwrap_or_else(|| b"usage: by the reference\n".to_vec());
    Some(std::io::stdout().write_all(&text).is_ok())
}
