//! The files of a campaign: so many segments of the bench as records and as XML, a profile of 64 keys and a schema with as many `xs:unique`.
//!
//! campaign FOLDER COUNT   writes profile.key, list (the segments' names, one a line), NUMBER.tree, NUMBER.xml and keys64.xsd
#![allow(dead_code)]
#[path = "../tests/reference/mod.rs"]
mod reference;
mod trees;
mod xml;

use reference::examples::bench_profile;
use reference::paths::{ROOT, TEXT};
use reference::records::{write_tree, Node, NODE_KIND, NONE, PROFILE_KEYS, TREE_NODES};
use std::fmt::Write;
use std::fs;
use std::path::Path;
use trees::{ports, segment_keys, FRAMES};

const PORT: u8 = 3;
const FRAME: u8 = 4;
const STAMP: u8 = 5;
const ID: u8 = 6;
const SEQ: u8 = 7;
/// What 24 full ports leave of 4,096 nodes is one more with so many frames.
const LAST_FRAMES: usize = 17;

/// How many frames each port of a segment has.
fn frames() -> Vec<usize> {
    let mut all = vec![FRAMES; ports(TREE_NODES)];
    all.push(LAST_FRAMES);
    all
}

/// As `trees::segment`, with 4,096 nodes to the last; every value begins at `first`, so that no two segments are the same bytes.
fn tree(first: usize) -> Vec<u8> {
    let mut nodes = vec![Node { parent: NONE, label: ROOT, value: 0 }];
    let mut add = |parent: usize, label: u8, value: usize| {
        nodes.push(Node { parent: parent as u16, label, value: value as u32 });
        nodes.len() - 1
    };
    for (number, frames) in frames().into_iter().enumerate() {
        let port = add(0, PORT, 0);
        add(port, ID, first + number);
        for seq in 0..frames {
            let frame = add(port, FRAME, 0);
            add(frame, ID, first + FRAMES * number + seq);
            add(frame, SEQ, first + seq);
            let stamp = add(frame, STAMP, 0);
            add(stamp, TEXT, first + seq);
        }
    }
    assert_eq!(nodes.len(), TREE_NODES);
    write_tree(&nodes, NODE_KIND)
}

/// The same segment for a validator of XML.
fn trace(first: usize) -> String {
    let mut text = String::from("<?xml version=\"1.0\"?>\n<trace>\n");
    for (number, frames) in frames().into_iter().enumerate() {
        writeln!(text, "<port id=\"{}\">", first + number).unwrap();
        for seq in 0..frames {
            let id = first + FRAMES * number + seq;
            writeln!(text, "<frame id=\"{}\" seq=\"{}\"><stamp>{}</stamp></frame>", id, first + seq, first + seq).unwrap();
        }
        text.push_str("</port>\n");
    }
    text.push_str("</trace>\n");
    text
}

fn main() {
    let words: Vec<String> = std::env::args().skip(1).collect();
    let (folder, count) = match &words[..] {
        [folder, count] => (Path::new(folder), count.parse::<usize>().expect("COUNT is a number")),
        _ => panic!("usage: campaign FOLDER COUNT"),
    };
    let put = |name: &str, bytes: &[u8]| fs::write(folder.join(name), bytes).expect("the folder takes files");
    let keys = segment_keys();
    let keys: Vec<&str> = keys.iter().map(String::as_str).collect();
    assert_eq!(keys.len(), PROFILE_KEYS);
    put("profile.key", &bench_profile(&keys));
    xml::write_all(folder);
    let mut list = String::new();
    for number in 0..count {
        put(&format!("{}.tree", number), &tree(number));
        put(&format!("{}.xml", number), trace(number).as_bytes());
        writeln!(list, "{}.tree", number).unwrap();
    }
    put("list", list.as_bytes());
}
