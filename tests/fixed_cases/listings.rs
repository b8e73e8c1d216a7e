//! Trees: blocks of the listing. "First line: the word nodes and their number. Then number, parent, label, value; `-` for no
//! parent or no value. Block k is lines 1,024k to 1,024k + 1,023, past the end 0 bytes".
use super::expectations::Cases;
use super::drawn;
use super::nodes;
use super::notation::*;

pub fn put(cases: &mut Cases) {
    small(cases);
    values(cases);
    blocks_of_4096(cases);
    longest_lines(cases);
    block_ends(cases);
    refused(cases);
}

fn listed(cases: &mut Cases, name: &str, tree: &[u8], block: u32, text: &str) {
    cases.put_bytes(&format!("list: {}", name), list(&labels(BENCH), tree, block), "listed", text.as_bytes());
}

/// 01's print of the tree of b, from 01's own lines.
pub const LISTING_OF_B: &str = "nodes 12
0 - 203 -
1 0 202 1
2 0 3 -
3 2 202 3
4 2 4 -
5 4 202 5
6 4 7 6
7 0 3 -
8 7 202 8
9 7 4 -
10 9 202 10
11 9 7 6
";

/// The same tree as records of kind 5, byte by byte.
pub const BYTES_OF_B: &str = "0b 00 05 00 ff ff cb 00 00 00 00  0b 00 05 00 00 00 ca 01 00 00 00  0b 00 05 00 00 00 03 00 00 00 00
    0b 00 05 00 02 00 ca 03 00 00 00  0b 00 05 00 02 00 04 00 00 00 00  0b 00 05 00 04 00 ca 05 00 00 00
    0b 00 05 00 04 00 07 06 00 00 00  0b 00 05 00 00 00 03 00 00 00 00  0b 00 05 00 07 00 ca 08 00 00 00
    0b 00 05 00 07 00 04 00 00 00 00  0b 00 05 00 09 00 ca 0a 00 00 00  0b 00 05 00 09 00 07 06 00 00 00";

fn small(cases: &mut Cases) {
    listed(cases, "the tree of b", &hex(BYTES_OF_B), 0, LISTING_OF_B);
    listed(cases, "the tree of b as records of kind 3", &tree(drawn::B), 0, LISTING_OF_B);
    listed(cases, "the tree of b, block 1", &hex(BYTES_OF_B), 1, "");
    listed(cases, "a root alone", &tree(ROOT), 0, "nodes 1\n0 - 203 -\n");
    listed(cases, "a root alone, block 1", &tree(ROOT), 1, "");
    listed(cases, "a root alone, block 4294967295", &tree(ROOT), 4_294_967_295, "");
    for room in [65_536, 65_537] {
        let case = in_room(room, list(&labels(BENCH), &hex(BYTES_OF_B), 0));
        cases.put_bytes(&format!("list: in {} bytes", room), case, "listed", LISTING_OF_B.as_bytes());
    }
    let without_labels = list(&[], &tree("0 - 203 -/1 0 201 -/2 1 202 3/3 1 1 4"), 0);
    cases.put_bytes("list: without labels", without_labels, "listed", b"nodes 4\n0 - 203 -\n1 0 201 -\n2 1 202 3\n3 1 1 4\n");
}

/// "for attribute and text 0 is a value like any other"; an element has none.
fn values(cases: &mut Cases) {
    for (name, text) in [
        ("an attribute of value 0", "0 - 203 -/1 0 6 0"),
        ("a text of value 0", "0 - 203 -/1 0 1 0"),
        ("a filler attribute of value 0", "0 - 203 -/1 0 202 0"),
        ("values of one to five digits", "0 - 203 -/1 0 6 9/2 0 6 10/3 0 6 99/4 0 6 100/5 0 1 1000/6 0 7 10000/7 0 202 65535"),
        ("values with zeros within", "0 - 203 -/1 0 6 101/2 0 6 2000/3 0 1 60005/4 0 1 256/5 0 1 255"),
        ("elements have no value", "0 - 203 -/1 0 2 -/2 0 201 -/3 2 3 -/4 3 5 -"),
        ("parents of two digits", "0 - 203 -/1 0 2 -/2 1 2 -/3 2 2 -/4 3 2 -/5 4 2 -/6 5 2 -/7 6 2 -/8 7 2 -/9 8 2 -/10 9 2 -/11 10 6 0"),
    ] {
        let nodes = text.matches('/').count() + 1;
        let print = format!("nodes {}\n{}\n", nodes, text.replace('/', "\n"));
        listed(cases, name, &tree(text), 0, &print);
    }
    for (name, text) in [
        ("a value of 4294967295", "0 - 203 -/1 0 6 4294967295/2 0 1 4294967295/3 0 202 4294967295"),
        ("values around 65536", "0 - 203 -/1 0 6 65535/2 0 6 65536/3 0 6 65537/4 0 6 131071/5 0 1 99999/6 0 1 100000"),
        ("values of seven to ten digits", "0 - 203 -/1 0 6 9999999/2 0 6 10000000/3 0 7 16777216/4 0 1 999999999/5 0 1 1000000000"),
    ] {
        let nodes = text.matches('/').count() + 1;
        listed(cases, name, &wide_tree(text), 0, &format!("nodes {}\n{}\n", nodes, text.replace('/', "\n")));
    }
    let high: Labels = &[(100, 1, "a"), (200, 2, "b")];
    let case = list(&labels(high), &tree("0 - 203 -/1 0 100 -/2 1 200 7"), 0);
    cases.put_bytes("list: labels 100 and 200", case, "listed", b"nodes 3\n0 - 203 -\n1 0 100 -\n2 1 200 7\n");
}

/// A chain of runs, of kind 3.
fn chain(count: usize) -> Vec<u8> {
    nodes::chain(KIND_3, count)
}

/// The lines of some nodes of a chain of runs: node n has parent n - 1 and label 2. Not for node 0.
fn chain_lines(nodes: std::ops::Range<usize>) -> String {
    nodes.map(|number| format!("{} {} 2 -\n", number, number - 1)).collect()
}

/// Line 0 is the `nodes` line, so node n is line n + 1: 4,096 nodes have 4,097 lines, which are five blocks.
fn blocks_of_4096(cases: &mut Cases) {
    let full = chain(4_096);
    let first = format!("nodes 4096\n0 - 203 -\n{}", chain_lines(1..1_023));
    for (block, text) in [
        (0, first),
        (1, chain_lines(1_023..2_047)),
        (2, chain_lines(2_047..3_071)),
        (3, chain_lines(3_071..4_095)),
        (4, "4095 4094 2 -\n".to_string()),
        (5, String::new()),
        (6, String::new()),
        (4_194_304, String::new()),
        (4_294_967_295, String::new()),
    ] {
        listed(cases, &format!("4,096 nodes, block {}", block), &full, block, &text);
    }
}

/// 4,095 attributes of the longest value below the root: a block of the longest lines.
fn longest_lines(cases: &mut Cases) {
    let leaves: Vec<String> = (1..4_096).map(|number| format!("{} 0 202 4294967295", number)).collect();
    let tree = joined(&[&wide_tree(ROOT), &leaves.iter().flat_map(|line| KIND_5.node(line)).collect::<Vec<u8>>()]);
    let lines: Vec<String> = ["nodes 4096".to_string(), ROOT.to_string()].into_iter().chain(leaves).collect();
    for (block, part) in lines.chunks(1_024).enumerate() {
        listed(cases, &format!("4,095 longest values, block {}", block), &tree, block as u32, &(part.join("\n") + "\n"));
    }
    listed(cases, "4,095 longest values, block 5", &tree, 5, "");
}

/// 1,023 nodes have 1,024 lines, which fill block 0.
fn block_ends(cases: &mut Cases) {
    let first = |nodes: usize| format!("nodes {}\n0 - 203 -\n{}", nodes, chain_lines(1..nodes.min(1_023)));
    for (nodes, second) in [(1_022, ""), (1_023, ""), (1_024, "1023 1022 2 -\n"), (1_025, "1023 1022 2 -\n1024 1023 2 -\n")] {
        listed(cases, &format!("{} nodes, block 0", nodes), &chain(nodes), 0, &first(nodes));
        listed(cases, &format!("{} nodes, block 1", nodes), &chain(nodes), 1, second);
        listed(cases, &format!("{} nodes, block 2", nodes), &chain(nodes), 2, "");
    }
    listed(cases, "2,047 nodes, block 2", &chain(2_047), 2, "");
    listed(cases, "2,048 nodes, block 2", &chain(2_048), 2, "2047 2046 2 -\n");
}

/// A block past the end of a refused tree is refused too, and 14 comes before all. (More trees: nodes.rs.)
fn refused(cases: &mut Cases) {
    let (sound, bad) = (tree(ROOT), tree("0 - 203 -/1 0 2 1"));
    for block in [0, 1, 5] {
        let put = |cases: &mut Cases, name: &str, profile: &[u8], tree: &[u8], wanted: &str| {
            cases.put(&format!("list: {}, block {}", name, block), list(profile, tree, block), wanted);
        };
        put(cases, "a node is refused", &labels(BENCH), &bad, "refused 8 3 1");
        put(cases, "an empty tree", &labels(BENCH), &[], "refused 8 3 0");
        put(cases, "a tree over its size", &labels(BENCH), &chain(4_097), "refused 7 3 0");
        put(cases, "a label that the profile lacks", &[], &tree("0 - 203 -/1 0 2 -"), "refused 8 3 1");
        put(cases, "a refused profile", &[9], &sound, "refused 1 1 0");
        put(cases, "a profile over its size", &vec![0; 16_385], &sound, "refused 7 1 0");
        put(cases, "a profile whose key is refused", &profile(&["(e,(run,{}))"]), &sound, "refused 5 1 6");
        put(cases, "a refused profile before a refused tree", &[9], &[], "refused 1 1 0");
        let short = in_room(65_535, list(&[9], &[], block));
        cases.put(&format!("list: a short answer buffer, block {}", block), short, "refused 14 4 0");
    }
}
