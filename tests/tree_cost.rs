//! Trees on which a careless tree test would take hours, each of 512 and of 4,096 nodes: the tests of keys on them must give 01's verdict,
//! with the first witness where a key is broken, and end. Times and their ratio are printed and held to nothing but a limit against hanging.
//!
//! tree_cost RUN FOLDER    RUN is tests/run_program.sh; FOLDER takes the files
//!
//! Labels are those of the bench examples. Each verdict is derived by hand beside its case.
mod reference;

use reference::examples::{bench_profile_of, question};
use reference::paths::{FILLER_ATTRIBUTE, ROOT, TEXT};
use reference::records::{write_tree, Node, FIRST_EDITION, NODE_KIND, NONE, SECOND_EDITION, TREE_NODES};
use std::fs;
use std::path::Path;
use std::process::{Child, Command, Stdio};
use std::thread::sleep;
use std::time::{Duration, Instant};

const RUN: u8 = 2;
const PORT: u8 = 3;
const FRAME: u8 = 4;
const STAMP: u8 = 5;
const ID: u8 = 6;
const SEQ: u8 = 7;

const FEW_NODES: usize = 512;
/// Nothing here should take more than seconds, even emulated on a busy machine.
const LIMIT: Duration = Duration::from_secs(240);
const PAUSE: Duration = Duration::from_millis(2);

struct Table {
    nodes: Vec<Node>,
}

impl Table {
    fn new() -> Table {
        Table { nodes: vec![Node { parent: NONE, label: ROOT, value: 0 }] }
    }

    fn add(&mut self, parent: usize, label: u8, value: usize) -> usize {
        self.nodes.push(Node { parent: parent as u16, label, value: value as u32 });
        self.nodes.len() - 1
    }

    fn element(&mut self, parent: usize, label: u8) -> usize {
        self.add(parent, label, 0)
    }

    /// An element whose @id is equal everywhere and whose @seq is different everywhere.
    fn dressed(&mut self, parent: usize, label: u8) -> usize {
        let element = self.element(parent, label);
        self.add(element, ID, 1);
        self.add(element, SEQ, element);
        element
    }
}

/// An element and its two attributes.
const DRESSED: usize = 3;

/// Each element stands below the one before.
fn chain(nodes: usize) -> Table {
    let mut table = Table::new();
    let mut last = 0;
    for _ in 1..nodes {
        last = table.element(last, RUN);
    }
    table
}

fn dressed_chain(nodes: usize) -> Table {
    let mut table = Table::new();
    let mut last = 0;
    for _ in 0..(nodes - 1) / DRESSED {
        last = table.dressed(last, RUN);
    }
    table
}

/// A chain with one leaf at each element.
fn comb(nodes: usize, tooth: u8, different: bool) -> Table {
    let mut table = Table::new();
    let mut last = 0;
    for i in 0..(nodes - 1) / 2 {
        last = table.element(last, RUN);
        table.add(last, tooth, if different { i } else { 0 });
    }
    table
}

fn dressed_comb(nodes: usize) -> Table {
    let mut table = Table::new();
    let mut last = 0;
    for _ in 0..(nodes - 1) / (2 * DRESSED) {
        last = table.dressed(last, RUN);
        table.dressed(last, PORT);
    }
    table
}

/// Leaves below the root.
fn star(nodes: usize, leaf: u8, different: bool) -> Table {
    let mut table = Table::new();
    for i in 1..nodes {
        table.add(0, leaf, if different { i } else { 0 });
    }
    table
}

fn dressed_star(nodes: usize) -> Table {
    let mut table = Table::new();
    for _ in 0..(nodes - 1) / DRESSED {
        table.dressed(0, PORT);
    }
    table
}

/// Two ports, each with many @id, all equal, and as many @seq, all different: many pairs of equal nodes belong to one pair of targets.
fn twins(nodes: usize) -> Table {
    let mut table = Table::new();
    for _ in 0..2 {
        let port = table.element(0, PORT);
        for _ in 0..(nodes - 3) / 4 {
            let different = table.nodes.len();
            table.add(port, ID, 1);
            table.add(port, SEQ, different);
        }
    }
    table
}

/// A chain, and at its end many frames, each with one port: equal targets at the end of long runs of labels.
fn broom(nodes: usize) -> Table {
    let mut table = chain(nodes / 2);
    let last = table.nodes.len() - 1;
    for _ in 0..nodes / 4 {
        let frame = table.element(last, FRAME);
        table.element(frame, PORT);
    }
    table
}

/// Ports with one frame each, and all frames are equal: many pairs that agree, and no context that two of them share.
fn ports_of_one(nodes: usize) -> Table {
    let mut table = Table::new();
    for _ in 0..(nodes - 1) / 3 {
        let port = table.element(0, PORT);
        let frame = table.element(port, FRAME);
        table.add(frame, SEQ, 0);
    }
    table
}

/// A frame with two attributes, its stamp and the stamp's two.
const GRID_NODES: usize = 6;
const GRID_VALUES: usize = 6;

/// Frames with four values out of six each, as the digits of their number: any three of them are shared by many, all four by none.
fn grid(nodes: usize) -> Table {
    let mut table = Table::new();
    for number in 0..(nodes - 1) / GRID_NODES {
        let digit = |place: u32| number / GRID_VALUES.pow(place) % GRID_VALUES;
        let frame = table.element(0, FRAME);
        table.add(frame, ID, digit(0));
        table.add(frame, SEQ, digit(1));
        let stamp = table.element(frame, STAMP);
        table.add(stamp, ID, digit(2));
        table.add(stamp, SEQ, digit(3));
    }
    table
}

/// Frames with two @id and two @seq. Every other frame has one @id that all of these have; the frames between have one @seq that all of those have.
fn shared_by_half(nodes: usize) -> Table {
    let mut table = Table::new();
    for number in 0..(nodes - 1) / 5 {
        let frame = table.element(0, FRAME);
        let own = 4 * number + 1;
        let (id, seq) = if number % 2 == 0 { (0, own + 3) } else { (own + 3, 0) };
        table.add(frame, ID, id);
        table.add(frame, ID, own);
        table.add(frame, SEQ, own + 1);
        table.add(frame, SEQ, seq);
    }
    table
}

/// So many attributes, no two of them equal, from the first or from the last.
fn add_attributes(table: &mut Table, parent: usize, count: usize, reversed: bool) {
    for i in 0..count {
        table.add(parent, SEQ, if reversed { count - 1 - i } else { i });
    }
}

/// Two chains, each over one element with as many attributes as the chain has elements; the second has them from the last to the first. If
/// that element were compared anew for each ancestor, it would be 1,023 times 2 * 1,023 * 1,023 comparisons of attributes.
fn fat_twin_chains(nodes: usize) -> Table {
    let mut table = Table::new();
    for reversed in [false, true] {
        let mut last = 0;
        for _ in 0..(nodes - 1) / 4 {
            last = table.element(last, RUN);
        }
        add_attributes(&mut table, last, (nodes - 1) / 4, reversed);
    }
    table
}

/// Two elements with all attributes of the tree, in two orders.
fn fat_twins(nodes: usize) -> Table {
    let mut table = Table::new();
    for reversed in [false, true] {
        let element = table.element(0, RUN);
        add_attributes(&mut table, element, (nodes - 3) / 2, reversed);
    }
    table
}

/// Elements, then an @id of each, a @seq of each and a filler attribute of each: in edition 2 a repeated name is looked for from far behind.
fn attributes_apart(nodes: usize) -> Table {
    let mut table = Table::new();
    let elements = (nodes - 1) / 4;
    for _ in 0..elements {
        table.element(0, PORT);
    }
    for name in [ID, SEQ, FILLER_ATTRIBUTE] {
        for element in 1..=elements {
            let different = table.nodes.len();
            table.add(element, name, different);
        }
    }
    table
}

const TEXTS: usize = 5;

/// Chains that differ at their ends in the order of the texts alone: nodes with equally many nodes below them and, order apart, the same ones.
fn orders(nodes: usize) -> Table {
    const CHAINS: usize = 32;
    let mut table = Table::new();
    for number in 0..CHAINS {
        let mut last = 0;
        for _ in 0..(nodes - 1) / CHAINS - TEXTS {
            last = table.element(last, RUN);
        }
        let mut left: Vec<usize> = (0..TEXTS).collect();
        let mut choice = number;
        while !left.is_empty() {
            let text = left.remove(choice % left.len());
            choice /= left.len() + 1;
            table.add(last, TEXT, text);
        }
    }
    table
}

const FRAMES: usize = 33;
/// A port with its @id; its frames have two attributes, a stamp and the stamp's text.
const PORT_NODES: usize = 2 + 5 * FRAMES;

/// A segment of a bench campaign: at 4,096 nodes 24 ports. @id is a frame's own in the whole tree; @seq and stamp are its own in its port.
fn segment(nodes: usize) -> Table {
    let mut table = Table::new();
    for number in 0..(nodes - 1) / PORT_NODES {
        let port = table.element(0, PORT);
        table.add(port, ID, number);
        for seq in 0..FRAMES {
            let frame = table.element(port, FRAME);
            table.add(frame, ID, FRAMES * number + seq);
            table.add(frame, SEQ, seq);
            let stamp = table.element(frame, STAMP);
            table.add(stamp, TEXT, seq);
        }
    }
    table
}

/// Keys that every segment keeps: below one port any of these key paths tells two frames apart, and in the whole tree @id does.
fn segment_keys() -> Vec<String> {
    const OF_A_FRAME: [&str; 4] = ["@id", "@seq", "stamp", "stamp.#"];
    const OF_A_PORT: [(&str, &str); 4] = [("port", "frame"), ("port", "_*.frame"), ("_*.port", "frame"), ("_*.port", "_*.frame")];
    const OF_THE_TREE: [&str; 4] = ["(e,(port.frame,{@id}))", "(e,(_*.frame,{@id}))", "(_*,(frame,{@id}))", "(_*,(_*.frame,{@id}))"];
    let mut keys: Vec<String> = OF_THE_TREE.iter().map(|key| key.to_string()).collect();
    for (context, target) in OF_A_PORT {
        for chosen in 1..1 << OF_A_FRAME.len() {
            let held = |i: &usize| chosen >> i & 1 == 1;
            let set: Vec<&str> = (0..OF_A_FRAME.len()).filter(held).map(|i| OF_A_FRAME[i]).collect();
            keys.push(format!("({},({},{{{}}}))", context, target, set.join(",")));
        }
    }
    keys
}

/// Context, the two targets and the pair of the one key path (02, request 9), by the number of nodes that the tree was asked to have.
type Witness = fn(usize) -> [usize; 5];

/// One tree tested against one key by `profile keep`, or against a whole profile and then the question by `checker tree`.
struct Case {
    name: &'static str,
    edition: u8,
    profile: Vec<String>,
    question: &'static str,
    tree: fn(usize) -> Table,
    wanted: &'static str,
    witness: Option<Witness>,
}

const EVERYWHERE: &str = "(_*,(_*,{e}))";
const EQUAL_AND_DIFFERENT: &str = "(_*,(_*,{@id,@seq}))";
/// Three key paths that are equal wherever they lead, and a last one that never is.
const LONG_PATHS: &str =
    "(_*,(_*,{@id,run.run.run.run.run.run.@id,run.run.run.run.run.run.run.@id,run.run.run.run.run.run.run.@seq}))";

fn kept(name: &'static str, question: &'static str, tree: fn(usize) -> Table) -> Case {
    Case { name, edition: FIRST_EDITION, profile: Vec::new(), question, tree, wanted: "kept", witness: None }
}

fn broken(name: &'static str, question: &'static str, tree: fn(usize) -> Table, witness: Witness) -> Case {
    Case { wanted: "broken", witness: Some(witness), ..kept(name, question, tree) }
}

/// Two equal runs below the root, the first of them node 1.
fn of_runs(second: usize) -> [usize; 5] {
    [0, 1, second, 1, second]
}

fn cases() -> Vec<Case> {
    let mut cases = vec![
        // One node has no other: what the start of a program takes.
        kept("root alone", EVERYWHERE, |_| Table::new()),
        // Frames of two ports agree, and no port reaches both; below one port @seq differs.
        kept("segment, one key", "(port,(frame,{@seq}))", segment),
        // No two elements of a chain have equally many nodes below them.
        kept("chain, {.}", EVERYWHERE, chain),
        // Two teeth without anything below them are equal, and the root reaches both.
        broken("comb of equal teeth, {.}", EVERYWHERE, |n| comb(n, PORT, false), |_| [0, 2, 4, 2, 4]),
        // No two teeth are equal, and no two elements have equally many nodes below them.
        kept("comb of different teeth, {.}", EVERYWHERE, |n| comb(n, SEQ, true)),
        broken("star of equal leaves, {.}", EVERYWHERE, |n| star(n, PORT, false), |_| [0, 1, 2, 1, 2]),
        kept("star of different leaves, {.}", EVERYWHERE, |n| star(n, SEQ, true)),
        // All agree on @id and no two on @seq; the root and the attributes themselves have neither.
        kept("chain, equal and different", EQUAL_AND_DIFFERENT, dressed_chain),
        kept("comb, equal and different", EQUAL_AND_DIFFERENT, dressed_comb),
        kept("star, equal and different", EQUAL_AND_DIFFERENT, dressed_star),
        kept("chain, long key paths", LONG_PATHS, dressed_chain),
        // The two ports have no @seq in common.
        kept("twins, equal and different", "(e,(port,{@id,@seq}))", twins),
        // All ports are equal, and each has a frame of its own as its only context.
        kept("broom, contexts apart", "(_*.run.frame,(_*.port,{e}))", broom),
        // No port is reached: no run of a target stands below a stamp.
        kept("broom, no target", "(_*,(_*.stamp._*.port,{e}))", broom),
        // All frames agree, and each has a port of its own as its only context.
        kept("ports of one frame, contexts apart", "(port,(frame,{@seq}))", ports_of_one),
        // No two frames have the same four digits: there are fewer than 6 * 6 * 6 * 6.
        kept("grid, four key paths", "(e,(frame,{@id,@seq,stamp.@id,stamp.@seq}))", grid),
        // Two frames that share an @id share no @seq, and the other way round.
        kept("halves, equal and different", EQUAL_AND_DIFFERENT, shared_by_half),
        // "Elements and text keep their order": no two chains have their texts in one order, and no two elements of a chain have equally
        // many nodes below them.
        kept("chains of other orders, {.}", "(_*,(_*.run,{e}))", orders),
        // "some one-to-one pairing": the two elements with many attributes are equal, and so are the chains over them. The root reaches the two
        // uppermost; the second stands behind all of the first's chain and attributes.
        broken("twin chains over one fat element", "(e,(run,{e}))", fat_twin_chains, |n| of_runs(2 * ((n - 1) / 4) + 1)),
        broken("two fat elements", "(e,(run,{e}))", fat_twins, |n| of_runs((n - 3) / 2 + 2)),
    ];
    // No two attributes have one value, so no two ports are equal.
    cases.push(Case { edition: SECOND_EDITION, ..kept("attributes apart, edition 2", EVERYWHERE, attributes_apart) });
    // The segment keeps all 64, and breaks the question: @seq 0 stands in two ports, in each one's first frame.
    cases.push(Case {
        name: "segment, 64 keys",
        edition: FIRST_EDITION,
        profile: segment_keys(),
        question: "(e,(port.frame,{@seq}))",
        tree: segment,
        wanted: "accepted",
        witness: Some(|_| [0, 3, PORT_NODES + 3, 5, PORT_NODES + 5]),
    });
    cases
}

fn wait(child: &mut Child, name: &str) {
    let start = Instant::now();
    while child.try_wait().expect("a child can be waited for").is_none() {
        if LIMIT < start.elapsed() {
            child.kill().expect("a child can be stopped");
            panic!("{}: no answer in {} s", name, LIMIT.as_secs());
        }
        sleep(PAUSE);
    }
}

/// The seconds that the program took. Its answer is one line, so it never waits for a reader.
fn run(case: &Case, nodes: usize, program: &str, folder: &Path) -> f64 {
    let table = (case.tree)(nodes);
    assert!(table.nodes.len() <= TREE_NODES, "{}: too many nodes", case.name);
    let keys: Vec<&str> = case.profile.iter().map(String::as_str).collect();
    let put = |file: &str, bytes: &[u8]| fs::write(folder.join(file), bytes).expect("the folder takes files");
    put("profile", &bench_profile_of(case.edition, &keys));
    put("question", &question(case.question));
    put("tree", &write_tree(&table.nodes, NODE_KIND));
    let command = if keys.is_empty() { ["profile", "keep"] } else { ["checker", "tree"] };
    let start = Instant::now();
    let mut child = Command::new(program)
        .args(command)
        .args(["profile", "question", "tree"].map(|file| folder.join(file)))
        .stdout(Stdio::piped())
        .spawn()
        .expect("the program starts");
    wait(&mut child, case.name);
    let seconds = start.elapsed().as_secs_f64();
    let output = child.wait_with_output().expect("the program's answer can be read");
    let answer = String::from_utf8_lossy(&output.stdout).trim_end().to_string();
    let numbers = case.witness.map_or(Vec::new(), |witness| witness(nodes).to_vec());
    let wanted = numbers.iter().fold(case.wanted.to_string(), |line, number| format!("{} {}", line, number));
    assert_eq!(answer, wanted, "{}, {} nodes", case.name, table.nodes.len());
    seconds
}

fn main() {
    let words: Vec<String> = std::env::args().collect();
    assert_eq!(words.len(), 3, "usage: tree_cost RUN FOLDER");
    let program = &words[1];
    let folder = Path::new(&words[2]);
    println!("{:<34} {:>9} {:>9} {:>6}", "seconds for nodes", FEW_NODES, TREE_NODES, "ratio");
    for case in cases() {
        let few = run(&case, FEW_NODES, program, folder);
        let many = run(&case, TREE_NODES, program, folder);
        println!("{:<34} {:>9.3} {:>9.3} {:>6.1}", case.name, few, many, many / few);
    }
}
