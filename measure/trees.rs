//! Trees on which a careless tree test would take hours, and a segment of a bench campaign. Labels are those of the bench examples.
use crate::reference::paths::{ROOT, TEXT};
use crate::reference::records::{write_tree, Node, NODE_KIND, NONE};

const RUN: u8 = 2;
const PORT: u8 = 3;
const FRAME: u8 = 4;
const STAMP: u8 = 5;
const ID: u8 = 6;
const SEQ: u8 = 7;

pub struct Table {
    pub nodes: Vec<Node>,
}

impl Table {
    fn new() -> Table {
        Table { nodes: vec![Node { parent: NONE, label: ROOT, value: 0 }] }
    }

    fn add(&mut self, parent: usize, label: u8, value: usize) -> usize {
        self.nodes.push(Node { parent: parent as u16, label, value: value as u32 });
        self.nodes.len() - 1
    }

    fn element(&mut self, parent: usize, label: u8) -> usize {
        self.add(parent, label, 0)
    }

    /// An element whose @id is equal everywhere and whose @seq is different everywhere.
    fn dressed(&mut self, parent: usize, label: u8) -> usize {
        let element = self.element(parent, label);
        self.add(element, ID, 1);
        self.add(element, SEQ, element);
        element
    }

    pub fn bytes(&self) -> Vec<u8> {
        write_tree(&self.nodes, NODE_KIND)
    }
}

/// An element and its two attributes.
const DRESSED: usize = 3;

/// Each element stands below the one before.
pub fn chain(nodes: usize) -> Table {
    let mut table = Table::new();
    let mut last = 0;
    for _ in 1..nodes {
        last = table.element(last, RUN);
    }
    table
}

/// Two equal chains below the root: at each height two equal elements.
pub fn twin_chains(nodes: usize) -> Table {
    let mut table = Table::new();
    for _ in 0..2 {
        let mut last = 0;
        for _ in 0..(nodes - 1) / 2 {
            last = table.element(last, RUN);
        }
    }
    table
}

/// Two equal chains, each over one element with as many attributes as the chain has elements, which stand in two orders.
pub fn fat_twin_chains(nodes: usize) -> Table {
    let mut table = Table::new();
    let most = (nodes - 1) / 4;
    for reversed in [false, true] {
        let mut last = 0;
        for _ in 0..most {
            last = table.element(last, RUN);
        }
        for i in 0..most {
            table.add(last, SEQ, if reversed { most - 1 - i } else { i });
        }
    }
    table
}

/// A chain that ends in two equal elements: the only pair of equal nodes, and as deep as can be.
pub fn forked_chain(nodes: usize) -> Table {
    let mut table = chain(nodes - 2);
    let last = table.nodes.len() - 1;
    table.element(last, RUN);
    table.element(last, RUN);
    table
}

/// A chain that ends in as many equal elements as it is long: many pairs of equal nodes, all deep.
pub fn broom(nodes: usize) -> Table {
    let mut table = chain(nodes / 2);
    let last = table.nodes.len() - 1;
    for _ in 0..nodes / 2 {
        table.element(last, FRAME);
    }
    table
}

/// Two elements with many equal @id and as many @seq, no two of them equal: one pair of elements, and very many pairs of attributes.
pub fn fans(nodes: usize) -> Table {
    let mut table = Table::new();
    for _ in 0..2 {
        let element = table.element(0, PORT);
        for _ in 0..(nodes - 3) / 4 {
            table.add(element, ID, 1);
        }
        for _ in 0..(nodes - 3) / 4 {
            let different = table.nodes.len();
            table.add(element, SEQ, different);
        }
    }
    table
}

pub fn dressed_chain(nodes: usize) -> Table {
    let mut table = Table::new();
    let mut last = 0;
    for _ in 0..(nodes - 1) / DRESSED {
        last = table.dressed(last, RUN);
    }
    table
}

/// A chain with one leaf at each element.
fn comb(nodes: usize, tooth: u8, different: bool) -> Table {
    let mut table = Table::new();
    let mut last = 0;
    for i in 0..(nodes - 1) / 2 {
        last = table.element(last, RUN);
        table.add(last, tooth, if different { i } else { 0 });
    }
    table
}

pub fn comb_of_equal(nodes: usize) -> Table {
    comb(nodes, PORT, false)
}

pub fn comb_of_different(nodes: usize) -> Table {
    comb(nodes, SEQ, true)
}

pub fn dressed_comb(nodes: usize) -> Table {
    let mut table = Table::new();
    let mut last = 0;
    for _ in 0..(nodes - 1) / (2 * DRESSED) {
        last = table.dressed(last, RUN);
        table.dressed(last, PORT);
    }
    table
}

/// Leaves below the root.
fn star(nodes: usize, leaf: u8, different: bool) -> Table {
    let mut table = Table::new();
    for i in 1..nodes {
        table.add(0, leaf, if different { i } else { 0 });
    }
    table
}

pub fn star_of_equal(nodes: usize) -> Table {
    star(nodes, PORT, false)
}

pub fn star_of_different(nodes: usize) -> Table {
    star(nodes, SEQ, true)
}

pub fn dressed_star(nodes: usize) -> Table {
    let mut table = Table::new();
    for _ in 0..(nodes - 1) / DRESSED {
        table.dressed(0, PORT);
    }
    table
}

/// Ports with one frame each, and all frames are equal: many pairs that agree, and no context that two of them share.
pub fn ports_of_one(nodes: usize) -> Table {
    let mut table = Table::new();
    for _ in 0..(nodes - 1) / 3 {
        let port = table.element(0, PORT);
        let frame = table.element(port, FRAME);
        table.add(frame, SEQ, 0);
    }
    table
}

/// A frame with two attributes, its stamp and the stamp's two.
const GRID_NODES: usize = 6;
const GRID_VALUES: usize = 6;

/// Frames with four values out of six each, as the digits of their number: any three of them are shared by many, all four by none.
pub fn grid(nodes: usize) -> Table {
    let mut table = Table::new();
    for number in 0..(nodes - 1) / GRID_NODES {
        let digit = |place: u32| number / GRID_VALUES.pow(place) % GRID_VALUES;
        let frame = table.element(0, FRAME);
        table.add(frame, ID, digit(0));
        table.add(frame, SEQ, digit(1));
        let stamp = table.element(frame, STAMP);
        table.add(stamp, ID, digit(2));
        table.add(stamp, SEQ, digit(3));
    }
    table
}

/// Frames with two @id and two @seq. Every other frame has one @id that all of these have; the frames between have one @seq that all of those have.
pub fn shared_by_half(nodes: usize) -> Table {
    let mut table = Table::new();
    for number in 0..(nodes - 1) / 5 {
        let frame = table.element(0, FRAME);
        let own = 4 * number + 1;
        let (id, seq) = if number % 2 == 0 { (0, own + 3) } else { (own + 3, 0) };
        table.add(frame, ID, id);
        table.add(frame, ID, own);
        table.add(frame, SEQ, own + 1);
        table.add(frame, SEQ, seq);
    }
    table
}

pub const FRAMES: usize = 33;
/// A port with its @id; its frames have two attributes, a stamp and the stamp's text.
const PORT_NODES: usize = 2 + 5 * FRAMES;

/// How many ports a segment of so many nodes has: 24 for 4,096.
pub fn ports(nodes: usize) -> usize {
    (nodes - 1) / PORT_NODES
}

/// A segment of a bench campaign. @id is a frame's own in the whole tree; @seq and stamp are its own in its port.
pub fn segment(nodes: usize) -> Table {
    let mut table = Table::new();
    for number in 0..ports(nodes) {
        let port = table.element(0, PORT);
        table.add(port, ID, number);
        for seq in 0..FRAMES {
            let frame = table.element(port, FRAME);
            table.add(frame, ID, FRAMES * number + seq);
            table.add(frame, SEQ, seq);
            let stamp = table.element(frame, STAMP);
            table.add(stamp, TEXT, seq);
        }
    }
    table
}

/// Key paths that tell two frames of one port apart.
pub const OF_A_FRAME: [&str; 4] = ["@id", "@seq", "stamp", "stamp.#"];
/// Contexts and targets under which any of them does.
pub const OF_A_PORT: [(&str, &str); 4] = [("port", "frame"), ("port", "_*.frame"), ("_*.port", "frame"), ("_*.port", "_*.frame")];
/// In the whole tree @id alone does.
const OF_THE_TREE: [&str; 4] = ["(e,(port.frame,{@id}))", "(e,(_*.frame,{@id}))", "(_*,(frame,{@id}))", "(_*,(_*.frame,{@id}))"];

/// The sets of key paths of `OF_A_FRAME`: each but the empty one.
pub fn sets_of_a_frame() -> Vec<Vec<&'static str>> {
    let held = |chosen: usize| (0..OF_A_FRAME.len()).filter(move |i| chosen >> i & 1 == 1).map(|i| OF_A_FRAME[i]).collect();
    (1..1 << OF_A_FRAME.len()).map(held).collect()
}

/// 64 keys that every segment keeps.
pub fn segment_keys() -> Vec<String> {
    let mut keys: Vec<String> = OF_THE_TREE.iter().map(|key| key.to_string()).collect();
    for (context, target) in OF_A_PORT {
        for set in sets_of_a_frame() {
            keys.push(format!("({},({},{{{}}}))", context, target, set.join(",")));
        }
    }
    keys
}
