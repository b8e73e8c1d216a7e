//! Fixed checks of the reference: the examples a to m and m in edition 2, the tree and listing of b, every limit, the
//! readings of docs/DECISIONS.md and the order of refusals.
//!
//! rustc -O --edition 2021 -o target/tests/reference_checks tests/reference_checks.rs
mod reference;
#[path = "reference_checks/refusals.rs"]
mod refusals;

use reference::examples::*;
use reference::operations::*;
use reference::paths::*;
use reference::records::*;
use reference::trees::Tree;

const ROOM: usize = ANSWER_BYTES;

pub struct Tally {
    done: usize,
    failed: usize,
}

impl Tally {
    fn same<T: PartialEq + std::fmt::Debug>(&mut self, what: &str, found: T, wanted: T) {
        self.done += 1;
        if found != wanted {
            self.failed += 1;
            println!("differs: {}: found {:?}, wanted {:?}", what, found, wanted);
        }
    }

    fn refused<T: std::fmt::Debug + PartialEq>(&mut self, what: &str, found: Result<T, Refusal>, wanted: (u32, u32, u32)) {
        let wanted = Refusal { number: wanted.0, input: wanted.1, record: wanted.2 };
        self.same(what, found, Err(wanted));
    }
}

fn examples(tally: &mut Tally) {
    for (row, edition, keys, asked, implied) in ROWS.iter() {
        let (profile, question) = (bench_profile_of(*edition, keys), question(asked));
        let name = format!("row {}", row);
        match decide(&profile, &question, ROOM) {
            Ok(Decision::Implied(proof)) => {
                tally.same(&name, true, *implied);
                tally.same(&name, check_proof(&profile, &question, &proof), Ok(()));
            }
            Ok(Decision::NotImplied(tree)) => {
                tally.same(&name, false, *implied);
                tally.same(&name, check_counterexample(&profile, &question, &tree).is_ok(), true);
            }
            Err(refusal) => tally.same(&name, Some(refusal), None),
        }
    }
    let (profile, asked) = (bench_profile(ROWS[1].2), question(ROWS[1].3));
    if let Ok(Decision::NotImplied(tree)) = decide(&profile, &asked, ROOM) {
        tally.same("bytes of b", tree.len(), 132);
        let nodes = read_tree(&tree, &read_profile(&profile).unwrap()).unwrap();
        let narrow = write_tree(&nodes, NODE_KIND);
        tally.same("listing of b from kind 3", list(&profile, &narrow, 0, ROOM), Ok(LISTING_OF_B.as_bytes().to_vec()));
        tally.same("listing of b", list(&profile, &tree, 0, ROOM), Ok(LISTING_OF_B.as_bytes().to_vec()));
        tally.same("past the end", list(&profile, &tree, 1, ROOM), Ok(Vec::new()));
        let two_frames = vec![0, 4, 9, 6, 11];
        tally.same("the two frames of b", check_counterexample(&profile, &asked, &tree), Ok(two_frames.clone()));
        tally.same("the two frames of b, by the tree test", keep(&profile, &asked, &tree), Ok(Some(two_frames.clone())));
        let refusal = Refusal { number: 12, input: PROFILE, record: 0 };
        let objection = Objection { refusal, witness: Some(two_frames) };
        tally.same("the two frames of b, refused", check_counterexample(&bench_profile(ROWS[0].2), &asked, &tree), Err(objection));
    }
    tally.same("rule 8 alone proves c", proof_of_c_needs_rule_8(), true);
}

/// Trees drawn by hand after 01, "The counterexample that is written".
fn drawn_trees(tally: &mut Tally) {
    let drawn: [(&[&str], &str, &str); 5] = [
        // m: an attribute as target, marked.
        (&[], "(port,(@id,{e}))", "nodes 6/0 - 203 -/1 0 202 1/2 0 3 -/3 2 202 3/4 2 6 4/5 2 6 4"),
        // i: the any-path is one filler element.
        (
            &["(e,(port.frame,{@seq}))"],
            "(e,(_*.frame,{@seq}))",
            "nodes 12/0 - 203 -/1 0 202 1/2 0 201 -/3 2 202 3/4 2 4 -/5 4 202 5/6 4 7 6/7 0 201 -/8 7 202 8/9 7 4 -/10 9 202 10/11 9 7 6",
        ),
        // j: the end of the branch is an element, so its filler attribute has the twin's value.
        (
            &["(e,(frame,{stamp.#}))"],
            "(e,(frame,{stamp}))",
            "nodes 10/0 - 203 -/1 0 202 1/2 0 4 -/3 2 202 3/4 2 5 -/5 4 202 5/6 0 4 -/7 6 202 7/8 6 5 -/9 8 202 5",
        ),
        // d: two branches with a frame each.
        (
            &["(e,(port.frame,{stamp,@seq}))"],
            "(e,(port,{frame.stamp,frame.@seq}))",
            "nodes 20/0 - 203 -/1 0 202 1/2 0 3 -/3 2 202 3/4 2 4 -/5 4 202 5/6 4 5 -/7 6 202 7/8 2 4 -/9 8 202 9/10 8 7 10/\
             11 0 3 -/12 11 202 12/13 11 4 -/14 13 202 14/15 13 5 -/16 15 202 7/17 11 4 -/18 17 202 18/19 17 7 10",
        ),
        // With the empty path t and everything below it is marked.
        (
            &[],
            "(e,(port,{e,frame.@seq}))",
            "nodes 12/0 - 203 -/1 0 202 1/2 0 3 -/3 2 202 3/4 2 4 -/5 4 202 5/6 4 7 6/7 0 3 -/8 7 202 3/9 7 4 -/10 9 202 5/11 9 7 6",
        ),
    ];
    for (keys, asked, wanted) in drawn.iter() {
        let profile = bench_profile(keys);
        let wanted = wanted.replace('/', "\n") + "\n";
        match decide(&profile, &question(asked), ROOM) {
            Ok(Decision::NotImplied(tree)) => {
                let listed = list(&profile, &tree, 0, ROOM).map(|bytes| String::from_utf8(bytes).unwrap());
                tally.same(asked, listed, Ok(wanted));
            }
            other => tally.same(asked, format!("{:?}", other), "a tree".to_string()),
        }
    }
    let paths = [2, 3, 4, 5].iter().map(|&last| [vec![2; 7], vec![last]].concat()).collect();
    let largest = key_record(&Key { context: vec![2; 8], target: vec![2; 8], paths });
    match decide(&bench_labels(), &largest, ROOM) {
        Ok(Decision::NotImplied(tree)) => tally.same("the largest tree", tree.len(), 11 * 178),
        other => tally.same("the largest tree", format!("{:?}", other), "a tree".to_string()),
    }
}

/// Inclusion by search against inclusion by going through words, on all short paths; membership too.
fn enumerated(tally: &mut Tally) {
    let classes = read_profile(&bench_labels()).unwrap().classes;
    let words = valid_words(&[2, 3, 6, TEXT, FILLER_ELEMENT, FILLER_ATTRIBUTE], &classes, 5);
    let mut paths: Vec<Path> = vec![vec![]];
    for length in 0..3 {
        let shorter: Vec<Path> = paths.iter().filter(|path| path.len() == length).cloned().collect();
        for path in shorter {
            paths.extend([0, 2, 3, 6, TEXT].iter().map(|&symbol| [path.clone(), vec![symbol]].concat()));
        }
    }
    paths.retain(|path| is_normal(path));
    let mut differing = 0;
    for p in paths.iter().filter(|p| is_valid(p, &classes)) {
        let of_p: Vec<&Vec<u8>> = words.iter().filter(|word| is_word_by_definition(word, p)).collect();
        for q in &paths {
            let wanted = of_p.iter().all(|word| is_word_by_definition(word, q));
            differing += (is_included(p, q, &classes) != wanted) as usize;
        }
    }
    for path in &paths {
        differing += words.iter().filter(|word| is_word(word, path) != is_word_by_definition(word, path)).count();
    }
    tally.same("short paths", differing, 0);
}

/// The proof that is written for c holds a line of rule 8.
fn proof_of_c_needs_rule_8() -> bool {
    let (profile, asked) = (bench_profile(ROWS[2].2), question(ROWS[2].3));
    match decide(&profile, &asked, ROOM) {
        Ok(Decision::Implied(proof)) => {
            let classes = read_profile(&profile).unwrap().classes;
            read_proof(&proof, &classes, &|_, _| true).unwrap().iter().any(|line| line.rule == 8)
        }
        _ => false,
    }
}

fn hex(text: &str) -> Vec<u8> {
    text.split_whitespace().map(|byte| u8::from_str_radix(byte, 16).unwrap()).collect()
}

const LA: &str = "07 00 01 00 02 01 61";
const LB: &str = "07 00 01 00 06 02 62";
const ROOT_NODE: &str = "09 00 03 00 ff ff cb 00 00";
const Q0: &str = "08 00 02 00 00 00 01 00";

fn all(parts: &[&str]) -> Vec<u8> {
    hex(&parts.join(" "))
}

/// The vectors that the readings give.
fn readings(tally: &mut Tally) {
    let rewritten = |text: &str| rewrite(&hex(text), ROOM);
    tally.refused("node's body first", rewritten("05 00 03 00 01"), (1, 1, 0));
    tally.refused("node in a profile", rewritten("09 00 03 00 01 02 03 04 05"), (2, 1, 0));
    tally.refused("unknown kind", rewritten("05 00 07 00 01"), (2, 1, 0));
    tally.refused("no name", rewritten("06 00 01 00 02 01"), (3, 1, 0));
    tally.refused("label without class", rewritten("05 00 01 00 02"), (1, 1, 0));
    tally.refused("trailing byte", decide(&[], &all(&[Q0, "09"]), ROOM), (1, 2, 1));
    tally.refused("second question", decide(&[], &all(&[Q0, Q0]), ROOM), (2, 2, 1));
    tally.refused("path alone", include(&all(&[LA, LB]), &[6, 2], &[0x63]), (6, 2, 0));
    tally.refused("input 3 too", include(&all(&[LA, LB]), &[2], &[0x63]), (4, 3, 0));
    tally.refused("empty question", decide(&[], &[], ROOM), (1, 2, 0));
    tally.refused("empty tree", keep(&[], &hex(Q0), &[]), (8, 3, 0));
    tally.refused("empty proof", check_proof(&[], &hex(Q0), &[]), (10, 3, 0));
    tally.same("empty profile", rewritten(""), Ok(Vec::new()));
    tally.same("root alone", keep(&[], &hex(Q0), &hex(ROOT_NODE)), Ok(None));
    let kept = Refusal { number: 13, input: TREE_OR_PROOF, record: 0 };
    tally.same("keeps the question", check_counterexample(&[], &hex(Q0), &hex(ROOT_NODE)), Err(kept.into()));
    tally.same("body 1", body(&all(&[LA, LB, Q0]), 1).to_vec(), hex("06 02 62"));
    tally.same("no body", body(&all(&[LA, LB, Q0]), 3).to_vec(), Vec::new());
    tally.same("body of a refused profile", body(&all(&[LA, LB, Q0, "00"]), 1).to_vec(), Vec::new());
    let rule_1 = "0d 00 04 00 01 ff ff ff ff 00 00 01 00";
    let repeat = "0d 00 04 00 03 00 00 ff ff 00 00 01 00";
    tally.same("rule 1", check_proof(&[], &hex(Q0), &hex(rule_1)), Ok(()));
    tally.same("a line that changes nothing", check_proof(&[], &hex(Q0), &all(&[rule_1, repeat])), Ok(()));
    let used = "0d 00 04 00 01 00 00 ff ff 00 00 01 00";
    tally.refused("unused field", check_proof(&[], &hex(Q0), &hex(used)), (9, 3, 0));
    tally.refused("itself as premise", check_proof(&[], &hex(Q0), &hex(repeat)), (9, 3, 0));
    let unknown = "0d 00 04 00 0a ff ff ff ff 00 00 01 00";
    tally.refused("unknown rule", check_proof(&[], &hex(Q0), &hex(unknown)), (9, 3, 0));
    let no_key = "0d 00 04 00 00 00 00 ff ff 00 00 01 00";
    tally.refused("no such key", check_proof(&[], &hex(Q0), &hex(no_key)), (9, 3, 0));
    tally.same("rule 0", check_proof(&hex(Q0), &hex(Q0), &hex(no_key)), Ok(()));
}

/// Rule 7 on a single any-path gives three cuts and no fourth.
fn cuts(tally: &mut Tally) {
    let profile = key_record(&Key { context: vec![], target: vec![0], paths: vec![vec![]] });
    let cites = line_record(&Line { rule: 0, first: 0, second: NONE, key: read_key(&profile[4..]).unwrap() });
    let outcomes = [(vec![0], vec![0], true), (vec![0], vec![], true), (vec![], vec![0], true), (vec![], vec![], false)];
    for (context, target, wanted) in outcomes.iter() {
        let key = Key { context: context.clone(), target: target.clone(), paths: vec![vec![]] };
        let line = line_record(&Line { rule: 7, first: 0, second: NONE, key: key.clone() });
        let found = check_proof(&profile, &key_record(&key), &[cites.clone(), line].concat());
        tally.same("cuts of an any-path", found.is_ok(), *wanted);
    }
}

fn simple_key(target: Vec<u8>) -> Vec<u8> {
    key_record(&Key { context: vec![], target, paths: vec![vec![]] })
}

fn name_of(length: usize) -> Vec<u8> {
    label_record(&Label { number: 2, class: 1, name: vec![b'a'; length] })
}

/// Sizes and counts that are met, and passed by one.
fn limits(tally: &mut Tally) {
    let labels = all(&[LA, LB]);
    let with = |key: Vec<u8>| [labels.clone(), key].concat();
    tally.same("8 symbols", rewrite(&with(simple_key(vec![2; 8])), ROOM), Ok(with(simple_key(vec![2; 8]))));
    tally.refused("9 symbols", rewrite(&with(simple_key(vec![2; 9])), ROOM), (4, 1, 2));
    let long = |context: usize, path: usize| {
        key_record(&Key { context: vec![2; context], target: vec![2], paths: vec![vec![2; path]] })
    };
    tally.same("all of 8", rewrite(&with(long(8, 8)), ROOM), Ok(with(long(8, 8))));
    tally.refused("context of 9", rewrite(&with(long(9, 8)), ROOM), (4, 1, 2));
    tally.refused("key path of 9", rewrite(&with(long(8, 9)), ROOM), (4, 1, 2));
    tally.refused("question of 9", decide(&labels, &simple_key(vec![2; 9]), ROOM), (4, 2, 0));
    let paths = |count: usize| (0..count).map(|k| vec![2; k]).collect::<Vec<Path>>();
    let keyed = |count: usize| key_record(&Key { context: vec![], target: vec![], paths: paths(count) });
    tally.same("4 key paths", rewrite(&with(keyed(4)), ROOM), Ok(with(keyed(4))));
    tally.refused("5 key paths", rewrite(&with(keyed(5)), ROOM), (5, 1, 2));
    tally.refused("no key path", rewrite(&with(keyed(0)), ROOM), (5, 1, 2));
    let different = |n: usize| key_record(&Key { context: vec![2; n % 9], target: vec![2; n / 9], paths: vec![vec![]] });
    let keys = |count: usize| [labels.clone(), (0..count).flat_map(different).collect()].concat();
    tally.same("64 keys", rewrite(&keys(64), ROOM), Ok(keys(64)));
    tally.refused("65 keys", rewrite(&keys(65), ROOM), (7, 1, 66));
    let head = |length: u8| [keys(64), vec![length, 0, 2, 0]].concat();
    tally.refused("65th equal to the first", rewrite(&[keys(64), different(0)].concat(), ROOM), (7, 1, 66));
    tally.refused("64th equal to the first", rewrite(&[keys(63), different(0)].concat(), ROOM), (15, 1, 65));
    tally.refused("65th by its head", rewrite(&head(0), ROOM), (7, 1, 66));
    tally.refused("65th by its head, past the end", rewrite(&head(200), ROOM), (7, 1, 66));
    tally.refused("65th without kind", rewrite(&[keys(64), vec![9, 0, 2]].concat(), ROOM), (1, 1, 66));
    tally.refused("65th is a label", rewrite(&[keys(64), hex(LA)].concat(), ROOM), (2, 1, 66));
    tally.same("name of 32", rewrite(&name_of(32), ROOM), Ok(name_of(32)));
    tally.refused("name of 33", rewrite(&name_of(33), ROOM), (3, 1, 0));
    tally.refused("answer too small", rewrite(&[9], ROOM - 1), (14, 4, 0));
    tally.refused("answer too small", decide(&[9], &[], ROOM - 1), (14, 4, 0));
    tally.refused("answer too small", list(&[9], &[], 0, ROOM - 1), (14, 4, 0));
    tally.refused("profile's size", rewrite(&vec![9; PROFILE_BYTES + 1], ROOM), (7, 1, 0));
    tally.refused("profile of full size", rewrite(&vec![9; PROFILE_BYTES], ROOM), (2, 1, 0));
    tally.same("32 symbols", include(&labels, &[2; 32], &[2; 32]), Ok(true));
    tally.refused("33 symbols", include(&labels, &[2; 33], &[2]), (4, 2, 0));
    tally.refused("33 symbols", include(&labels, &[2], &[2; 33]), (4, 3, 0));
    for &number in &[1u8, 201, 202, 203, 0] {
        let label = label_record(&Label { number, class: 1, name: b"a".to_vec() });
        tally.refused("label number", rewrite(&label, ROOM), (3, 1, 0));
    }
    let last = label_record(&Label { number: 200, class: 2, name: b"a-9_Z".to_vec() });
    tally.same("label 200", rewrite(&last, ROOM), Ok(last.clone()));
}

/// A chain of elements below the root, as records of kind 3.
fn chain(count: usize) -> Vec<u8> {
    chain_of(NODE_KIND, count)
}

fn chain_of(kind: u16, count: usize) -> Vec<u8> {
    let mut nodes = vec![Node { parent: NONE, label: ROOT, value: 0 }];
    for number in 1..count {
        nodes.push(Node { parent: number as u16 - 1, label: 2, value: 0 });
    }
    write_tree(&nodes, kind)
}

fn big_inputs(tally: &mut Tally) {
    let labels = all(&[LA, LB]);
    let everywhere = key_record(&Key { context: vec![0], target: vec![0], paths: vec![vec![]] });
    tally.same("4,096 nodes", keep(&labels, &everywhere, &chain(4_096)), Ok(None));
    tally.refused("4,097 nodes", keep(&labels, &everywhere, &chain(4_097)), (7, 3, 0));
    tally.refused("tree of full size", keep(&labels, &everywhere, &vec![9; TREE_BYTES]), (2, 3, 0));
    tally.refused("a byte more", keep(&labels, &everywhere, &vec![9; TREE_BYTES + 1]), (7, 3, 0));
    let listed = list(&labels, &chain(4_096), 4, ROOM);
    tally.same("the last line alone", listed, Ok(b"4095 4094 2 -\n".to_vec()));
    tally.same("past the end", list(&labels, &chain(4_096), 5, ROOM), Ok(Vec::new()));
    tally.same("far past the end", list(&labels, &chain(4_096), u64::MAX, ROOM), Ok(Vec::new()));
    let sizes: Vec<usize> = (0..4)
        .map(|k| list(&labels, &chain(4_096), k, ROOM).unwrap().iter().filter(|&&byte| byte == b'\n').count())
        .collect();
    tally.same("lines of blocks", sizes, vec![1_024; 4]);
    let leaves = |value: &dyn Fn(u32) -> u32| {
        let mut nodes = vec![Node { parent: NONE, label: ROOT, value: 0 }];
        nodes.extend((1..4_096).map(|number| Node { parent: 0, label: 6, value: value(number) }));
        write_tree(&nodes, WIDE_NODE_KIND)
    };
    let attributes = key_record(&Key { context: vec![], target: vec![6], paths: vec![vec![]] });
    tally.same("all different", keep(&labels, &attributes, &leaves(&|number| number)), Ok(None));
    tally.same("last two equal", keep(&labels, &attributes, &leaves(&|number| number.min(4_094))), Ok(Some(vec![0, 4_094, 4_095, 4_094, 4_095])));
    tally.same("low bytes equal", keep(&labels, &attributes, &leaves(&|number| 65_536 * number)), Ok(None));
    let line = |rule, first, key: &[u8]| {
        line_record(&Line { rule, first, second: NONE, key: read_key(&key[4..]).unwrap() })
    };
    let q0 = hex(Q0);
    let lines = |count: usize| {
        let repeated: Vec<u8> = (1..count).flat_map(|_| line(3, 0, &q0)).collect();
        [line(1, NONE, &q0), repeated].concat()
    };
    tally.same("256 lines", check_proof(&labels, &q0, &lines(256)), Ok(()));
    tally.refused("257 lines", check_proof(&labels, &q0, &lines(257)), (7, 3, 256));
    tally.refused("proof's size", check_proof(&labels, &q0, &vec![0; PROOF_BYTES + 1]), (7, 3, 0));
    tally.refused("full size", check_proof(&labels, &q0, &vec![0; PROOF_BYTES]), (1, 3, 0));
    line_sizes(tally, &labels);
    wide_trees(tally, &labels, &everywhere);
}

/// 02, request 11: "The limit of a tree whose record 0 is kind 5 is 45,056 bytes, still 4,096 nodes"; "a file that mixes the kinds
/// gives 2 at the first record that differs".
fn wide_trees(tally: &mut Tally, labels: &[u8], question: &[u8]) {
    let of = |tree: &[u8]| keep(labels, question, tree);
    let full = chain_of(WIDE_NODE_KIND, 4_096);
    tally.same("bytes of 4,096 wide nodes", full.len(), WIDE_TREE_BYTES);
    tally.same("4,096 wide nodes", of(&full), Ok(None));
    tally.refused("a byte after 4,096 wide nodes", of(&[full, vec![11]].concat()), (7, 3, 0));
    tally.refused("4,097 wide nodes", of(&chain_of(WIDE_NODE_KIND, 4_097)), (7, 3, 0));
    let padded = |head: &[u8]| [head.to_vec(), vec![9; 40_000 - head.len()]].concat();
    tally.refused("the head of record 0 says 5", of(&padded(&[3, 0, 5, 0])), (1, 3, 0));
    tally.refused("the head of record 0 says 3", of(&padded(&[3, 0, 3, 0])), (7, 3, 0));
    tally.refused("three bytes are no head", of(&[4, 0, 5]), (1, 3, 0));
    let node = Node { parent: 0, label: 2, value: 0 };
    let mixed = |first: u16, second: u16| [chain_of(first, 2), node_record(&node, second)].concat();
    tally.refused("5 among 3", of(&mixed(NODE_KIND, WIDE_NODE_KIND)), (2, 3, 2));
    tally.refused("3 among 5", of(&mixed(WIDE_NODE_KIND, NODE_KIND)), (2, 3, 2));
    let mut torn = mixed(NODE_KIND, WIDE_NODE_KIND);
    torn.pop();
    tally.refused("1 before 2 in the record that differs", of(&torn), (1, 3, 2));
    tally.refused("a wide node in a profile", rewrite(&chain_of(WIDE_NODE_KIND, 1), ROOM), (2, 1, 0));
    tally.refused("its body first", rewrite(&hex("0a 00 05 00 ff ff cb 00 00 00"), ROOM), (1, 1, 0));
}

fn line_sizes(tally: &mut Tally, labels: &[u8]) {
    let wide = |context: usize, length: usize, count: usize| {
        let mut paths: Vec<Path> = (0..count).map(|k| vec![if k % 2 == 0 { 2 } else { 3 }; 1 + k / 2]).collect();
        if length > 0 {
            paths = vec![vec![2; length]];
        }
        let key = Key { context: vec![2; context], target: vec![], paths };
        line_record(&Line { rule: 1, first: NONE, second: NONE, key })
    };
    let more = [labels, &label_record(&Label { number: 7, class: 1, name: b"c".to_vec() })].concat();
    let q0 = hex(Q0);
    tally.refused("context of 32", check_proof(&more, &q0, &wide(32, 1, 0)), (10, 3, 0));
    let aimed = |target: usize| {
        let key = Key { context: vec![], target: vec![2; target], paths: vec![vec![]] };
        line_record(&Line { rule: 1, first: NONE, second: NONE, key })
    };
    tally.refused("target of 32", check_proof(&more, &q0, &aimed(32)), (9, 3, 0));
    tally.refused("target of 33", check_proof(&more, &q0, &aimed(33)), (4, 3, 0));
    tally.refused("context of 33", check_proof(&more, &q0, &wide(33, 1, 0)), (4, 3, 0));
    tally.refused("key path of 16", check_proof(&more, &q0, &wide(0, 16, 0)), (10, 3, 0));
    tally.refused("key path of 17", check_proof(&more, &q0, &wide(0, 17, 0)), (4, 3, 0));
    let counted = |count: usize| {
        let mut paths: Vec<Path> = Vec::new();
        for k in 0..count {
            paths.push((0..7).map(|bit| if (k >> (6 - bit)) & 1 == 0 { 2 } else { 7 }).collect());
        }
        let key = Key { context: vec![], target: vec![], paths };
        line_record(&Line { rule: 1, first: NONE, second: NONE, key })
    };
    tally.refused("64 key paths", check_proof(&more, &q0, &counted(64)), (10, 3, 0));
    tally.refused("65 key paths", check_proof(&more, &q0, &counted(65)), (5, 3, 0));
}

/// Value equality and key keeping by 01's sentences on a small tree.
fn equality(tally: &mut Tally) {
    let profile = read_profile(&all(&[LA, LB])).unwrap();
    let node = |parent: u16, label: u8, value: u32| Node { parent, label, value };
    let nodes = [
        node(NONE, ROOT, 0),
        node(0, 2, 0),
        node(1, 6, 5),
        node(1, 1, 7),
        node(0, 2, 0),
        node(4, 1, 7),
        node(4, 6, 5),
        node(0, 2, 0),
        node(7, 6, 5),
        node(0, 6, 65_541),
        node(0, 6, 65_541),
    ];
    let tree = Tree::new(&nodes, &profile.classes);
    tally.same("attributes apart from text", tree.worth[1] == tree.worth[4], true);
    tally.same("not as many", tree.worth[1] == tree.worth[7], false);
    tally.same("low bytes alone", tree.worth[8] == tree.worth[9], false);
    tally.same("four bytes", tree.worth[9] == tree.worth[10], true);
    for x in 0..nodes.len() {
        for y in 0..nodes.len() {
            tally.same("equality", tree.worth[x] == tree.worth[y], tree.is_equal_by_definition(x, y));
        }
    }
}

fn main() {
    let mut tally = Tally { done: 0, failed: 0 };
    examples(&mut tally);
    drawn_trees(&mut tally);
    enumerated(&mut tally);
    readings(&mut tally);
    cuts(&mut tally);
    limits(&mut tally);
    big_inputs(&mut tally);
    refusals::order(&mut tally);
    refusals::editions(&mut tally);
    equality(&mut tally);
    println!("reference checks: {} done, {} failed", tally.done, tally.failed);
    if tally.failed > 0 {
        std::process::exit(1);
    }
}
