//! 02, request 9: the first witness. "Of all such witnesses it is the first by context number, then smaller target number, then
//! larger, then each pair by its two numbers in key-path order." In a pair the first number lies under the smaller target.
use super::expectations::Cases;
use super::notation::*;

pub fn put(cases: &mut Cases) {
    contexts(cases);
    targets(cases);
    pairs(cases);
    several_key_paths(cases);
    lowest_key(cases);
    editions(cases);
}

/// The key on the tree: `broken` and the witness; and the tree as a counterexample, with the key as question and as profile key 0. As
/// records of either kind.
fn ask(cases: &mut Cases, name: &str, asked: &str, nodes: &str, witness: &str) {
    for of in [KIND_3, KIND_5] {
        let (none, one, tree) = (profile(&[]), profile(&[asked]), of.tree(nodes));
        let name = |what: &str| format!("witness, kind {}: {}{}", of.kind, name, what);
        cases.put(&name(""), keep(&none, &key(asked), &tree), &format!("broken {}", witness));
        cases.put(&name(", as question"), check_tree(&none, &key(asked), &tree), &format!("accepted {}", witness));
        let refused = format!("refused 12 1 0 witness {}", witness);
        cases.put(&name(", as key 0"), check_tree(&one, &key("(run,(e,{e}))"), &tree), &refused);
    }
}

fn contexts(cases: &mut Cases) {
    // Root and port are contexts that reach both frames.
    ask(cases, "the highest context", "(_*,(_*.frame,{@seq}))", "0 - 203 -/1 0 3 -/2 1 4 -/3 2 7 5/4 1 4 -/5 4 7 5", "0 2 4 3 5");
    let second = "0 - 203 -/1 0 3 -/2 1 4 -/3 2 7 1/4 1 4 -/5 4 7 2/6 0 3 -/7 6 4 -/8 7 7 3/9 6 4 -/10 9 7 3";
    ask(cases, "the only context with a pair", "(port,(frame,{@seq}))", second, "6 7 9 8 10");
    // Port 2 has the frames 3 and 5, port 1 the frames 7 and 9.
    let crossed = "0 - 203 -/1 0 3 -/2 0 3 -/3 2 4 -/4 3 7 1/5 2 4 -/6 5 7 1/7 1 4 -/8 7 7 2/9 1 4 -/10 9 7 2";
    ask(cases, "the smaller context with larger targets", "(port,(frame,{@seq}))", crossed, "1 7 9 8 10");
    // Port 1 and the frame 3 below it are targets of the root, and of port 1.
    ask(cases, "a target below the other", "(_*,(_*,{@id}))", "0 - 203 -/1 0 3 -/2 1 6 1/3 1 4 -/4 3 6 1", "0 1 3 2 4");
}

fn targets(cases: &mut Cases) {
    ask(cases, "the first two of three", "(e,(frame,{e}))", "0 - 203 -/1 0 4 -/2 0 4 -/3 0 4 -", "0 1 2 1 2");
    // Frames 1 and 2 share 9, frames 2 and 3 share 8.
    let chained = "0 - 203 -/1 0 4 -/2 0 4 -/3 0 4 -/4 3 7 8/5 2 7 8/6 2 7 9/7 1 7 9";
    ask(cases, "the smaller target before the smaller pair", "(e,(frame,{@seq}))", chained, "0 1 2 7 6");
    // 1 has 1 and 2, 4 has 2, 6 has 1.
    let three = "0 - 203 -/1 0 4 -/2 1 7 1/3 1 7 2/4 0 4 -/5 4 7 2/6 0 4 -/7 6 7 1";
    ask(cases, "the smaller second target with a larger x", "(e,(frame,{@seq}))", three, "0 1 4 3 5");
    ask(cases, "attributes as targets", "(port,(@id,{e}))", "0 - 203 -/1 0 3 -/2 1 6 4/3 1 6 4", "1 2 3 2 3");
}

fn pairs(cases: &mut Cases) {
    let turned = "0 - 203 -/1 0 4 -/2 0 4 -/3 2 7 9/4 1 7 9";
    ask(cases, "the first number lies under the smaller target", "(e,(frame,{@seq}))", turned, "0 1 2 4 3");
    let two = "0 - 203 -/1 0 4 -/2 1 7 1/3 1 7 2/4 0 4 -/5 4 7 2/6 4 7 1";
    ask(cases, "the least x, though its y is larger", "(e,(frame,{@seq}))", two, "0 1 4 2 6");
    let doubled = "0 - 203 -/1 0 4 -/2 1 7 1/3 0 4 -/4 3 7 1/5 3 7 1";
    ask(cases, "the least y of the same x", "(e,(frame,{@seq}))", doubled, "0 1 3 2 4");
    // Below port 1 stand the frames 2 and 3, and 6 lies below 3: on the way down 7 is met first.
    let across = "0 - 203 -/1 0 3 -/2 1 4 -/3 1 4 -/4 0 3 -/5 4 4 -/6 3 7 1/7 2 7 1/8 5 7 1";
    ask(cases, "pairs by numbers, not on the way down", "(e,(port,{frame.@seq}))", across, "0 1 4 6 8");
    // Of the second port 8 lies below 4 and 7 below 5.
    let behind = "0 - 203 -/1 0 3 -/2 1 4 -/3 0 3 -/4 3 4 -/5 3 4 -/6 2 7 1/7 5 7 1/8 4 7 1";
    ask(cases, "the least y by numbers, not on the way down", "(e,(port,{frame.@seq}))", behind, "0 1 3 6 7");
    // Request 2: the frames are one value though their attributes stand in two orders; the pair of the empty path is the frames.
    let orders = "0 - 203 -/1 0 4 -/2 1 6 1/3 1 7 2/4 0 4 -/5 4 7 2/6 4 6 1";
    ask(cases, "attributes in two orders", "(e,(frame,{e,@id,@seq}))", orders, "0 1 4 1 4 2 6 3 5");
}

fn several_key_paths(cases: &mut Cases) {
    // Key paths in the order of records: stamp, @id, @seq, stamp.#.
    let four = "0 - 203 -/1 0 4 -/2 1 7 4/3 1 6 5/4 1 5 -/5 4 1 6/6 0 4 -/7 6 5 -/8 7 1 6/9 6 6 5/10 6 7 4";
    ask(cases, "four key paths, eleven numbers", "(e,(frame,{stamp,@id,@seq,stamp.#}))", four, "0 1 6 4 7 3 9 2 10 5 8");
    // Frames 1 and 4 share @id alone, 4 and 7 @seq alone, 4 and 10 both.
    let both = "0 - 203 -/1 0 4 -/2 1 6 1/3 1 7 1/4 0 4 -/5 4 6 1/6 4 7 2/7 0 4 -/8 7 6 2/9 7 7 2/10 0 4 -/11 10 6 1/12 10 7 2";
    ask(cases, "both key paths have to agree", "(e,(frame,{@id,@seq}))", both, "0 4 10 5 11 6 12");
}

/// "12 carries it for the lowest broken key": key 1, though key 2 is broken at a smaller context.
fn lowest_key(cases: &mut Cases) {
    let keys = ["(e,(stamp,{e}))", "(port,(frame,{@seq}))", "(e,(_*.frame,{@seq}))"];
    let nodes = "0 - 203 -/1 0 3 -/2 1 4 -/3 2 7 1/4 1 4 -/5 4 7 1";
    let lowest = |keys: &[&str]| check_tree(&profile(keys), &key("(e,(run,{e}))"), &tree(nodes));
    cases.put("witness: of the lowest key", lowest(&keys), "refused 12 1 1 witness 1 2 4 3 5");
    let turned = [keys[0], keys[2], keys[1]];
    cases.put("witness: of the lowest key, the keys turned round", lowest(&turned), "refused 12 1 1 witness 0 2 4 3 5");
    cases.put("witness: none where the question is kept", lowest(&keys[..1]), "refused 13 3 0");
}

/// The same numbers in edition 2; a tree that has an attribute twice has no witness there.
fn editions(cases: &mut Cases) {
    let second = |keys: &[&str]| joined(&[&hex("05 00 06 00 02"), &profile(keys)]);
    let asked = "(_*,(_*.frame,{@id,@seq}))";
    // Ports 1 and 2; the frame 4 of port 1 and the frame 3 of port 2 have the same @id and @seq.
    let nodes = "0 - 203 -/1 0 3 -/2 0 3 -/3 2 4 -/4 1 4 -/5 3 7 8/6 4 6 9/7 4 7 8/8 3 6 9";
    let wanted = "0 3 4 8 6 5 7";
    for (name, all) in [("1", profile(&[])), ("2", second(&[]))] {
        cases.put(&format!("witness, edition {}", name), keep(&all, &key(asked), &tree(nodes)), &format!("broken {}", wanted));
    }
    let broken = check_tree(&second(&["(e,(port,{@id}))", asked]), &key("(e,(run,{e}))"), &wide_tree(nodes));
    cases.put("witness, edition 2, of key 1", broken, &format!("refused 12 1 1 witness {}", wanted));
    let repeated = "0 - 203 -/1 0 3 -/2 1 6 4/3 1 6 4";
    cases.put("witness, edition 2, none where 16 is due", keep(&second(&[]), &key("(port,(@id,{e}))"), &tree(repeated)), "refused 16 3 3");
}
