//! Inputs: proof lines as input 3. Each refusal number that a line can get before it is asked whether it follows; the limits.
use super::expectations::Cases;
use super::notation::*;

const Q0: &str = "(e,(e,{e}))";

pub fn put(cases: &mut Cases) {
    heads_and_kinds(cases);
    keys(cases);
    long_paths(cases);
    many_key_paths(cases);
    number_of_lines(cases);
    sizes(cases);
    before_nine(cases);
}

/// The proof of (e,(e,{e})): the line of rule 1, and one of rule 3 that changes nothing.
fn sound(lines: usize) -> Vec<u8> {
    let again = proof(&["3 0 - (e,(e,{e}))"]).repeat(lines - 1);
    joined(&[&proof(&["1 - - (e,(e,{e}))"]), &again])
}

fn check(cases: &mut Cases, name: &str, proof: &[u8], wanted: &str) {
    cases.put(name, check_proof(&labels(BENCH), &key(Q0), proof), wanted);
}

/// 1 and 2, as record 0 and as record 2 after two sound lines.
fn heads_and_kinds(cases: &mut Cases) {
    for (name, bytes, number) in [
        ("one byte", "0d", 1),
        ("three bytes", "0d 00 04", 1),
        ("length 3", "03 00 04 00 01 ff ff ff ff 00 00 01 00", 1),
        ("past the end", "0e 00 04 00 01 ff ff ff ff 00 00 01 00", 1),
        ("without body", "04 00 04 00", 1),
        ("premises cut", "08 00 04 00 01 ff ff ff", 1),
        ("without key", "09 00 04 00 01 ff ff ff ff", 1),
        ("key path missing", "0c 00 04 00 01 ff ff ff ff 00 00 01", 1),
        ("a byte left over", "0e 00 04 00 01 ff ff ff ff 00 00 01 00 00", 1),
        ("a node with a body of 4", "08 00 03 00 ff ff cb 00", 1),
        ("a damaged key", "07 00 02 00 00 00 01", 1),
        ("a label", "07 00 01 00 08 01 61", 2),
        ("a key", "08 00 02 00 00 00 01 00", 2),
        ("a node", "09 00 03 00 ff ff cb 00 00", 2),
        ("a node of kind 5", "0b 00 05 00 ff ff cb 00 00 00 00", 2),
        ("a node of kind 5 with a body of 5", "09 00 05 00 ff ff cb 00 00", 1),
        ("kind 0", "0d 00 00 00 01 ff ff ff ff 00 00 01 00", 2),
        ("kind 260 is not kind 4", "0d 00 04 01 01 ff ff ff ff 00 00 01 00", 2),
    ] {
        check(cases, &format!("line 0: {}", name), &hex(bytes), &format!("refused {} 3 0", number));
        check(cases, &format!("line 2: {}", name), &joined(&[&sound(2), &hex(bytes)]), &format!("refused {} 3 2", number));
    }
}

/// 4, 5 and 6 of a line's key, as lines 0 and 1. The lines are of rule 1 with an empty target, so they would follow.
fn keys(cases: &mut Cases) {
    for (name, text, number) in [
        ("undeclared in the context", "(8,(e,{e}))", 4),
        ("undeclared in a key path", "(e,(e,{8}))", 4),
        ("203 in the context", "(203,(e,{e}))", 4),
        ("doubled 0", "(_*._*,(e,{e}))", 4),
        ("0 in a key path", "(e,(e,{run._*}))", 4),
        ("no key path", "(e,(e,{}))", 5),
        ("out of order by length", "(e,(e,{run,e}))", 5),
        ("out of order by bytes", "(e,(e,{port,run}))", 5),
        ("repeated", "(e,(e,{run,run}))", 5),
        ("attribute within the context", "(@id.run,(e,{e}))", 6),
        ("attribute before a key path", "(@id,(e,{e,run}))", 6),
        ("text within a key path", "(e,(e,{#.run}))", 6),
    ] {
        let line = line_of(BENCH, &format!("1 - - {}", text));
        check(cases, &format!("line 0: {}", name), &line, &format!("refused {} 3 0", number));
        check(cases, &format!("line 1: {}", name), &joined(&[&sound(1), &line]), &format!("refused {} 3 1", number));
    }
}

/// A line `RULE FIRST SECOND (C, (T, S))` over raw symbols.
fn line(rule: u8, context: &[u8], target: &[u8], paths: &[Vec<u8>]) -> Vec<u8> {
    let mut body = joined(&[&[rule, 255, 255, 255, 255, context.len() as u8], context, &[target.len() as u8], target]);
    body.push(paths.len() as u8);
    paths.iter().for_each(|path| body.extend(joined(&[&[path.len() as u8], path])));
    of_kind(4, &body)
}

/// "In a proof line, C and T may have 32 symbols, and there may be 64 key paths of 16." A line of rule 1 with an empty target
/// follows, so a proof whose last line is the question is accepted; with a target it does not follow.
fn long_paths(cases: &mut Cases) {
    let empty = vec![Vec::new()];
    let end = sound(1);
    let with_end = |line: Vec<u8>| joined(&[&line, &end]);
    check(cases, "line: context of 32", &with_end(line(1, &[2; 32], &[], &empty)), "accepted");
    check(cases, "line: context of 33", &with_end(line(1, &[2; 33], &[], &empty)), "refused 4 3 0");
    check(cases, "line: context of 255", &with_end(line(1, &[2; 255], &[], &empty)), "refused 4 3 0");
    check(cases, "line: target of 32", &with_end(line(1, &[], &[2; 32], &empty)), "refused 9 3 0");
    check(cases, "line: target of 33", &with_end(line(1, &[], &[2; 33], &empty)), "refused 4 3 0");
    check(cases, "line: key path of 16", &with_end(line(1, &[], &[], &[vec![2; 16]])), "accepted");
    check(cases, "line: key path of 17", &with_end(line(1, &[], &[], &[vec![2; 17]])), "refused 4 3 0");
    check(cases, "line: key path of 17 as the second", &with_end(line(1, &[], &[], &[vec![2], vec![2; 17]])), "refused 4 3 0");
    check(cases, "line: 32 and 16 together", &with_end(line(1, &[2; 32], &[], &[vec![2; 16]])), "accepted");
}

/// So many different paths of that length in the order of their bytes: the number in binary, 2 for 0 and 3 for 1.
fn paths(count: usize, length: usize) -> Vec<Vec<u8>> {
    let path = |number: usize| (0..length).map(|at| 2 + ((number >> (length - 1 - at)) & 1) as u8).collect();
    (0..count).map(path).collect()
}

fn many_key_paths(cases: &mut Cases) {
    let end = sound(1);
    for (count, wanted) in [(1, "accepted"), (63, "accepted"), (64, "accepted"), (65, "refused 5 3 0"), (255, "refused 5 3 0")] {
        let proof = joined(&[&line(1, &[2; 32], &[], &paths(count, 16)), &end]);
        check(cases, &format!("line: {} key paths of 16", count), &proof, wanted);
    }
    let mut swapped = paths(64, 16);
    swapped.swap(62, 63);
    check(cases, "line: 64 key paths, the last two out of order", &line(1, &[], &[], &swapped), "refused 5 3 0");
    let mut twice = paths(64, 16);
    twice[63] = twice[62].clone();
    check(cases, "line: 64 key paths, the last two alike", &line(1, &[], &[], &twice), "refused 5 3 0");
    let mut fault = paths(65, 16);
    fault[64][15] = 8;
    check(cases, "line: 4 before 5, in key path 64 of 65", &line(1, &[], &[], &fault), "refused 4 3 0");
    let mut late = paths(64, 16);
    late[63] = [vec![6], vec![2; 15]].concat();
    check(cases, "line: 6 in the last of 64 key paths", &line(1, &[], &[], &late), "refused 6 3 0");
}

/// "256 lines"; "7: .. this .. line is one too many (its 4 head bytes decide)".
fn number_of_lines(cases: &mut Cases) {
    let full = sound(256);
    check(cases, "256 lines", &full, "accepted");
    check(cases, "257 lines", &sound(257), "refused 7 3 256");
    for (name, bytes, wanted) in [
        ("only a head", "04 00 04 00", "refused 7 3 256"),
        ("length 0", "00 00 04 00", "refused 7 3 256"),
        ("past the end", "ff ff 04 00", "refused 7 3 256"),
        ("undeclared", "0e 00 04 00 01 ff ff ff ff 01 c8 00 01 00", "refused 7 3 256"),
        ("does not follow", "0d 00 04 00 02 ff ff ff ff 00 00 01 00", "refused 7 3 256"),
        ("no kind is there", "0d 00 04", "refused 1 3 256"),
        ("a key", "08 00 02 00 00 00 01 00", "refused 2 3 256"),
        ("a damaged key", "07 00 02 00 00 00 01", "refused 1 3 256"),
    ] {
        check(cases, &format!("line 257: {}", name), &joined(&[&full, &hex(bytes)]), wanted);
    }
    let other = joined(&[&sound(255), &proof(&["1 - - (run,(e,{e}))"])]);
    check(cases, "the last of 256 lines is not the question", &other, "refused 10 3 255");
    let broken = joined(&[&sound(255), &proof(&["2 255 - (e,(e,{e}))"])]);
    check(cases, "the last of 256 lines does not follow", &broken, "refused 9 3 255");
}

/// "proof 65,536 bytes": 57 lines of 1,132 bytes, one of 999, and the question's line of 13.
fn sizes(cases: &mut Cases) {
    let large = line(1, &[2; 32], &[], &paths(64, 16));
    let rest = line(1, &[2], &[], &paths(58, 16));
    let full = joined(&[&large.repeat(57), &rest, &sound(1)]);
    assert_eq!((large.len(), rest.len(), full.len()), (1_132, 999, 65_536));
    check(cases, "proof of 65,536 bytes", &full, "accepted");
    check(cases, "proof of 65,537 bytes", &joined(&[&full, &[9]]), "refused 7 3 0");
    check(cases, "proof of 65,535 bytes", &full[..65_535], "refused 1 3 58");
    check(cases, "proof of 65,536 zero bytes", &vec![0; 65_536], "refused 1 3 0");
    check(cases, "proof of 65,537 zero bytes", &vec![0; 65_537], "refused 7 3 0");
    check(cases, "size before the 257th line", &joined(&[&sound(300), &vec![0; 65_536]]), "refused 7 3 0");
}

/// A line's 1, 2, 4, 5, 6 come before its 9: rule 2 has no premise here, so none of these lines follows.
fn before_nine(cases: &mut Cases) {
    for (name, bytes, number) in [
        ("1", "0e 00 04 00 02 00 00 ff ff 00 00 01 00 00", 1),
        ("4", "0e 00 04 00 02 00 00 ff ff 01 c8 00 01 00", 4),
        ("5", "0c 00 04 00 02 00 00 ff ff 00 00 00", 5),
        ("6", "0f 00 04 00 02 00 00 ff ff 02 06 02 00 01 00", 6),
        ("4 and 5: 4", "0d 00 04 00 02 00 00 ff ff 01 c8 00 00", 4),
        ("5 and 6: 5", "11 00 04 00 02 00 00 ff ff 02 06 02 00 02 01 02 00", 5),
        ("nothing", "0d 00 04 00 02 00 00 ff ff 00 00 01 00", 9),
    ] {
        check(cases, &format!("before 9: {}", name), &hex(bytes), &format!("refused {} 3 0", number));
    }
}
