//! 02, request 10: shorter proofs. A trimming pass "keeps of several lines with equal keys only the earliest, points premises
//! there, then ends at the earliest line that has the question's key, removes lines from which that line is not reached through premises, and
//! renumbers". What is left keeps its order; 14 comes first, then the proof check's refusals.
use super::expectations::Cases;
use super::notation::*;

pub fn put(cases: &mut Cases) {
    doubled_and_idle(cases);
    rows_of_01(cases);
    second_edition(cases);
    many_lines(cases);
    refusals(cases);
}

const PORT_FRAME: &str = "(e,(port.frame,{@seq}))";
const FRAME: &str = "(port,(frame,{@seq}))";
const PORT: &str = "(e,(port,{frame.@seq}))";

/// The proof of a: key 0 and rule 7 on it.
const OF_A: &str = "10 00 04 00 00 00 00 ff ff 00 02 03 04 01 01 07 \
                    10 00 04 00 07 00 00 ff ff 01 03 01 04 01 01 07";
/// The proof of f: key 1, then key 0, then rule 9 on both.
const OF_F: &str = "10 00 04 00 00 01 00 ff ff 01 03 01 04 01 01 07 \
                    10 00 04 00 00 00 00 ff ff 00 01 03 01 02 04 07 \
                    10 00 04 00 09 01 00 00 00 00 02 03 04 01 01 07";

/// The proof as it is written, and what is left of it, which trimming does not change any more.
fn ask(cases: &mut Cases, name: &str, all: &[u8], asked: &str, lines: &[&str], left: &[u8]) {
    cases.put_bytes(&format!("trimmed: {}", name), trim(all, &key(asked), &proof(lines)), "trimmed", left);
    cases.put_bytes(&format!("trimmed again: {}", name), trim(all, &key(asked), left), "trimmed", left);
    cases.put(&format!("checked after trimming: {}", name), check_proof(all, &key(asked), left), "accepted");
}

fn texts(lines: &[String]) -> Vec<&str> {
    lines.iter().map(String::as_str).collect()
}

fn doubled_and_idle(cases: &mut Cases) {
    let cite = |number: u32, key: &str| format!("0 {} - {}", number, key);
    let by = |rule: u32, premise: u32, key: &str| format!("{} {} - {}", rule, premise, key);
    let one = profile(&[PORT_FRAME]);
    let a = hex(OF_A);
    ask(cases, "T1, an idle line in front", &one, FRAME, &["1 - - (port.frame,(e,{@seq}))", &cite(0, PORT_FRAME), &by(7, 1, FRAME)], &a);
    let doubled = [
        cite(0, PORT_FRAME),
        by(3, 0, PORT_FRAME),
        by(5, 1, PORT_FRAME),
        by(7, 2, FRAME),
        "1 - - (run,(e,{@id}))".to_string(),
        by(3, 3, FRAME),
    ];
    let lines = texts(&doubled);
    ask(cases, "T2, doubled lines in use, and the question twice", &one, FRAME, &lines, &a);
    ask(cases, "T2 without its last two lines", &one, FRAME, &lines[..4], &a);
    let two = profile(&[PORT, FRAME]);
    let f = hex(OF_F);
    let ninth = |first: u32, second: u32| format!("9 {} {} {}", first, second, PORT_FRAME);
    let turned = [cite(1, FRAME), cite(0, PORT), by(3, 0, FRAME), by(3, 1, PORT), ninth(3, 2)];
    ask(cases, "T3, both premises are doubles", &two, PORT_FRAME, &texts(&turned), &f);
    let first_only = [cite(1, FRAME), cite(0, PORT), by(3, 0, FRAME), by(3, 1, PORT), ninth(1, 2)];
    ask(cases, "T3, the second premise alone is a double", &two, PORT_FRAME, &texts(&first_only), &f);
    let three = profile(&[PORT, FRAME, PORT_FRAME]);
    let longer = [cite(1, FRAME), cite(0, PORT), ninth(1, 0), cite(2, PORT_FRAME)];
    ask(cases, "T4, the earliest line with the question's key", &three, PORT_FRAME, &texts(&longer), &f);
    let shorter = [cite(2, PORT_FRAME), cite(1, FRAME), cite(0, PORT), ninth(2, 1)];
    let cited = hex("10 00 04 00 00 02 00 ff ff 00 02 03 04 01 01 07");
    ask(cases, "T4 with the cited question in front", &three, PORT_FRAME, &texts(&shorter), &cited);
    cases.put("trimmed: T5, another last key", trim(&two, &key(PORT_FRAME), &proof(&[&cite(1, FRAME)])), "refused 10 3 0");
}

/// The shortest proofs of the implied rows: they stay, and an idle line in front and the question once more behind fall away.
fn rows_of_01(cases: &mut Cases) {
    let rows: [(&str, &[&str], &[&str]); 6] = [
        ("a", &[PORT_FRAME], &["0 0 - (e,(port.frame,{@seq}))", "7 0 - (port,(frame,{@seq}))"]),
        ("c", &["(e,(port.frame,{e,stamp}))"], &["0 0 - (e,(port.frame,{e,stamp}))", "8 0 - (e,(port,{e,frame.stamp}))"]),
        ("f", &[PORT, FRAME], &["0 0 - (e,(port,{frame.@seq}))", "0 1 - (port,(frame,{@seq}))", "9 0 1 (e,(port.frame,{@seq}))"]),
        ("g", &[], &["1 - - (run,(e,{@id}))"]),
        ("h", &["(e,(_*.frame,{@seq}))"], &["0 0 - (e,(_*.frame,{@seq}))", "6 0 - (e,(port.frame,{@seq}))"]),
        ("l", &["(e,(port,{e,frame}))"], &["0 0 - (e,(port,{e,frame}))", "2 0 - (e,(port,{e,frame.@seq}))"]),
    ];
    for (row, keys, lines) in rows {
        let asked = key_text(lines[lines.len() - 1]);
        let left = proof(lines);
        ask(cases, &format!("the proof of {}", row), &profile(keys), asked, lines, &left);
        let behind: Vec<String> = std::iter::once("1 - - (stamp,(e,{e}))".to_string())
            .chain(lines.iter().map(|line| one_further(line)))
            .chain([format!("3 {} - {}", lines.len(), asked)])
            .collect();
        ask(cases, &format!("the proof of {} with two lines more", row), &profile(keys), asked, &texts(&behind), &left);
    }
}

/// The line behind one line more: its premises have the next numbers. What rule 0 cites stays.
fn one_further(line: &str) -> String {
    let words: Vec<&str> = line.split_whitespace().collect();
    let next = |word: &str| word.parse::<u32>().map_or(word.to_string(), |number| (number + 1).to_string());
    match words[0] {
        "0" => line.to_string(),
        _ => format!("{} {} {} {}", words[0], next(words[1]), next(words[2]), words[3]),
    }
}

/// Rule 10 has no premise.
fn second_edition(cases: &mut Cases) {
    let second = |keys: &[&str]| joined(&[&hex("05 00 06 00 02"), &profile(keys)]);
    let (wide, asked) = ("(_*.port,(@id,{e}))", "(run.port,(@id,{e}))");
    let lines = [
        &format!("10 - - {}", wide),
        "0 0 - (e,(run,{@id}))",
        &format!("10 - - {}", wide),
        &format!("5 2 - {}", asked),
        &format!("10 - - {}", asked),
    ];
    let left = proof(&[lines[0], &format!("5 0 - {}", asked)]);
    ask(cases, "rule 10", &second(&["(e,(run,{@id}))"]), asked, &lines, &left);
    cases.put("trimmed: rule 10 in edition 1", trim(&profile(&["(e,(run,{@id}))"]), &key(asked), &proof(&lines)), "refused 9 3 0");
}

/// 256 lines pass, 257 do not; the last premise there can be is 254.
fn many_lines(cases: &mut Cases) {
    let asked = "(run,(e,{@id}))";
    let first = format!("1 - - {}", asked);
    let again = |count: usize| -> Vec<u8> { (1..count).flat_map(|at| line_of(BENCH, &format!("3 {} - {}", at - 1, asked))).collect() };
    let equal = |count: usize| joined(&[&proof(&[&first]), &again(count)]);
    let none = profile(&[]);
    cases.put_bytes("trimmed: 256 equal lines, each from the one before", trim(&none, &key(asked), &equal(256)), "trimmed", &proof(&[&first]));
    cases.put("trimmed: 257 lines", trim(&none, &key(asked), &equal(257)), "refused 7 3 256");
    let idle = proof(&[&first]).repeat(254);
    let late = [format!("0 0 - {}", PORT_FRAME), format!("7 254 - {}", FRAME)];
    let lines = joined(&[&idle, &proof(&[&late[0], &late[1]])]);
    cases.put_bytes("trimmed: 254 idle lines in front", trim(&profile(&[PORT_FRAME]), &key(FRAME), &lines), "trimmed", &hex(OF_A));
    // One idle line in front, and the question's own line 254 times behind.
    let early = [format!("0 0 - {}", PORT_FRAME), format!("7 0 - {}", FRAME)];
    let behind = line_of(BENCH, &early[1]).repeat(254);
    let lines = joined(&[&proof(&[&early[0], &early[1]]), &behind]);
    cases.put_bytes("trimmed: the question 255 times", trim(&profile(&[PORT_FRAME]), &key(FRAME), &lines), "trimmed", &hex(OF_A));
}

/// "A proof that is not accepted is refused with the checker's number", and its record.
fn refusals(cases: &mut Cases) {
    let one = profile(&[PORT_FRAME]);
    let (sound, asked) = (hex(OF_A), key(FRAME));
    let (first, last) = sound.split_at(16);
    for (name, bytes, wanted) in [
        ("empty", vec![], "refused 10 3 0"),
        ("its last line is another key's", first.to_vec(), "refused 10 3 0"),
        ("a forward premise", joined(&[last, first]), "refused 9 3 0"),
        ("a line that does not follow and is not needed", joined(&[&proof(&["1 - - (e,(run,{@id}))"]), &sound]), "refused 9 3 0"),
        ("the same behind the question", joined(&[&sound, &proof(&["1 - - (e,(run,{@id}))"])]), "refused 9 3 2"),
        ("cut", sound[..31].to_vec(), "refused 1 3 1"),
        ("a byte more", joined(&[&sound, &[9]]), "refused 1 3 2"),
        ("a key record behind it", joined(&[&sound, &asked]), "refused 2 3 2"),
        ("an undeclared symbol", joined(&[&proof(&["1 - - (8,(e,{e}))"]), &sound]), "refused 4 3 0"),
        ("no key path", joined(&[&proof(&["1 - - (run,(e,{}))"]), &sound]), "refused 5 3 0"),
        ("no valid key", joined(&[&proof(&["1 - - (@id.run,(e,{e}))"]), &sound]), "refused 6 3 0"),
        ("over its size", vec![0; 65_537], "refused 7 3 0"),
    ] {
        cases.put(&format!("not trimmed: {}", name), trim(&one, &asked, &bytes), wanted);
    }
    let bad = [9];
    cases.put("not trimmed: 14 before all", in_room(65_535, trim(&bad, &bad, &bad)), "refused 14 4 0");
    cases.put("not trimmed: 14, though all is sound", in_room(65_535, trim(&one, &asked, &sound)), "refused 14 4 0");
    cases.put_bytes("trimmed: a larger answer buffer", in_room(65_537, trim(&one, &asked, &sound)), "trimmed", &sound);
    cases.put("not trimmed: the profile first", trim(&bad, &bad, &bad), "refused 1 1 0");
    cases.put("not trimmed: then the question", trim(&one, &bad, &bad), "refused 1 2 0");
    cases.put("not trimmed: then the proof", trim(&one, &asked, &bad), "refused 1 3 0");
    cases.put("not trimmed: a key twice", trim(&profile(&[PORT_FRAME, PORT_FRAME]), &asked, &sound), "refused 15 1 7");
    cases.put("not trimmed: another question", trim(&one, &key(PORT_FRAME), &sound), "refused 10 3 1");
}
