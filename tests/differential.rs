//! Holds the product to the reference, which is written from document 01 alone.
//!
//! differential cases SEED COUNT                 the stream that the program `replay` reads
//! differential answers SEED COUNT               what the reference answers, as `replay` would
//! differential compare SEED COUNT FOLDER        reads answers on standard input, counts, and fails if one
//!                                               differs or, in a whole run, an outcome is too rare; the
//!                                               first that differ are printed and written below FOLDER
//! differential evidence SEED COUNT FOUND        the check cases of the evidence in the file of answers
//! differential accepted SEED COUNT FOUND FOLDER reads answers to them: each has to be accepted
//! differential wrong SEED COUNT                 reads answers: each wrong line of the reference is caught
//! differential calls SEED COUNT                 the stream that tests/calls/stream.c reads: the three calls for C alone
//! differential told SEED COUNT FOLDER           reads answers to them: each has to be what the details can say
//! differential self SEED COUNT                  what must hold within the reference itself
//! differential sample cases                     a case of each outcome: `replay`'s own file stdin
//! differential sample answers                   reads answers to them and writes them, if all are right: its stdout
//!
//! COUNT random cases follow the fixed ones. reference/stream.rs has the format.
#[path = "differential/calls.rs"]
mod calls;
#[path = "differential/consistency.rs"]
mod consistency;
#[path = "differential/counts.rs"]
mod counts;
#[path = "differential/evidence.rs"]
mod evidence;
#[path = "differential/files.rs"]
mod files;
mod reference;
#[path = "differential/spelling.rs"]
mod spelling;
#[path = "differential/wrong_lines.rs"]
mod wrong_lines;

use counts::{outcome, Tally, PRESENT};
use evidence::{evidence_cases, is_accepted};
use files::Differences;
use reference::cases::cases;
use reference::stream::*;
use std::collections::BTreeMap;
use std::io::{stdin, stdout, BufRead, BufWriter, Result, Write};

/// The sample is drawn from so many cases, of at most so many bytes each.
const SAMPLE_SEED: u64 = 1;
const SAMPLE_COUNT: usize = 20_000;
const SAMPLE_BYTES: usize = 400;

fn compare(seed: u64, count: usize, folder: &str) -> bool {
    let mut stream = stdin().lock();
    let mut tally = Tally::default();
    let mut differences = Differences::new(folder);
    let mut number = 0;
    for case in cases(seed, count) {
        let found = read_answer(&mut stream);
        if !tally.add(&case, found.as_ref()) {
            differences.add(&format!("case {} differs", number), &case, &answer(&case), found.as_ref());
        }
        if found.is_none() {
            break;
        }
        number += 1;
    }
    let rest = stream.fill_buf().map_or(0, |rest| rest.len());
    if rest > 0 {
        println!("something stands after the last answer");
    }
    tally.is_fine(number) && rest == 0
}

/// For each operation that `replay` has and each outcome the first case that has it and is short.
fn sample() -> Vec<Case> {
    let mut seen = BTreeMap::new();
    for case in cases(SAMPLE_SEED, SAMPLE_COUNT).filter(|case| PRESENT.contains(&case.operation)) {
        let answer = answer(&case);
        let bytes = case.inputs.iter().map(|input| input.len()).sum::<usize>() + answer.bytes.len();
        if bytes <= SAMPLE_BYTES {
            seen.entry((case.operation, outcome(&case, &answer))).or_insert(case);
        }
    }
    seen.into_values().collect()
}

/// Which accepted proof is written is open, so the sample's answers are `replay`'s own, held to the reference.
fn write_right_answers() -> Result<bool> {
    let mut found = stdin().lock();
    let mut out = Vec::new();
    for case in sample() {
        match read_answer(&mut found).filter(|answer| is_right(&case, answer)) {
            Some(answer) => write_answer(&mut out, &answer)?,
            None => return Ok(false),
        }
    }
    stdout().write_all(&out).map(|_| true)
}

fn write_cases(cases: impl Iterator<Item = Case>) -> Result<bool> {
    let mut out = BufWriter::new(stdout().lock());
    for case in cases {
        write_case(&mut out, &case)?;
    }
    out.flush().map(|_| true)
}

fn write_answers(cases: impl Iterator<Item = Case>) -> Result<bool> {
    let mut out = BufWriter::new(stdout().lock());
    for case in cases {
        write_answer(&mut out, &answer(&case))?;
    }
    out.flush().map(|_| true)
}

fn usage() -> Result<bool> {
    eprintln!("usage: differential cases|answers|compare|evidence|accepted|wrong|calls|told|self SEED COUNT .., or sample cases|answers");
    Ok(false)
}

/// Whether all is right.
fn run(words: &[&str]) -> Result<bool> {
    let number = |at: usize| words.get(at).and_then(|word| word.parse::<u64>().ok());
    let (seed, count) = (number(1).unwrap_or(0), number(2).unwrap_or(0) as usize);
    match words {
        ["sample", "cases"] => write_cases(sample().into_iter()),
        ["sample", "answers"] => write_right_answers(),
        [_, ..] if number(1).is_none() || number(2).is_none() => usage(),
        ["cases", _, _] => write_cases(cases(seed, count)),
        ["answers", _, _] => write_answers(cases(seed, count)),
        ["compare", _, _, folder] => Ok(compare(seed, count, folder)),
        ["evidence", _, _, found] => write_cases(evidence_cases(seed, count, found)?),
        ["accepted", _, _, found, folder] => {
            let check_cases = evidence_cases(seed, count, found)?;
            Ok(is_accepted(check_cases, &mut stdin().lock(), &mut Differences::new(folder)))
        }
        ["wrong", _, _] => Ok(wrong_lines::are_caught(seed, count, &mut stdin().lock())),
        ["calls", _, _] => write_cases(calls::call_cases(seed, count)),
        ["told", _, _, folder] => Ok(calls::are_told(seed, count, &mut stdin().lock(), &mut Differences::new(folder))),
        ["self", _, _] => Ok(spelling::is_one() && consistency::is_consistent(seed, count)),
        _ => usage(),
    }
}

fn main() {
    let arguments: Vec<String> = std::env::args().skip(1).collect();
    let words: Vec<&str> = arguments.iter().map(|word| word.as_str()).collect();
    match run(&words) {
        Ok(true) => {}
        Ok(false) => std::process::exit(1),
        Err(error) => {
            eprintln!("differential: {}", error);
            std::process::exit(2);
        }
    }
}
