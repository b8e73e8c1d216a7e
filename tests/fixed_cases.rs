//! Fixed inputs, each with the answer that documents 01 and 02 give, written by hand.
//!
//! fixed_cases cases            the stream that the program `replay` reads (reference/stream.rs has the format)
//! fixed_cases compare [CASE]   reads replay's answers on standard input and holds each to its expectation; CASE, counted from 1,
//!                              is a case whose expectation is changed, which has to be seen
//! fixed_cases self [LINE]      holds the reference to the same expectations; LINE is one of reference::WRONG_LINES, which has to be seen
//! fixed_cases lines            how many there are
//! fixed_cases programs FOLDER  the cases that a program answers, as files with the command and what it is to print and to write
//!
//! Both name each case that differs and end with the number of cases of each topic; any difference fails. `not here` differs from
//! every expectation. Of `implied` and of a dropped key the proof goes through the reference's proof check, of `not implied` the tree
//! through its counterexample check.
mod reference;
#[path = "fixed_cases/mod.rs"]
mod fixed;

use fixed::expectations::{can_fail, changed, meets, Fixed};
use fixed::programs::write_programs;
use reference::stream::{answer, write_case, Answer, OPERATIONS, WITH_BYTES};
use std::collections::BTreeMap;
use std::io::{Read, Write};

/// Cases, differences and cases that no wrong expectation fails.
#[derive(Default, Clone, Copy)]
struct Count {
    cases: usize,
    differing: usize,
    cannot_fail: usize,
}

/// By topic.
type Counts = BTreeMap<&'static str, Count>;

fn hold(fixed: &Fixed, found: Option<&Answer>, counts: &mut Counts) {
    let count = counts.entry(fixed.topic).or_default();
    count.cases += 1;
    let outcome = match found {
        None => Err("no answer".to_string()),
        Some(found) => meets(&fixed.case, &fixed.wanted, found),
    };
    match (outcome, found) {
        (Err(fault), _) => {
            count.differing += 1;
            println!("differs: {}, {}: {}: {}", fixed.topic, OPERATIONS[fixed.case.operation as usize], fixed.name, fault);
        }
        (Ok(()), Some(found)) if !can_fail(fixed, found) => {
            count.cannot_fail += 1;
            println!("cannot fail: {}: {}", fixed.topic, fixed.name);
        }
        _ => {}
    }
}

/// Prints the counts, and says whether every case was right and able to be wrong.
fn sum_up(counts: &Counts) -> bool {
    let mut whole = Count::default();
    for (topic, count) in counts {
        println!("{}: {} cases, {} differ", topic, count.cases, count.differing);
        whole.cases += count.cases;
        whole.differing += count.differing;
        whole.cannot_fail += count.cannot_fail;
    }
    println!("fixed cases: {} cases, {} differ, {} cannot fail", whole.cases, whole.differing, whole.cannot_fail);
    whole.differing == 0 && whole.cannot_fail == 0
}

fn hold_reference(all: &[Fixed]) -> bool {
    let mut counts = Counts::new();
    for fixed in all {
        hold(fixed, Some(&answer(&fixed.case)), &mut counts);
    }
    sum_up(&counts)
}

/// The next answer of what is left of the stream, which is shortened by it; none where the stream breaks off.
fn next_answer(rest: &mut &[u8]) -> Option<Answer> {
    let end = rest.iter().position(|&byte| byte == b'\n')?;
    let line = String::from_utf8_lossy(&rest[..end]).to_string();
    let mut length = 0;
    if WITH_BYTES.iter().any(|word| line.starts_with(word)) {
        length = line.rsplit(' ').next()?.parse::<usize>().ok()?;
    }
    let bytes = rest[end + 1..].get(..length)?.to_vec();
    *rest = &rest[end + 1 + length..];
    Some(Answer { line, bytes })
}

fn compare(all: &[Fixed], stream: &[u8]) -> bool {
    let mut counts = Counts::new();
    let mut rest = stream;
    for fixed in all {
        // Where the stream breaks off, no later case has an answer either.
        hold(fixed, next_answer(&mut rest).as_ref(), &mut counts);
    }
    if !rest.is_empty() {
        println!("{} bytes stand after the last answer", rest.len());
    }
    sum_up(&counts) && rest.is_empty()
}

fn usage() -> ! {
    eprintln!("usage: fixed_cases cases | compare [CASE] | self [LINE] | lines | programs FOLDER");
    std::process::exit(2);
}

/// Changes the expectation of the case of that number.
fn change(all: &mut [Fixed], word: &str) {
    match word.parse::<usize>() {
        Ok(number) if (1..=all.len()).contains(&number) => {
            let fixed = &mut all[number - 1];
            println!("changed: {}: {}", fixed.topic, fixed.name);
            fixed.wanted = changed(&fixed.wanted);
        }
        _ => usage(),
    }
}

/// Makes that line of the reference wrong.
fn make_wrong(word: &str) {
    match word.parse::<usize>() {
        Ok(number) if (1..=reference::WRONG_LINES.len()).contains(&number) => {
            println!("wrong line: {}", reference::WRONG_LINES[number - 1].1);
            reference::choose_wrong_line(number);
        }
        _ => usage(),
    }
}

fn main() {
    let arguments: Vec<String> = std::env::args().skip(1).collect();
    let words: Vec<&str> = arguments.iter().map(|word| word.as_str()).collect();
    let mut all = fixed::all();
    let is_right = match words[..] {
        ["cases"] => {
            let mut out = Vec::new();
            for fixed in &all {
                // Writing into memory does not fail.
                let _ = write_case(&mut out, &fixed.case);
            }
            std::io::stdout().write_all(&out).is_ok()
        }
        ["lines"] => {
            println!("{}", reference::WRONG_LINES.len());
            true
        }
        ["programs", folder] => write_programs(&all, folder.as_ref()).is_ok(),
        ["self"] => hold_reference(&all),
        ["self", line] => {
            make_wrong(line);
            hold_reference(&all)
        }
        ["compare"] | ["compare", _] => {
            words.get(1).iter().for_each(|word| change(&mut all, word));
            let mut stream = Vec::new();
            std::io::stdin().read_to_end(&mut stream).is_ok() && compare(&all, &stream)
        }
        _ => usage(),
    };
    if !is_right {
        std::process::exit(1);
    }
}
