//! The product beside the second implementation, in one program: the same calls, in the same run.
//!
//! measure table              both sides' answers compared and timed
//! measure stacks             the stack that each operation needs
//! measure stack NAME BYTES   the operation NAME with no more than so many bytes of stack: ends by a signal where they do not do
//! measure frames             the inputs of the three calls for C, as tests/calls/stream.c reads them
//! measure xml FOLDER         the bench-like segment as XML, and schemas for it, for a look at another tool
mod cases;
mod inputs;
mod ours;
#[path = "../tests/reference/mod.rs"]
mod reference;
mod stack;
mod table;
mod theirs;
mod timing;
mod trees;
mod xml;

use cases::{answer_buffer, Case, Operation};
use reference::operations::check_proof;
use reference::records::ANSWER_BYTES;
use reference::stream;

/// Both answers are the wanted one, and the same to the byte. Which proof is written is open, so a proof is checked and not compared.
fn compare(case: &Case) {
    let mut answer = answer_buffer();
    let found = ours::run(case, &mut answer);
    let (expected, bytes) = theirs::run(case);
    let context = format!("{}: {}", case.operation.name(), case.input);
    assert_eq!(case.answer_of(&found), case.wanted, "{}", context);
    assert_eq!(case.answer_of(&expected), case.wanted, "{}", context);
    if case.operation == Operation::Decide && case.wanted == "implied" {
        let proof = &answer[..found[1]];
        assert!(check_proof(&case.profile, &case.second, proof).is_ok(), "{}: the reference refuses our proof", context);
        return;
    }
    assert_eq!(found, expected, "{}", context);
    assert!(answer[..bytes.len()] == bytes[..], "{}: other bytes", context);
}

fn print_table() {
    println!("| operation | input | answer | ours µs | reference µs | ratio | aim |");
    println!("|---|---|---|--:|--:|--:|--:|");
    for case in table::cases() {
        compare(&case);
        let (ours, theirs) = timing::least(&case);
        let (name, aim) = (case.operation.name(), case.operation.aim());
        let missed = if ours / theirs <= aim { "" } else { " missed" };
        println!(
            "| {} | {} | {} | {:.1} | {:.1} | {:.2} | {:.0}{} |",
            name, case.input, case.wanted, ours, theirs, ours / theirs, aim, missed
        );
    }
}

/// The calls for C take what the operations take; those of the deeper trees are among them.
fn write_frames() -> std::io::Result<()> {
    for case in table::deep_cases().into_iter().chain(table::cases()) {
        let operation = match case.operation {
            Operation::CheckProof => stream::CHECK_PROOF,
            Operation::CheckCounterexample => stream::CHECK_TREE,
            Operation::Decide => stream::DECIDE,
            _ => continue,
        };
        let inputs = [case.profile, case.second, case.third];
        stream::write_case(&mut std::io::stdout(), &stream::Case { operation, number: 0, room: ANSWER_BYTES as u32, inputs })?;
    }
    Ok(())
}

fn main() {
    let words: Vec<String> = std::env::args().skip(1).collect();
    let words: Vec<&str> = words.iter().map(String::as_str).collect();
    match words[..] {
        ["table"] => print_table(),
        ["stacks"] => stack::print_needs(),
        ["stack", name, bytes] => stack::run_within(name, bytes.parse().expect("BYTES is a number")),
        ["frames"] => write_frames().expect("standard output takes the frames"),
        ["xml", folder] => xml::write_all(std::path::Path::new(folder)),
        _ => panic!("usage: measure table | stacks | stack NAME BYTES | frames | xml FOLDER"),
    }
}
