//! Cases of the public operations as a stream of frames, and their answers as a stream of lines.
//!
//! A frame: operation (1 byte), then, 4 bytes each and little-endian, number (record of a body, block of
//! a listing of either kind, key of a dropped proof), room (size of the answer buffer that is lent), three lengths; then the three inputs:
//! profile; question, first path, line or list of names; tree, proof, second path or the segments of a campaign (`campaign::framed`).
//!
//! An answer: a line, the same that the programs print (`refused N I R`, `implied BYTES`, `kept`, `broken Q A B X Y ..`, ..),
//! with `body BYTES`, `listed BYTES` and `reduced 0,2 BYTES` besides (the numbers of the dropped keys, `-` for none); where it ends in
//! BYTES, so many raw bytes follow.
use super::operations::*;
use super::records::Refusal;
use super::witness::Witness;
use std::io::{BufRead, Read, Write};

pub const REWRITE: u8 = 1;
pub const BODY: u8 = 2;
pub const INCLUDE: u8 = 3;
pub const KEEP: u8 = 4;
pub const CHECK_PROOF: u8 = 5;
pub const CHECK_TREE: u8 = 6;
pub const DECIDE: u8 = 7;
pub const LIST: u8 = 8;
pub const READ_LINE: u8 = 9;
pub const WRITE_LINE: u8 = 10;
pub const REDUCE: u8 = 11;
pub const DROPPED_PROOF: u8 = 12;
pub const TRIM: u8 = 13;
pub const SALVAGE: u8 = 14;
pub const SALVAGE_LISTING: u8 = 15;
pub const CAMPAIGN: u8 = 16;
/// By number; one that is not taken has no name.
pub const OPERATIONS: [&str; 17] = [
    "",
    "rewrite",
    "body",
    "include",
    "keep",
    "proof",
    "tree",
    "decide",
    "list",
    "read line",
    "write line",
    "reduce",
    "dropped proof",
    "trim",
    "salvage",
    "salvage listing",
    "campaign",
];

#[derive(Clone)]
pub struct Case {
    pub operation: u8,
    pub number: u32,
    pub room: u32,
    pub inputs: [Vec<u8>; 3],
}

#[derive(Clone, PartialEq, Eq, Debug)]
pub struct Answer {
    pub line: String,
    pub bytes: Vec<u8>,
}

pub fn write_case(out: &mut dyn Write, case: &Case) -> std::io::Result<()> {
    out.write_all(&[case.operation])?;
    out.write_all(&case.number.to_le_bytes())?;
    out.write_all(&case.room.to_le_bytes())?;
    for input in &case.inputs {
        out.write_all(&(input.len() as u32).to_le_bytes())?;
    }
    case.inputs.iter().try_for_each(|input| out.write_all(input))
}

pub fn write_answer(out: &mut dyn Write, answer: &Answer) -> std::io::Result<()> {
    out.write_all(answer.line.as_bytes())?;
    out.write_all(b"\n")?;
    out.write_all(&answer.bytes)
}

/// Words of a line that ends in a number of bytes, which follow it.
pub const WITH_BYTES: [&str; 12] = [
    "rewritten ",
    "body ",
    "listed ",
    "implied ",
    "not implied ",
    "reduced ",
    "proof ",
    "trimmed ",
    "key ",
    "text ",
    "salvaged ",
    "reported ",
];

/// The next answer of a stream; none where it ends or breaks off.
pub fn read_answer(stream: &mut dyn BufRead) -> Option<Answer> {
    let mut line = Vec::new();
    stream.read_until(b'\n', &mut line).ok()?;
    if line.pop() != Some(b'\n') {
        return None;
    }
    let line = String::from_utf8_lossy(&line).to_string();
    let mut length = 0;
    if WITH_BYTES.iter().any(|word| line.starts_with(word)) {
        length = line.rsplit(' ').next()?.parse::<u64>().ok()?;
    }
    let mut bytes = Vec::new();
    stream.take(length).read_to_end(&mut bytes).ok()?;
    if bytes.len() as u64 == length {
        Some(Answer { line, bytes })
    } else {
        None
    }
}

fn word(line: &str) -> Answer {
    Answer { line: line.to_string(), bytes: Vec::new() }
}

fn with_bytes(word: &str, bytes: Vec<u8>) -> Answer {
    Answer { line: format!("{} {}", word, bytes.len()), bytes }
}

/// The numbers of the dropped keys stand before the number of bytes (02, request 3).
fn with_dropped((bytes, dropped): (Vec<u8>, Vec<usize>)) -> Answer {
    let numbers: Vec<String> = dropped.iter().map(|number| number.to_string()).collect();
    with_bytes(&format!("reduced {}", if numbers.is_empty() { "-".to_string() } else { numbers.join(",") }), bytes)
}

/// The words, and behind them the numbers of a witness (02, request 9).
fn with_witness(words: &str, witness: &Witness) -> Answer {
    let numbers: Vec<String> = witness.iter().map(|number| number.to_string()).collect();
    word(&format!("{} {}", words, numbers.join(" ")))
}

fn refused(refusal: Refusal) -> Answer {
    word(&format!("refused {} {} {}", refusal.number, refusal.input, refusal.record))
}

fn countered(outcome: Result<Witness, Objection>) -> Answer {
    match outcome {
        Ok(witness) => with_witness("accepted", &witness),
        Err(Objection { refusal, witness: None }) => refused(refusal),
        Err(Objection { refusal, witness: Some(witness) }) => with_witness(&format!("{} witness", refused(refusal).line), &witness),
    }
}

/// What the reference answers.
pub fn answer(case: &Case) -> Answer {
    let [a, b, c] = &case.inputs;
    let (number, room) = (case.number, case.room as usize);
    let either = |found: bool, yes: &str, no: &str| word(if found { yes } else { no });
    match case.operation {
        REWRITE => rewrite(a, room).map(|bytes| with_bytes("rewritten", bytes)),
        BODY => Ok(with_bytes("body", body(a, number as usize).to_vec())),
        INCLUDE => include(a, b, c).map(|found| either(found, "included", "not included")),
        KEEP => keep(a, b, c).map(|broken| broken.map_or(word("kept"), |witness| with_witness("broken", &witness))),
        CHECK_PROOF => check_proof(a, b, c).map(|_| word("accepted")),
        CHECK_TREE => Ok(countered(check_counterexample(a, b, c))),
        LIST => list(a, c, number as u64, room).map(|bytes| with_bytes("listed", bytes)),
        READ_LINE => read_line(a, b, room).map(|bytes| with_bytes("key", bytes)),
        WRITE_LINE => write_line(a, b, room).map(|bytes| with_bytes("text", bytes)),
        REDUCE => reduce(a, room).map(with_dropped),
        DROPPED_PROOF => prove_dropped(a, number as usize, room).map(|bytes| with_bytes("proof", bytes)),
        TRIM => trim(a, b, c, room).map(|bytes| with_bytes("trimmed", bytes)),
        SALVAGE => salvage(a, c, room).map(|bytes| with_bytes("salvaged", bytes)),
        SALVAGE_LISTING => list_salvage(a, c, number as u64, room).map(|bytes| with_bytes("listed", bytes)),
        CAMPAIGN => report(b, a, c, room).map(|bytes| with_bytes("reported", bytes)),
        _ => decide(a, b, room).map(|decision| match decision {
            Decision::Implied(proof) => with_bytes("implied", proof),
            Decision::NotImplied(tree) => with_bytes("not implied", tree),
        }),
    }
    .unwrap_or_else(refused)
}

/// Whether an answer is right. Which accepted proof is written is open (01): of `implied` the proof is checked, and of a dropped key
/// against the reduced profile; of everything else each byte is compared.
pub fn is_right(case: &Case, found: &Answer) -> bool {
    let wanted = answer(case);
    if case.operation == DECIDE && wanted.line.starts_with("implied ") && found.line.starts_with("implied ") {
        let [profile, question, _] = &case.inputs;
        return check_proof(profile, question, &found.bytes) == Ok(());
    }
    if case.operation == DROPPED_PROOF && !wanted.bytes.is_empty() && found.line.starts_with("proof ") {
        let question = dropped_question(&case.inputs[0], case.number as usize);
        return question.map_or(false, |(reduced, key)| check_proof(&reduced, &key, &found.bytes) == Ok(()));
    }
    *found == wanted
}
