//! What each case wants, and whether an answer meets it. An expectation is written by hand from 01; the reference checks only
//! the evidence of a decision (which accepted proof is written is open, so a proof cannot be written down beforehand).
use crate::reference::operations::{check_counterexample, check_proof};
use crate::reference::stream::*;

#[derive(Clone)]
pub enum Wanted {
    /// This line, and no bytes.
    Line(String),
    /// This line, and these bytes.
    Bytes(String, Vec<u8>),
    /// `implied` and a proof that the proof check accepts.
    Implied,
    /// `proof` and a proof that the proof check accepts for this profile and question.
    Proof(Vec<u8>, Vec<u8>),
    /// `not implied`, so many bytes, and a tree that the counterexample check accepts.
    NotImplied(usize),
}

pub struct Fixed {
    pub topic: &'static str,
    pub name: String,
    pub case: Case,
    pub wanted: Wanted,
    /// Where the program that has the operation is run as well.
    pub by_program: Option<Printed>,
}

/// What a program prints, and the bytes of its file OUT; none where it is not to be made.
#[derive(Clone)]
pub struct Printed {
    pub says: Vec<u8>,
    pub out: Option<Vec<u8>>,
}

/// The cases of one topic.
pub struct Cases {
    topic: &'static str,
    pub all: Vec<Fixed>,
}

impl Cases {
    pub fn of(topic: &'static str) -> Cases {
        Cases { topic, all: Vec::new() }
    }

    fn add(&mut self, name: &str, case: Case, wanted: Wanted) {
        self.all.push(Fixed { topic: self.topic, name: name.to_string(), case, wanted, by_program: None });
    }

    /// The case that was put last is answered by its program too.
    pub fn also_by_program(&mut self, says: Vec<u8>, out: Option<Vec<u8>>) {
        if let Some(last) = self.all.last_mut() {
            last.by_program = Some(Printed { says, out });
        }
    }

    /// A case and the line that it wants: `refused 4 1 3`, `kept`, `implied`, `not implied 132`, .. `broken` and an accepted tree may stand
    /// without their witness.
    pub fn put(&mut self, name: &str, case: Case, wanted: &str) {
        let bytes = wanted.strip_prefix("not implied ").map(|count| count.parse::<usize>().unwrap());
        let wanted = match (wanted, bytes) {
            ("implied", _) => Wanted::Implied,
            (_, Some(bytes)) => Wanted::NotImplied(bytes),
            _ => Wanted::Line(wanted.to_string()),
        };
        self.add(name, case, wanted);
    }

    /// A case that wants the proof of a dropped key, which is checked against the reduced profile with that key as the question.
    pub fn put_proof(&mut self, name: &str, case: Case, reduced: &[u8], question: &[u8]) {
        self.add(name, case, Wanted::Proof(reduced.to_vec(), question.to_vec()));
    }

    /// A case that wants these bytes after the word and their number.
    pub fn put_bytes(&mut self, name: &str, case: Case, word: &str, bytes: &[u8]) {
        self.add(name, case, Wanted::Bytes(format!("{} {}", word, bytes.len()), bytes.to_vec()));
    }

    /// The same two of an operation whose program prints that line; a refusal makes no file.
    pub fn put_by_program(&mut self, name: &str, case: Case, wanted: &str) {
        self.put(name, case, wanted);
        self.also_by_program(format!("{}\n", wanted).into_bytes(), None);
    }

    /// The bytes are what the program's file OUT has; behind a line stands a newline there.
    pub fn put_bytes_by_program(&mut self, name: &str, case: Case, word: &str, bytes: &[u8]) {
        let end: &[u8] = if case.operation == WRITE_LINE { b"\n" } else { b"" };
        self.put_bytes(name, case, word, bytes);
        self.also_by_program(format!("{} {}\n", word, bytes.len()).into_bytes(), Some([bytes, end].concat()));
    }
}

fn refused_proof(profile: &[u8], question: &[u8], proof: &[u8]) -> Result<(), String> {
    check_proof(profile, question, proof).map_err(|refusal| format!("the proof is refused: {:?}", refusal))
}

fn evidence(case: &Case, answer: &Answer) -> Result<(), String> {
    let [profile, question, _] = &case.inputs;
    let checked = if answer.line.starts_with("implied ") {
        check_proof(profile, question, &answer.bytes)
    } else {
        check_counterexample(profile, question, &answer.bytes).map(|_| ()).map_err(|objection| objection.refusal)
    };
    checked.map_err(|refusal| format!("the evidence is refused: {:?}", refusal))
}

/// The line of an answer as far as a wanted line goes. Cases from before request 9 say `broken` or `accepted` alone, where the answer has
/// the numbers of the witness behind that word: of these, and only of these, the first word is held to it.
fn line_for<'a>(case: &Case, wanted: &str, found: &'a str) -> &'a str {
    let is_before = matches!((case.operation, wanted), (KEEP, "broken") | (CHECK_TREE, "accepted"));
    match found.split_once(' ') {
        Some((word, _)) if is_before => word,
        _ => found,
    }
}

/// Whether an answer meets what is wanted, and if not, what is wrong with it.
pub fn meets(case: &Case, wanted: &Wanted, found: &Answer) -> Result<(), String> {
    let differs = |wanted: &str| Err(format!("wanted `{}`, found `{}`", wanted, found.line));
    match wanted {
        Wanted::Line(line) if line_for(case, line, &found.line) != line => return differs(line),
        Wanted::Bytes(line, _) if found.line != *line => return differs(line),
        Wanted::Line(_) if !found.bytes.is_empty() => return Err(format!("{} bytes after `{}`", found.bytes.len(), found.line)),
        Wanted::Bytes(_, bytes) if found.bytes != *bytes => return Err(first_difference(bytes, &found.bytes)),
        Wanted::Implied if found.line != format!("implied {}", found.bytes.len()) => return differs("implied .."),
        Wanted::Proof(_, _) if found.line != format!("proof {}", found.bytes.len()) => return differs("proof .."),
        Wanted::Proof(profile, question) => return refused_proof(profile, question, &found.bytes),
        Wanted::NotImplied(bytes) if found.line != format!("not implied {}", bytes) => {
            return differs(&format!("not implied {}", bytes));
        }
        _ => {}
    }
    let is_decided = found.line.starts_with("implied ") || found.line.starts_with("not implied ");
    if case.operation == DECIDE && is_decided {
        return evidence(case, found);
    }
    Ok(())
}

fn first_difference(wanted: &[u8], found: &[u8]) -> String {
    let at = (0..wanted.len().min(found.len())).find(|&at| wanted[at] != found[at]);
    match at {
        Some(at) => format!("byte {}: wanted {}, found {}", at, wanted[at], found[at]),
        None => format!("wanted {} bytes, found {}", wanted.len(), found.len()),
    }
}

/// The expectation changed as little as can be: a comparison that cannot fail shows nothing.
pub fn changed(wanted: &Wanted) -> Wanted {
    match wanted {
        Wanted::Line(line) => Wanted::Line(other_line(line)),
        Wanted::Bytes(line, bytes) => {
            let mut other = bytes.clone();
            match other.last_mut() {
                Some(last) => *last ^= 1,
                None => other.push(0),
            }
            Wanted::Bytes(line.clone(), other)
        }
        Wanted::Implied => Wanted::NotImplied(66),
        Wanted::Proof(_, _) => Wanted::Line("proof 0".to_string()),
        Wanted::NotImplied(bytes) => Wanted::NotImplied(bytes + 11),
    }
}

fn other_line(line: &str) -> String {
    let other = match line {
        "kept" => "broken",
        "broken" => "kept",
        "included" => "not included",
        "not included" => "included",
        "accepted" => "refused 9 3 0",
        _ => {
            let (front, record) = line.rsplit_once(' ').unwrap();
            return format!("{} {}", front, record.parse::<u32>().unwrap() + 1);
        }
    };
    other.to_string()
}

/// Whether the case notices both a changed expectation and, where evidence is wanted, a proof with another last byte.
pub fn can_fail(fixed: &Fixed, found: &Answer) -> bool {
    let mut other = found.clone();
    if let (Wanted::Implied | Wanted::Proof(_, _), Some(last)) = (&fixed.wanted, other.bytes.last_mut()) {
        *last ^= 1;
        if meets(&fixed.case, &fixed.wanted, &other).is_ok() {
            return false;
        }
    }
    meets(&fixed.case, &changed(&fixed.wanted), found).is_err()
}
