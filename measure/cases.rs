//! One call of a public operation: its inputs, and the answer that both sides have to give.
use crate::reference::records::ANSWER_BYTES;

#[derive(Clone, Copy, PartialEq, Eq)]
pub enum Operation {
    Rewrite,
    Include,
    Keep,
    CheckProof,
    CheckCounterexample,
    ListBlock,
    Decide,
    Reduce,
    Trim,
}

impl Operation {
    pub fn name(self) -> &'static str {
        match self {
            Operation::Rewrite => "rewrite",
            Operation::Include => "include",
            Operation::Keep => "keep",
            Operation::CheckProof => "check_proof",
            Operation::CheckCounterexample => "check_counterexample",
            Operation::ListBlock => "list_block",
            Operation::Decide => "decide",
            Operation::Reduce => "reduce",
            Operation::Trim => "trim",
        }
    }

    /// How many times the reference's time the product may take (the aims of docs/COST.md).
    pub fn aim(self) -> f64 {
        match self {
            Operation::Keep | Operation::CheckCounterexample => 3.0,
            _ => 2.0,
        }
    }

    /// The cases of an answer, by their words: 0 is always `refused`.
    pub fn answers(self) -> [&'static str; 3] {
        match self {
            Operation::Rewrite => ["refused", "rewritten", ""],
            Operation::Include => ["refused", "included", "not included"],
            Operation::Keep => ["refused", "kept", "broken"],
            Operation::CheckProof | Operation::CheckCounterexample => ["refused", "accepted", ""],
            Operation::ListBlock => ["refused", "listed", ""],
            Operation::Decide => ["refused", "implied", "not implied"],
            Operation::Reduce => ["refused", "reduced", ""],
            Operation::Trim => ["refused", "trimmed", ""],
        }
    }
}

/// The case of the answer and its values, as crate test_exports writes them: refusal number, input, record; or bytes used; or of a witness
/// context and targets.
pub type Words = [usize; 4];

/// Inputs stand in the operation's order; what an operation does not take is empty.
pub struct Case {
    pub operation: Operation,
    pub input: String,
    pub profile: Vec<u8>,
    pub second: Vec<u8>,
    pub third: Vec<u8>,
    pub block: usize,
    pub wanted: &'static str,
}

impl Case {
    pub fn new(operation: Operation, input: impl Into<String>, inputs: [Vec<u8>; 3], wanted: &'static str) -> Case {
        let [profile, second, third] = inputs;
        Case { operation, input: input.into(), profile, second, third, block: 0, wanted }
    }

    pub fn answer_of(&self, words: &Words) -> &'static str {
        self.operation.answers()[words[0]]
    }
}

pub fn answer_buffer() -> Vec<u8> {
    vec![0; ANSWER_BYTES]
}
