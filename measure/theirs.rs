//! The same operations of the second implementation, with the answer in the same words.
use crate::cases::{Case, Operation, Words};
use crate::reference::operations::{self, Decision};
use crate::reference::records::{Refusal, ANSWER_BYTES};
use crate::reference::witness::Witness;

const FIRST_CASE: usize = 1;
const SECOND_CASE: usize = 2;

fn refused(refusal: Refusal) -> (Words, Vec<u8>) {
    ([0, refusal.number as usize, refusal.input as usize, refusal.record as usize], Vec::new())
}

fn written(case: usize, bytes: Vec<u8>) -> (Words, Vec<u8>) {
    ([case, bytes.len(), 0, 0], bytes)
}

fn said(case: usize) -> (Words, Vec<u8>) {
    ([case, 0, 0, 0], Vec::new())
}

fn either(holds: bool) -> (Words, Vec<u8>) {
    said(if holds { FIRST_CASE } else { SECOND_CASE })
}

/// Of a witness the context and the targets.
fn shown(case: usize, witness: Witness) -> (Words, Vec<u8>) {
    ([case, witness[0], witness[1], witness[2]], Vec::new())
}

fn decided(decision: Decision) -> (Words, Vec<u8>) {
    match decision {
        Decision::Implied(proof) => written(FIRST_CASE, proof),
        Decision::NotImplied(tree) => written(SECOND_CASE, tree),
    }
}

/// The words of the answer, and the bytes that belong at the front of an answer buffer.
pub fn run(case: &Case) -> (Words, Vec<u8>) {
    let (profile, second, third) = (&case.profile[..], &case.second[..], &case.third[..]);
    match case.operation {
        Operation::Rewrite => operations::rewrite(profile, ANSWER_BYTES).map(|bytes| written(FIRST_CASE, bytes)),
        Operation::Include => operations::include(profile, second, third).map(either),
        Operation::Keep => {
            operations::keep(profile, second, third).map(|broken| broken.map_or(said(FIRST_CASE), |witness| shown(SECOND_CASE, witness)))
        }
        Operation::CheckProof => operations::check_proof(profile, second, third).map(|()| said(FIRST_CASE)),
        Operation::CheckCounterexample => operations::check_counterexample(profile, second, third)
            .map(|witness| shown(FIRST_CASE, witness))
            .map_err(|objection| objection.refusal),
        Operation::ListBlock => {
            operations::list(profile, second, case.block as u64, ANSWER_BYTES).map(|bytes| written(FIRST_CASE, bytes))
        }
        Operation::Decide => operations::decide(profile, second, ANSWER_BYTES).map(decided),
        Operation::Reduce => operations::reduce(profile, ANSWER_BYTES).map(|(bytes, _)| written(FIRST_CASE, bytes)),
        Operation::Trim => operations::trim(profile, second, third, ANSWER_BYTES).map(|bytes| written(FIRST_CASE, bytes)),
    }
    .unwrap_or_else(refused)
}
