//! The product's operations, through the static library of crate test_exports. A slice crosses as a pointer and a length.
use crate::cases::{Case, Operation, Words};

type Bytes = *const u8;
type Room = *mut u8;
type Told = *mut Words;

extern "C" {
    fn bench_rewrite(profile: Bytes, _: usize, answer: Room, _: usize, told: Told);
    fn bench_include(profile: Bytes, _: usize, path: Bytes, _: usize, other: Bytes, _: usize, told: Told);
    fn bench_keep(profile: Bytes, _: usize, question: Bytes, _: usize, tree: Bytes, _: usize, told: Told);
    fn bench_check_proof(profile: Bytes, _: usize, question: Bytes, _: usize, proof: Bytes, _: usize, told: Told);
    fn bench_check_counterexample(profile: Bytes, _: usize, question: Bytes, _: usize, tree: Bytes, _: usize, told: Told);
    fn bench_list_block(profile: Bytes, _: usize, tree: Bytes, _: usize, block: usize, answer: Room, _: usize, told: Told);
    fn bench_decide(profile: Bytes, _: usize, question: Bytes, _: usize, answer: Room, _: usize, told: Told);
    fn bench_reduce(profile: Bytes, _: usize, answer: Room, _: usize, told: Told);
    fn bench_trim(profile: Bytes, _: usize, question: Bytes, _: usize, proof: Bytes, _: usize, answer: Room, _: usize, told: Told);
}

/// The words of the answer; bytes used stand at the front of the answer buffer.
pub fn run(case: &Case, answer: &mut [u8]) -> Words {
    let mut told: Words = [0; 4];
    let (p, s, t) = (case.profile.as_ptr(), case.second.as_ptr(), case.third.as_ptr());
    let (ps, ss, ts) = (case.profile.len(), case.second.len(), case.third.len());
    let (a, room) = (answer.as_mut_ptr(), answer.len());
    // Each pointer and length is of one live slice, the answer's lent to nobody else: what the slices of the exports ask.
    unsafe {
        match case.operation {
            Operation::Rewrite => bench_rewrite(p, ps, a, room, &mut told),
            Operation::Include => bench_include(p, ps, s, ss, t, ts, &mut told),
            Operation::Keep => bench_keep(p, ps, s, ss, t, ts, &mut told),
            Operation::CheckProof => bench_check_proof(p, ps, s, ss, t, ts, &mut told),
            Operation::CheckCounterexample => bench_check_counterexample(p, ps, s, ss, t, ts, &mut told),
            Operation::ListBlock => bench_list_block(p, ps, s, ss, case.block, a, room, &mut told),
            Operation::Decide => bench_decide(p, ps, s, ss, a, room, &mut told),
            Operation::Reduce => bench_reduce(p, ps, a, room, &mut told),
            Operation::Trim => bench_trim(p, ps, s, ss, t, ts, a, room, &mut told),
        }
    }
    told
}
