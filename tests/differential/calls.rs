//! The three calls for C (02, request 14), answered by the C program tests/calls/stream.c.
use crate::files::Differences;
use crate::reference::cases::cases;
use crate::reference::stream::*;
use std::collections::BTreeMap;
use std::io::BufRead;

const CALLS: [u8; 3] = [CHECK_PROOF, CHECK_TREE, DECIDE];
/// What a run has to see.
const VERDICTS: [&str; 5] = ["proof accepted", "tree accepted", "decide implied", "decide not", "decide refused"];

/// The first cases of the stream that are calls.
pub fn call_cases(seed: u64, count: usize) -> impl Iterator<Item = Case> {
    cases(seed, usize::MAX).filter(|case| CALLS.contains(&case.operation)).take(count)
}

/// The details have no field for a witness: it stands behind `accepted` and behind the four words of a refusal.
fn told(mut answer: Answer) -> Answer {
    let words: Vec<&str> = answer.line.split(' ').collect();
    let kept = match words[0] {
        "accepted" => 1,
        "refused" => 4,
        _ => words.len(),
    };
    answer.line = words[..kept.min(words.len())].join(" ");
    answer
}

/// A proof is checked, of everything else each byte is compared.
fn is_told(case: &Case, found: &Answer) -> bool {
    match case.operation {
        DECIDE => is_right(case, found),
        _ => *found == told(answer(case)),
    }
}

/// Whether each answer of the stream is what the reference says, and every verdict was seen.
pub fn are_told(seed: u64, count: usize, stream: &mut dyn BufRead, differences: &mut Differences) -> bool {
    let mut seen: BTreeMap<String, usize> = BTreeMap::new();
    for (number, case) in call_cases(seed, count).enumerate() {
        let found = read_answer(stream);
        match found.as_ref().filter(|found| is_told(&case, found)) {
            Some(right) => {
                let word = right.line.split(' ').next().unwrap_or("");
                *seen.entry(format!("{} {}", OPERATIONS[case.operation as usize], word)).or_insert(0) += 1;
            }
            None => differences.add(&format!("call {} differs", number), &case, &told(answer(&case)), found.as_ref()),
        }
    }
    let list: Vec<String> = seen.iter().map(|(verdict, times)| format!("{} {}", times, verdict)).collect();
    println!("{} calls: {}, {} differ", count, list.join(" · "), differences.count);
    let rest = stream.fill_buf().map_or(0, |rest| rest.len());
    differences.count == 0 && rest == 0 && VERDICTS.iter().all(|verdict| seen.contains_key(*verdict))
}
