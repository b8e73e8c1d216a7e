//! A comparison that cannot fail shows nothing: each wrong line of the reference has to be caught in what
//! `replay` answered.
use crate::counts::{NOT_HERE, PRESENT};
use crate::reference::cases::cases;
use crate::reference::stream::*;
use crate::reference::{choose_wrong_line, WRONG_LINES};
use std::io::BufRead;

/// So many wrong lines, and in the answers of so many operations, have to be caught in `replay`'s answers.
const LEAST_LINES: usize = 5;
const LEAST_OPERATIONS: usize = 5;

/// A case and what was answered. For an operation that `replay` does not have yet the reference's own
/// answer stands in: that shows only that the cases reach the line.
fn answered(case: Case, found: Answer) -> (Case, Answer) {
    let found = if found.line == NOT_HERE { answer(&case) } else { found };
    (case, found)
}

/// The first case of each of the line's operations that differs, by operation.
fn first_caught(answered: &[(Case, Answer)], line: usize) -> [Option<usize>; OPERATIONS.len()] {
    let operations = WRONG_LINES[line - 1].0;
    let mut first = [None; OPERATIONS.len()];
    choose_wrong_line(line);
    for (number, (case, found)) in answered.iter().enumerate() {
        let at = case.operation as usize;
        if operations.contains(&case.operation) && first[at].is_none() && !is_right(case, found) {
            first[at] = Some(number);
            if operations.iter().all(|&each| first[each as usize].is_some()) {
                break;
            }
        }
    }
    choose_wrong_line(0);
    first
}

pub fn are_caught(seed: u64, count: usize, found: &mut dyn BufRead) -> bool {
    let pairs = cases(seed, count).map_while(|case| read_answer(found).map(|answer| answered(case, answer)));
    let answered: Vec<(Case, Answer)> = pairs.collect();
    let (mut lines, mut missed) = (0, 0);
    let mut operations = [false; OPERATIONS.len()];
    for (at, (_, text)) in WRONG_LINES.iter().enumerate() {
        let first = first_caught(&answered, at + 1);
        let name = |each: usize| first[each].map(|case| format!("{} (case {})", OPERATIONS[each], case));
        let names = |here: bool| -> Vec<String> {
            (1..OPERATIONS.len()).filter(|&each| PRESENT.contains(&(each as u8)) == here).filter_map(name).collect()
        };
        let (here, later) = (names(true), names(false));
        match (here.is_empty(), later.is_empty()) {
            (false, _) => println!("wrong line {} caught in replay's answers of {}: {}", at + 1, here.join(", "), text),
            (true, false) => println!("wrong line {} only tried on the reference's own answers of {}: {}", at + 1, later.join(", "), text),
            (true, true) => println!("wrong line {} is NOT caught: {}", at + 1, text),
        }
        lines += !here.is_empty() as usize;
        missed += (here.is_empty() && later.is_empty()) as usize;
        PRESENT.iter().for_each(|&each| operations[each as usize] |= first[each as usize].is_some());
    }
    let operations = operations.iter().filter(|&&each| each).count();
    println!("{} of {} wrong lines caught in replay's answers, of {} operations", lines, WRONG_LINES.len(), operations);
    missed == 0 && lines >= LEAST_LINES && operations >= LEAST_OPERATIONS
}
