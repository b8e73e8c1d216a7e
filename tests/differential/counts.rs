//! What a comparison saw, and what a whole run has to see.
use crate::reference::records::{ANSWER, PROFILE, QUESTION, TREE_OR_PROOF};
use crate::reference::stream::*;
use std::collections::BTreeMap;

/// The operations that the program `replay` has: each of their cases is compared. Those of another
/// operation may all be answered `not here`; they are counted apart and compared with nothing.
pub const PRESENT: [u8; 16] = [
    REWRITE,
    BODY,
    INCLUDE,
    KEEP,
    CHECK_PROOF,
    CHECK_TREE,
    DECIDE,
    LIST,
    READ_LINE,
    WRITE_LINE,
    REDUCE,
    DROPPED_PROOF,
    TRIM,
    SALVAGE,
    SALVAGE_LISTING,
    CAMPAIGN,
];
pub const NOT_HERE: &str = "not here";

/// A run of so many cases has to meet the minimums; a shorter one only prints what it saw.
pub const WHOLE_RUN: usize = 200_000;

/// So often each operation and each verdict has to be seen.
pub const LEAST: usize = 10_000;
/// The operations of request 3 search once for each key: fewer of them.
const LEAST_REDUCED: usize = 1_000;
/// So many lines are read, and so many refused by each number that request 1 adds.
const LEAST_LINES: usize = 20_000;
const LEAST_LINES_REFUSED: usize = 1_000;
/// The listing's verdict goes apart by what it lists, and all of them together are twice as many.
const LEAST_SALVAGE_LISTED: usize = 1_000;
const LEAST_SALVAGED: usize = 10_000;
/// A campaign has several trees, each for every key: fewer of them, with and without a refused one.
const LEAST_CAMPAIGNS: usize = 2_000;
const VERDICTS: [(u8, &str); 24] = [
    (REWRITE, "rewritten"),
    (BODY, "body"),
    (INCLUDE, "included"),
    (INCLUDE, "not included"),
    (KEEP, "kept"),
    (KEEP, "broken"),
    (CHECK_PROOF, "accepted"),
    (CHECK_TREE, "accepted"),
    (DECIDE, "implied"),
    (DECIDE, "not implied"),
    (LIST, "listed"),
    (READ_LINE, "key"),
    (WRITE_LINE, "text"),
    (REDUCE, "reduced"),
    (REDUCE, "reduced none"),
    (DROPPED_PROOF, "proof"),
    (DROPPED_PROOF, "proof (empty)"),
    (TRIM, "trimmed"),
    (SALVAGE, "salvaged"),
    (SALVAGE_LISTING, "listed"),
    (SALVAGE_LISTING, "listed (broken keys)"),
    (SALVAGE_LISTING, "listed (empty)"),
    (CAMPAIGN, "reported"),
    (CAMPAIGN, "reported (refused)"),
];

/// Every refusal that an operation can give, by input and numbers (01, "Refusal numbers"). Each has to be
/// seen, and no other: 11 is retired, a body lookup refuses nothing, 7 never has input 2.
const REFUSALS: [(&[u8], u32, &[u32]); 12] = [
    (&[REWRITE, DECIDE, LIST, READ_LINE, WRITE_LINE, REDUCE, DROPPED_PROOF, TRIM, SALVAGE, SALVAGE_LISTING, CAMPAIGN], ANSWER, &[14]),
    (
        &[
            REWRITE,
            INCLUDE,
            KEEP,
            CHECK_PROOF,
            CHECK_TREE,
            DECIDE,
            LIST,
            READ_LINE,
            WRITE_LINE,
            REDUCE,
            DROPPED_PROOF,
            TRIM,
            SALVAGE,
            SALVAGE_LISTING,
            CAMPAIGN,
        ],
        PROFILE,
        &[1, 2, 3, 4, 5, 6, 7, 15],
    ),
    (&[KEEP, CHECK_PROOF, CHECK_TREE, DECIDE, WRITE_LINE, TRIM], QUESTION, &[1, 2, 4, 5, 6]),
    (&[READ_LINE], QUESTION, &[4, 5, 6, 17, 18]),
    (&[INCLUDE], QUESTION, &[4, 6]),
    (&[INCLUDE], TREE_OR_PROOF, &[4, 6]),
    (&[KEEP, CHECK_TREE, LIST], TREE_OR_PROOF, &[1, 2, 7, 8, 16]),
    (&[CHECK_PROOF, TRIM], TREE_OR_PROOF, &[1, 2, 4, 5, 6, 7, 9, 10]),
    (&[SALVAGE, SALVAGE_LISTING], TREE_OR_PROOF, &[7, 8]),
    (&[CAMPAIGN], TREE_OR_PROOF, &[7]),
    (&[CHECK_TREE], PROFILE, &[12]),
    (&[CHECK_TREE], TREE_OR_PROOF, &[13]),
];

/// How often each verdict of an operation has to be seen.
fn least(operation: u8) -> usize {
    match operation {
        REDUCE | DROPPED_PROOF => LEAST_REDUCED,
        SALVAGE_LISTING => LEAST_SALVAGE_LISTED,
        CAMPAIGN => LEAST_CAMPAIGNS,
        _ => LEAST,
    }
}

/// How many cases of an operation there have to be.
fn least_cases(operation: u8) -> usize {
    match operation {
        READ_LINE => LEAST_LINES,
        SALVAGE | SALVAGE_LISTING => LEAST_SALVAGED,
        _ => least(operation),
    }
}

/// Of a report's lines those of the refusal numbers have two numbers.
fn is_refusal_line(line: &[u8]) -> bool {
    let words: Vec<&[u8]> = line.split(|&byte| byte == b' ').collect();
    words.len() == 2 && words[0] != b"unread"
}

/// What a case came to: its verdict without the bytes used, or the refusal's number and input.
pub fn outcome(case: &Case, answer: &Answer) -> String {
    let words: Vec<&str> = answer.line.split(' ').collect();
    let kept = match words[0] {
        "refused" => 3,
        "not" => 2,
        _ => 1,
    };
    let more = match case.operation {
        BODY if answer.bytes.is_empty() => " (empty)",
        DROPPED_PROOF if words[0] == "proof" && answer.bytes.is_empty() => " (empty)",
        REDUCE if words.get(1) == Some(&"-") => " none",
        SALVAGE_LISTING if words[0] == "listed" && answer.bytes.is_empty() => " (empty)",
        SALVAGE_LISTING if String::from_utf8_lossy(&answer.bytes).contains("broken") => " (broken keys)",
        CAMPAIGN if answer.bytes.split(|&byte| byte == b'\n').any(is_refusal_line) => " (refused)",
        _ => "",
    };
    format!("{}{}", words[..kept.min(words.len())].join(" "), more)
}

/// Each outcome that a whole run has to see, and how often.
fn minimums() -> BTreeMap<(u8, String), usize> {
    let mut all = BTreeMap::new();
    for (operation, verdict) in VERDICTS {
        all.insert((operation, verdict.to_string()), least(operation));
    }
    for (operations, input, numbers) in REFUSALS {
        for (&operation, number) in operations.iter().flat_map(|each| numbers.iter().map(move |number| (each, number))) {
            all.insert((operation, format!("refused {} {}", number, input)), 1);
        }
    }
    for number in [17, 18] {
        all.insert((READ_LINE, format!("refused {} {}", number, QUESTION)), LEAST_LINES_REFUSED);
    }
    all.retain(|outcome, _| PRESENT.contains(&outcome.0));
    all
}

/// What a comparison saw, by operation.
#[derive(Default)]
pub struct Tally {
    outcomes: BTreeMap<(u8, String), usize>,
    agreeing: [usize; OPERATIONS.len()],
    not_here: [usize; OPERATIONS.len()],
    differing: [usize; OPERATIONS.len()],
}

fn sum(counts: &[usize]) -> usize {
    counts.iter().sum()
}

fn print_operations(title: &str, counts: &[usize]) {
    let seen = (1..counts.len()).filter(|&at| counts[at] > 0);
    let list: Vec<String> = seen.map(|at| format!("{} {}", OPERATIONS[at], counts[at])).collect();
    println!("{}: {}", title, if list.is_empty() { "none".to_string() } else { list.join(", ") });
}

impl Tally {
    /// Counts one answer, and says whether it is right or not here.
    pub fn add(&mut self, case: &Case, found: Option<&Answer>) -> bool {
        let operation = case.operation as usize;
        match found {
            Some(answer) if answer.line == NOT_HERE && !PRESENT.contains(&case.operation) => self.not_here[operation] += 1,
            Some(answer) if is_right(case, answer) => {
                self.agreeing[operation] += 1;
                *self.outcomes.entry((case.operation, outcome(case, answer))).or_insert(0) += 1;
            }
            _ => {
                self.differing[operation] += 1;
                return false;
            }
        }
        true
    }

    /// An operation that is not present answers all of its cases or none.
    fn half_present(&self) -> Vec<String> {
        let is_half = |at: &usize| self.agreeing[*at] + self.differing[*at] > 0 && self.not_here[*at] > 0;
        let name = |at: usize| format!("{}: some cases are answered and some are `{}`", OPERATIONS[at], NOT_HERE);
        (1..OPERATIONS.len()).filter(is_half).map(name).collect()
    }

    /// Outcomes seen too seldom, and refusals that 01 does not have.
    fn wanting(&self) -> Vec<String> {
        let minimums = minimums();
        let mut all = Vec::new();
        for ((operation, outcome), least) in &minimums {
            let seen = self.outcomes.get(&(*operation, outcome.clone())).copied().unwrap_or(0);
            if seen < *least {
                all.push(format!("{} {}: {} seen, {} wanted", OPERATIONS[*operation as usize], outcome, seen, least));
            }
        }
        for outcome in self.outcomes.keys().filter(|outcome| PRESENT.contains(&outcome.0)) {
            if outcome.1.starts_with("refused ") && !minimums.contains_key(outcome) {
                all.push(format!("{} {}: 01 has no such refusal", OPERATIONS[outcome.0 as usize], outcome.1));
            }
        }
        for &operation in PRESENT.iter().filter(|&&each| self.agreeing[each as usize] < least_cases(each)) {
            all.push(format!("{}: fewer than {} cases", OPERATIONS[operation as usize], least_cases(operation)));
        }
        all
    }

    fn print(&self) {
        for operation in 1..OPERATIONS.len() as u8 {
            let of_this = self.outcomes.iter().filter(|(outcome, _)| outcome.0 == operation);
            let list: Vec<String> = of_this.map(|(outcome, count)| format!("{} {}", count, outcome.1)).collect();
            if !list.is_empty() {
                println!("{}: {}", OPERATIONS[operation as usize], list.join(" · "));
            }
        }
        print_operations("not here", &self.not_here);
        print_operations("differ", &self.differing);
        print_operations("agree", &self.agreeing);
    }

    /// Prints all counts, and says whether they are as a run of so many cases wants them.
    pub fn is_fine(&self, cases: usize) -> bool {
        self.print();
        let (agreeing, differing, not_here) = (sum(&self.agreeing), sum(&self.differing), sum(&self.not_here));
        println!("{} cases: {} agree, {} differ, {} not here", cases, agreeing, differing, not_here);
        let mut faults = self.half_present();
        if cases < WHOLE_RUN {
            println!("minimums: not asked, since the run has fewer than {} cases", WHOLE_RUN);
        } else {
            faults.extend(self.wanting());
            println!("minimums: {} outcomes asked, {} wanting", minimums().len(), faults.len());
        }
        faults.iter().for_each(|fault| println!("fault: {}", fault));
        differing == 0 && faults.is_empty()
    }
}
