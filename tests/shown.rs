//! Holds the programs `show`, `make` and `advise` to the reference, every byte that they print and write.
//!
//! shown run PROGRAMS FOLDER SEED       makes the cases, runs the programs, counts, and fails if one differs or an outcome is too rare;
//!                                      the first that differ are printed and lie below FOLDER
//! shown run PROGRAMS FOLDER SEED PART  the same for by-hand, profiles, texts, proofs, trees or advice alone, whatever the counts
//! shown wrong PROGRAMS FOLDER SEED     runs a small share of the cases; each wrong line of the reference has to be seen in the answers
//! shown wrong PROGRAMS FOLDER SEED N   the same for one line, with the first case that sees it
//! shown NAME WORDS ..                  stands in for the program NAME, by the reference: `shown` itself may be PROGRAMS
//!
//! PROGRAMS is the folder of the programs, or a command that takes their name as its first word (tests/run_program.sh).
#[path = "shown/advices.rs"]
mod advices;
#[path = "shown/by_hand.rs"]
mod by_hand;
#[path = "shown/graph.rs"]
mod graph;
#[path = "shown/profiles.rs"]
mod profiles;
#[path = "shown/proofs.rs"]
mod proofs;
mod reference;
#[path = "shown/runner.rs"]
mod runner;
#[path = "shown/stand_in.rs"]
mod stand_in;
#[path = "shown/texts.rs"]
mod texts;
#[path = "shown/trees.rs"]
mod trees;
#[path = "shown/wrong_lines.rs"]
mod wrong_lines;

use runner::Runner;

/// How many random cases there are of each sort.
struct Plan {
    profiles: usize,
    texts: usize,
    proofs: usize,
    trees: usize,
    questions: usize,
}

const WHOLE: Plan = Plan { profiles: 2_200, texts: 1_500, proofs: 500, trees: 700, questions: 1_300 };
/// A wrong line is seen in fewer.
const SHARE: Plan = Plan { profiles: 40, texts: 150, proofs: 60, trees: 60, questions: 150 };

/// The least number of cases with each outcome in a whole run. An outcome is the program's words, and its answer without numbers but a
/// refusal's.
const LEAST: [(&str, usize); 62] = [
    ("profiles accepted", 2_000),
    ("profiles of edition 2", 400),
    ("profiles of 64 keys", 5),
    ("profiles of 199 labels", 2),
    ("profiles with names of 32 bytes", 50),
    ("profiles with key paths in another order", 500),
    ("show profile: nothing", 1),
    ("show profile: refused 1", 20),
    ("show profile: refused 2", 10),
    ("show profile: refused 3", 20),
    ("show profile: refused 4", 20),
    ("show profile: refused 5", 8),
    ("show profile: refused 6", 8),
    ("show profile: refused 7", 4),
    ("show profile: refused 15", 20),
    ("make profile: no line", 400),
    ("make profile: line refused 17", 200),
    ("make profile: line refused 18", 40),
    ("make profile: line refused 4", 20),
    ("make profile: line refused 5", 10),
    ("make profile: line refused 6", 10),
    ("make profile: refused 2", 40),
    ("make profile: refused 3", 100),
    ("make profile: refused 7", 10),
    ("make profile: refused 15", 20),
    ("damaged texts made", 100),
    ("proofs decided", 300),
    ("proofs trimmed", 300),
    ("proofs with over 10 lines", 100),
    ("proofs with 10 lines", 5),
    ("proofs with over 100 lines", 8),
    ("lines by rule 0", 50),
    ("lines by rule 1", 50),
    ("lines by rule 2", 50),
    ("lines by rule 3", 50),
    ("lines by rule 4", 50),
    ("lines by rule 5", 50),
    ("lines by rule 6", 50),
    ("lines by rule 7", 50),
    ("lines by rule 8", 50),
    ("lines by rule 9", 20),
    ("lines by rule 10", 20),
    ("show proof: refused 9", 10),
    ("show proof: refused 10", 4),
    ("trees decided", 300),
    ("trees of 178 nodes", 1),
    ("trees with a context that is a target", 20),
    ("trees with a node of several marks", 50),
    ("trees equal by .", 50),
    ("trees with several key paths", 50),
    ("trees with a value over 65,535", 50),
    ("show tree: kept", 30),
    ("show tree: refused 8", 10),
    ("show dot: shown", 300),
    ("advise: implied", 200),
    ("advise: nothing near", 200),
    ("advice of 1 key", 100),
    ("advice of several keys", 50),
    ("advice of 16 keys", 8),
    ("cuts advised", 200),
    ("key paths advised", 200),
    ("keys decided", 500),
];

type Asker = fn(&mut Runner, u64, &Plan);

const PARTS: [(&str, Asker); 6] = [
    ("by-hand", |runner, _, _| by_hand::ask(runner)),
    ("profiles", |runner, seed, plan| profiles::ask(runner, seed, plan.profiles)),
    ("texts", |runner, seed, plan| texts::ask(runner, seed, plan.texts)),
    ("proofs", |runner, seed, plan| proofs::ask(runner, seed, plan.proofs)),
    ("trees", |runner, seed, plan| trees::ask(runner, seed, plan.trees)),
    ("advice", |runner, seed, plan| advices::ask(runner, seed, plan.questions)),
];

/// All parts, or the one that is named.
fn ask(runner: &mut Runner, seed: u64, plan: &Plan, only: Option<&str>) {
    for (_, asker) in PARTS.iter().filter(|(name, _)| only.map_or(true, |only| only == *name)) {
        asker(runner, seed, plan);
    }
}

/// Whether the run went as it has to; none where the words are wrong.
fn run(words: &[&str]) -> Option<bool> {
    let seed = words.get(3)?.parse::<u64>().ok()?;
    let mut runner = Runner::new(words[1], words[2]);
    match words {
        ["run", _, _, _] => {
            ask(&mut runner, seed, &WHOLE, None);
            Some(runner.is_fine(&LEAST))
        }
        ["run", _, _, _, part] => {
            ask(&mut runner, seed, &WHOLE, Some(part));
            Some(runner.is_fine(&[]) && !runner.asked().is_empty())
        }
        ["wrong", ..] if words.len() <= 5 => {
            let line = words.get(4).map(|word| word.parse::<usize>().unwrap_or(0));
            ask(&mut runner, seed, &SHARE, None);
            Some(runner.is_fine(&[]) && wrong_lines::are_seen(runner.asked(), line))
        }
        _ => None,
    }
}

fn main() {
    let arguments: Vec<String> = std::env::args().skip(1).collect();
    let words: Vec<&str> = arguments.iter().map(|word| word.as_str()).collect();
    let answer = match words.first() {
        Some(&"run") | Some(&"wrong") => run(&words),
        Some(_) => stand_in::answer(&words),
        None => None,
    };
    if answer.is_none() {
        eprintln!("usage: shown run|wrong PROGRAMS FOLDER SEED [LINE] | shown NAME WORDS ..");
    }
    if answer != Some(true) {
        std::process::exit(1);
    }
}
