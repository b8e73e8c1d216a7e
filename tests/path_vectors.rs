//! Cases for `path_words::member` and `path_words::included`, and the answers that document 01 gives.
//!
//! path_vectors cases  SEED          the stream that the program `test_paths` reads
//! path_vectors answers SEED [LINE]  the lines that it must print; LINE makes the reference's wrong
//!                                   line of that number take the place of the right one
//! path_vectors counts SEED          how many cases of each sort there are, with the answers' counts
//!
//! A frame: type (1 byte; 1 a run and a path, 2 two paths), two lengths (2 bytes each, little-endian),
//! the first bytes, the second bytes. An answer: a line `1` yes, `0` no.
//!
//! Membership of a run knows no classes, so its runs need not be valid. Inclusion is asked of a valid
//! P only, as the operation refuses any other by 6 before it asks; Q may be anything in normal form.
//! Answers on short paths are made by going through words one by one, on long ones by the search of
//! reference/paths.rs.
mod reference;

use reference::paths::*;
use reference::random::Random;
use std::io::Write;

const RUN_AND_PATH: u8 = 1;
const TWO_PATHS: u8 = 2;
const ELEMENT_A: u8 = 2;
const ELEMENT_B: u8 = 3;
const ATTRIBUTE: u8 = 6;
const SYMBOLS: [u8; 5] = [ANY_PATH, ELEMENT_A, ELEMENT_B, ATTRIBUTE, TEXT];
const LABELS: [u8; 6] = [ELEMENT_A, ELEMENT_B, ATTRIBUTE, TEXT, FILLER_ELEMENT, FILLER_ATTRIBUTE];
const SHORT_SYMBOLS: usize = 3;
const SHORT_LABELS: usize = 3;
/// Two more than a short path has symbols: a word that tells two paths apart need not be longer than
/// P, where each any-path is one label.
const ENUMERATED_LABELS: usize = 5;
const LONG_SYMBOLS: usize = 32;
const LONG_LABELS: usize = 4_096;
const RANDOM_PAIRS: usize = 2_000;
const RANDOM_RUNS: usize = 600;

struct Case {
    sort: &'static str,
    frame: u8,
    first: Vec<u8>,
    second: Vec<u8>,
    answer: bool,
}

fn classes() -> Classes {
    let mut classes = Classes::none();
    classes.declare(ELEMENT_A, Class::Element);
    classes.declare(ELEMENT_B, Class::Element);
    classes.declare(ATTRIBUTE, Class::Attribute);
    classes
}

/// All lists of up to `longest` of the given numbers, shorter first.
fn lists(numbers: &[u8], longest: usize) -> Vec<Vec<u8>> {
    let mut all: Vec<Vec<u8>> = vec![Vec::new()];
    let mut from = 0;
    for _ in 0..longest {
        let to = all.len();
        for i in from..to {
            for &number in numbers {
                let mut longer = all[i].clone();
                longer.push(number);
                all.push(longer);
            }
        }
        from = to;
    }
    all
}

fn short_paths() -> Vec<Vec<u8>> {
    lists(&SYMBOLS, SHORT_SYMBOLS).into_iter().filter(|path| is_normal(path)).collect()
}

/// Every pair of short paths with P valid: P's valid words, one by one, looked for in Q.
fn short_inclusions(cases: &mut Vec<Case>) {
    let classes = classes();
    let words = valid_words(&LABELS, &classes, ENUMERATED_LABELS);
    let paths = short_paths();
    let holds: Vec<Vec<bool>> =
        paths.iter().map(|path| words.iter().map(|word| is_word_of_short(word, path)).collect()).collect();
    for (p, of_p) in paths.iter().zip(&holds) {
        if !is_valid(p, &classes) {
            continue;
        }
        for (q, of_q) in paths.iter().zip(&holds) {
            let answer = of_p.iter().zip(of_q).all(|(&in_p, &in_q)| !in_p || in_q);
            cases.push(Case { sort: "short inclusions", frame: TWO_PATHS, first: p.clone(), second: q.clone(), answer });
        }
    }
}

/// By the sentence of 01; a wrong line can only be in the other way to ask.
fn is_word_of_short(run: &[u8], path: &[u8]) -> bool {
    let by_definition = is_word_by_definition(run, path);
    if reference::wrong(0) {
        assert_eq!(by_definition, is_word(run, path));
        return by_definition;
    }
    is_word(run, path)
}

fn short_runs(cases: &mut Vec<Case>) {
    let runs = lists(&LABELS, SHORT_LABELS);
    for path in short_paths() {
        for run in &runs {
            let answer = is_word_of_short(run, &path);
            cases.push(Case { sort: "short runs", frame: RUN_AND_PATH, first: run.clone(), second: path.clone(), answer });
        }
    }
}

/// A path in normal form, valid, of up to 32 symbols; few labels, so that inclusions are frequent.
fn random_path(random: &mut Random, longest: usize) -> Vec<u8> {
    let length = random.below(longest + 1);
    let mut path: Vec<u8> = Vec::new();
    while path.len() < length {
        let symbol = random.one_of(&[ANY_PATH, ELEMENT_A, ELEMENT_A, ELEMENT_B]);
        if !(symbol == ANY_PATH && path.last() == Some(&ANY_PATH)) {
            path.push(symbol);
        }
    }
    if !path.is_empty() && random.chance(1, 4) {
        *path.last_mut().unwrap() = random.one_of(&[ATTRIBUTE, TEXT]);
    }
    path
}

/// A path that holds the given one, or nearly: parts give way to any-paths, then one symbol may change.
fn random_wider(random: &mut Random, path: &[u8]) -> Vec<u8> {
    let mut wider: Vec<u8> = Vec::new();
    let mut at = 0;
    while at < path.len() {
        if random.chance(1, 4) {
            wider.push(ANY_PATH);
            at += random.below(4);
        } else {
            wider.push(path[at]);
            at += 1;
        }
    }
    if !wider.is_empty() && random.chance(1, 2) {
        let changed = random.below(wider.len());
        wider[changed] = random.one_of(&SYMBOLS);
    }
    let mut wider = normal_form(&wider);
    wider.truncate(LONG_SYMBOLS);
    wider
}

fn random_inclusions(cases: &mut Vec<Case>, random: &mut Random) {
    let classes = classes();
    for number in 0..RANDOM_PAIRS {
        let p = random_path(random, LONG_SYMBOLS);
        let q = if number % 4 == 0 { random_path(random, LONG_SYMBOLS) } else { random_wider(random, &p) };
        assert!(is_valid(&p, &classes) && is_normal(&p) && is_normal(&q));
        let answer = is_included(&p, &q, &classes);
        cases.push(Case { sort: "random inclusions", frame: TWO_PATHS, first: p, second: q, answer });
    }
}

/// A run that is a word of the path, or nearly.
fn random_run(random: &mut Random, path: &[u8], longest: usize) -> Vec<u8> {
    let mut run: Vec<u8> = Vec::new();
    let gaps = path.iter().filter(|&&symbol| symbol == ANY_PATH).count();
    for &symbol in path {
        if symbol == ANY_PATH {
            let length = random.below(longest / gaps.max(1) + 1);
            run.extend((0..length).map(|_| random.one_of(&[ELEMENT_A, ELEMENT_A, ELEMENT_B, FILLER_ELEMENT])));
        } else {
            run.push(symbol);
        }
    }
    run.truncate(longest);
    if !run.is_empty() && random.chance(1, 2) {
        let changed = random.below(run.len());
        run[changed] = random.one_of(&LABELS);
    }
    run
}

fn random_runs(cases: &mut Vec<Case>, random: &mut Random) {
    for number in 0..RANDOM_RUNS {
        let longest = [8, 64, 512, LONG_LABELS][number % 4];
        let path = random_path(random, LONG_SYMBOLS);
        let run = random_run(random, &path, longest);
        let answer = is_word(&run, &path);
        cases.push(Case { sort: "random runs", frame: RUN_AND_PATH, first: run, second: path, answer });
    }
}

/// Runs that cost an unwise search time without end, and the longest ones.
fn traps(cases: &mut Vec<Case>) {
    let mut put = |run: Vec<u8>, path: Vec<u8>| {
        let answer = is_word(&run, &path);
        cases.push(Case { sort: "traps", frame: RUN_AND_PATH, first: run, second: path, answer });
    };
    let (a, b, any) = (ELEMENT_A, ELEMENT_B, ANY_PATH);
    let long = vec![a; LONG_LABELS];
    let ending = |last: u8| [vec![a; LONG_LABELS - 1], vec![last]].concat();
    put(long.clone(), vec![any, a, any, a, any, a, any, b]);
    put(ending(b), vec![any, a, any, a, any, a, any, b]);
    put(long.clone(), [any, a].repeat(16));
    put(long.clone(), [[any, a].repeat(15), vec![any, b]].concat());
    put(ending(b), [[any, a].repeat(15), vec![any, b]].concat());
    put(long.clone(), [vec![any], vec![a; 31]].concat());
    put(long.clone(), [vec![any], vec![a; 30], vec![b]].concat());
    put(long.clone(), vec![any]);
    put(long.clone(), vec![any, b, any]);
    put(long.clone(), vec![]);
    put(vec![], vec![any]);
    put(vec![], vec![any, a]);
    put(vec![], vec![]);
    let mut inner = long;
    inner[LONG_LABELS / 2] = b;
    put(inner.clone(), vec![any, b, any]);
    put(inner, vec![any, a, b, a, any, a]);
}

fn all_cases(seed: u64) -> Vec<Case> {
    let mut random = Random::new(seed);
    let mut cases = Vec::new();
    short_inclusions(&mut cases);
    short_runs(&mut cases);
    random_inclusions(&mut cases, &mut random);
    random_runs(&mut cases, &mut random);
    traps(&mut cases);
    cases
}

fn write_frame(out: &mut Vec<u8>, case: &Case) {
    out.push(case.frame);
    for bytes in [&case.first, &case.second] {
        out.extend_from_slice(&(bytes.len() as u16).to_le_bytes());
    }
    out.extend_from_slice(&case.first);
    out.extend_from_slice(&case.second);
}

fn print_counts(cases: &[Case]) {
    let mut from = 0;
    while from < cases.len() {
        let sort = cases[from].sort;
        let of_sort: Vec<&Case> = cases[from..].iter().take_while(|case| case.sort == sort).collect();
        let yes = of_sort.iter().filter(|case| case.answer).count();
        println!("{}: {} cases, {} yes, {} no", sort, of_sort.len(), yes, of_sort.len() - yes);
        from += of_sort.len();
    }
}

fn main() {
    let arguments: Vec<String> = std::env::args().skip(1).collect();
    let number = |at: usize| arguments.get(at).and_then(|word| word.parse::<u64>().ok());
    if let Some(line) = number(2) {
        reference::choose_wrong_line(line as usize);
    }
    let (command, seed) = match (arguments.first(), number(1)) {
        (Some(command), Some(seed)) => (command.as_str(), seed),
        _ => {
            eprintln!("usage: path_vectors cases|answers|counts SEED [LINE]");
            std::process::exit(2);
        }
    };
    let cases = all_cases(seed);
    let mut out = Vec::new();
    match command {
        "cases" => cases.iter().for_each(|case| write_frame(&mut out, case)),
        "answers" => cases.iter().for_each(|case| out.extend_from_slice(if case.answer { b"1\n" } else { b"0\n" })),
        _ => print_counts(&cases),
    }
    std::io::stdout().write_all(&out).unwrap();
}
