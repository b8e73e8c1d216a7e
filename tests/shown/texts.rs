//! Texts that are no profile's, or nearly not: which line is told, and that nothing is written then.
use crate::profiles::{longest_keys, most_labels, shuffled};
use crate::reference::generate::asked;
use crate::reference::made::{lines_of, TEXT_BYTES};
use crate::reference::paths::Classes;
use crate::reference::random::Random;
use crate::reference::records::*;
use crate::reference::shown::{profile_text, Showing};
use crate::reference::text::{print_typed, typed_of};
use crate::reference::typing::typed_line;
use crate::runner::Runner;

/// Each of its bytes is taken away, doubled and replaced, and it is cut at each.
const SMALL: &[u8] = b"edition 2\nelement 3 port\nattribute 7 seq\n(port, (., {@seq, .}))\n";
const REPLACED_BY: &[u8] = b"\n\r 029(,a\0";

/// What may stand where a number does.
const NUMBERS: [&str; 19] =
    ["", "0", "00", "000", "1", "2", "02", "002", "0002", "3", "9", "200", "201", "255", "256", "300", "1000", "+2", "3a"];

/// Lines behind a text of one label and one key.
const BEHIND: [&str; 18] = [
    "",
    " ",
    "(",
    "()",
    " (port, (., {@seq}))",
    "(port, (., {@seq})) ",
    "(port, (., {@seq}))",
    "(port, (., {seq}))",
    "(port, (., {@port}))",
    "(port, (., {., ., port}))",
    "(#, (port, {.}))",
    "(port, (#, {., port}))",
    "(port.port.port.port.port.port.port.port.port, (., {.}))",
    "element 2 frame",
    "element 4 frame",
    "attribute 4 port",
    "edition 2",
    "# a comment",
];

fn each_byte(runner: &mut Runner) {
    for at in 0..SMALL.len() {
        let (before, behind) = (&SMALL[..at], &SMALL[at + 1..]);
        let byte = [SMALL[at]];
        make(runner, before);
        make(runner, &[before, behind].concat());
        make(runner, &[before, &byte, &byte, behind].concat());
        REPLACED_BY.iter().for_each(|&other| make(runner, &[before, &[other], behind].concat()));
    }
}

fn words_and_lines(runner: &mut Runner) {
    for number in NUMBERS {
        for line in [format!("edition {}", number), format!("element {} port", number), format!("attribute {} port\n", number)] {
            make(runner, line.as_bytes());
        }
        make(runner, format!("edition 2\nelement {} port\n(port, (., {{.}}))\nno line", number).as_bytes());
    }
    for line in BEHIND {
        for end in ["", "\n", "\r\n", "\n\n", "\nno line\n", "\n(nobody, (., {.}))"] {
            make(runner, format!("element 3 port\n(port, (., {{.}}))\n{}{}", line, end).as_bytes());
            make(runner, format!("{}{}", line, end).as_bytes());
        }
    }
    let ends = [("\n", "\r\n"), ("\n", "\n\n"), ("\n", " \n"), ("\n", "\n ")];
    let words = [(" ", "  "), (" ", "\t"), ("element", "element element"), ("port", "port port"), ("2", "2 2"), ("edition", "Edition")];
    for (from, to) in ends.into_iter().chain(words) {
        make(runner, String::from_utf8_lossy(SMALL).replace(from, to).as_bytes());
    }
    make(runner, SMALL.strip_suffix(b"\n").unwrap_or(SMALL));
    make(runner, &[SMALL, SMALL].concat());
}

/// A text at each size: of TEXT, of the profile, of the number of keys and of labels.
fn sizes(runner: &mut Runner) {
    for bytes in [TEXT_BYTES - 1, TEXT_BYTES, TEXT_BYTES + 1, 2 * TEXT_BYTES] {
        make(runner, &vec![b'('; bytes]);
        make(runner, &vec![b'\n'; bytes]);
        make(runner, &[b"element 3 ", &vec![b'x'; bytes - 10][..]].concat());
        make(runner, &[SMALL, &vec![b'x'; bytes - SMALL.len()][..]].concat());
    }
    // A record of a label with such a name has 6 bytes more.
    for name in [32, 33, PROFILE_BYTES - 7, PROFILE_BYTES - 6, PROFILE_BYTES - 5, PROFILE_BYTES - 4, 65_529, 65_530, 65_536 + 26] {
        let long = [b"element 3 ", &vec![b'x'; name][..]].concat();
        make(runner, &long);
        make(runner, &[&long[..], b"\nno line\n"].concat());
        make(runner, &[b"element 0 zero\n", &long[..]].concat());
        make(runner, &[b"no line\n", &long[..]].concat());
    }
    let full = Profile { edition: FIRST_EDITION, labels: most_labels(), keys: longest_keys(PROFILE_KEYS + 2), classes: Classes::none() };
    let text = profile_text(&full);
    let ends: Vec<usize> = (0..text.len()).filter(|&at| text[at] == b'\n').map(|at| at + 1).collect();
    let labels = full.labels.len();
    for keys in [PROFILE_KEYS - 1, PROFILE_KEYS, PROFILE_KEYS + 1, PROFILE_KEYS + 2] {
        let part = &text[..ends[labels + keys - 1]];
        make(runner, part);
        make(runner, &[part, b"no line"].concat());
        make(runner, &[part, b"(nobody, (., {.}))\n"].concat());
    }
    let labels = &text[..ends[labels - 1]];
    make(runner, labels);
    for more in ["element 200 more\n", "element 201 more\n"] {
        make(runner, &[labels, more.as_bytes()].concat());
    }
    make(runner, &labels.repeat(3));
}

/// A random profile's text with something changed in its lines.
fn changed(random: &mut Random) -> Vec<u8> {
    let asked = asked(random);
    let text = profile_text(&asked.profile);
    let mut lines: Vec<Vec<u8>> = lines_of(&text).into_iter().map(|line| line.to_vec()).collect();
    let typed = |random: &mut Random| typed_line(random, &asked.profile.labels, &asked.question);
    let (at, other) = (random.below(lines.len()), random.below(lines.len()));
    let strays = ["", "edition 2", "element 9 nine", "attribute 201 x"].map(|line| line.as_bytes().to_vec());
    match random.below(9) {
        0 => lines.swap(at, other),
        1 => lines.insert(at, lines[other].clone()),
        2 => drop(lines.remove(at)),
        3 | 4 => lines.push(typed(random)),
        5 => lines[at] = typed(random),
        6 => lines.insert(at, random.one_of(&strays)),
        7 => lines[at].push(random.one_of(&[b' ', b'\r', b'0', b'x', b')', 200])),
        _ => {
            let key = Key { paths: asked.question.paths.iter().rev().cloned().collect(), ..asked.question.clone() };
            lines.push(print_typed(&typed_of(&asked.profile.labels, &key)));
        }
    }
    let whole = [lines.join(&b'\n'), random.one_of(&[b"\n".to_vec(), b"".to_vec()])].concat();
    match random.below(8) {
        0 => whole[..random.below(whole.len() + 1)].to_vec(),
        1 => shuffled(random, &whole),
        _ => whole,
    }
}

fn make(runner: &mut Runner, text: &[u8]) {
    if runner.hold(Showing::Made, &[text]).out.is_some() {
        runner.count("damaged texts made");
    }
}

pub fn ask(runner: &mut Runner, seed: u64, count: usize) {
    let mut random = Random::new(seed);
    each_byte(runner);
    words_and_lines(runner);
    sizes(runner);
    (0..count).for_each(|_| make(runner, &changed(&mut random)));
}
