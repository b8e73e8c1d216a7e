//! What a person reads: a profile as text, a proof laid out, and the answers of the programs `show`, `make` and `advise` as a whole, from
//! the page of their formats and from no code of theirs. `made` has the way back, `drawn` the trees, `advice` the keys near a question.
use super::advice::advise;
use super::drawn::{graph_parts, tree_text};
use super::made::make_profile;
use super::operations::accepted_proof;
use super::records::{read_profile, Label, Line, Profile, Refusal, SECOND_EDITION};
use super::text::{print_typed, typed_of};
use super::{wrong, WRONG_LINES};

/// The words behind the programs' names.
#[derive(Clone, Copy, PartialEq, Eq, PartialOrd, Ord, Debug)]
pub enum Showing {
    Profile,
    Made,
    Proof,
    Tree,
    All,
    Dot,
    Advice,
}

impl Showing {
    /// The program and its word.
    pub fn words(self) -> &'static [&'static str] {
        match self {
            Showing::Profile => &["show", "profile"],
            Showing::Made => &["make", "profile"],
            Showing::Proof => &["show", "proof"],
            Showing::Tree => &["show", "tree"],
            Showing::All => &["show", "all"],
            Showing::Dot => &["show", "dot"],
            Showing::Advice => &["advise"],
        }
    }

    /// The inputs, by the names of their files. OUT of `make` is none of them.
    pub fn inputs(self) -> &'static [&'static str] {
        match self {
            Showing::Profile => &["profile"],
            Showing::Made => &["text"],
            Showing::Proof => &["profile", "question", "proof"],
            Showing::Tree | Showing::All | Showing::Dot => &["profile", "question", "tree"],
            Showing::Advice => &["profile", "question"],
        }
    }
}

/// What is printed, and what is written to OUT; nothing where OUT stays as it was.
#[derive(Clone, PartialEq, Eq, Debug)]
pub struct Printed {
    pub text: Vec<u8>,
    pub out: Option<Vec<u8>>,
}

pub fn printed(text: Vec<u8>) -> Printed {
    Printed { text, out: None }
}

/// As `WRONG_LINES`, for what is shown: what each wrong line does, and in which answers it is looked for.
pub const WRONG_SHOWN: [(&[Showing], &str); 21] = [
    (&[Showing::Proof], "proof: context path and target path have each other's name"),
    (&[Showing::Proof], "proof: numbers are as wide as the number of lines"),
    (&[Showing::Proof], "proof: keys are not padded"),
    (&[Showing::Profile], "profile: attributes are called elements"),
    (&[Showing::Made], "making: leading zeros are taken"),
    (&[Showing::Made], "making: a faulty line is told without judging the profile made so far"),
    (&[Showing::Made], "making: the last newline begins a line"),
    (&[Showing::Made], "making: key paths stay as typed"),
    (&[Showing::Made], "making: lines count from 0"),
    (&[Showing::Made], "making: spaces behind a line are taken"),
    (&[Showing::Tree, Showing::All], "tree: marks start at their column whatever the longest text"),
    (&[Showing::Tree], "tree: the longest text is that of all nodes, printed or not"),
    (&[Showing::Tree], "tree: fillers without a mark are shown"),
    (&[Showing::Tree, Showing::All, Showing::Dot], "tree: equal by the other key path"),
    (&[Showing::Tree, Showing::All, Showing::Dot], "tree: a node has its first mark alone"),
    (&[Showing::Tree, Showing::All, Showing::Dot], "tree: values in their low two bytes"),
    (&[Showing::Advice], "advice: T is cut at its end too"),
    (&[Showing::Advice], "advice: a cut keeps both any-paths that come together"),
    (&[Showing::Advice], "advice: a key path is added last, whatever its length"),
    (&[Showing::Advice], "advice: a seventeenth key"),
    (&[Showing::Tree, Showing::All], "tree: nodes stand by their numbers, whatever their branches"),
];

pub const RULE_NAMES: usize = 1;
pub const WIDE_NUMBERS: usize = 2;
pub const NO_PADDING: usize = 3;
pub const ONE_CLASS: usize = 4;
pub const LEADING_ZEROS: usize = 5;
pub const NOT_JUDGED: usize = 6;
pub const NEWLINE_BEGINS: usize = 7;
pub const PATHS_AS_TYPED: usize = 8;
pub const LINES_FROM_0: usize = 9;
pub const SPACES_BEHIND: usize = 10;
pub const FIXED_COLUMN: usize = 11;
pub const WIDEST_OF_ALL: usize = 12;
pub const FILLERS_SHOWN: usize = 13;
pub const OTHER_PATH: usize = 14;
pub const FIRST_MARK: usize = 15;
pub const LOW_VALUES: usize = 16;
pub const CUT_AT_END: usize = 17;
pub const BOTH_ANY_PATHS: usize = 18;
pub const ADDED_LAST: usize = 19;
pub const SEVENTEENTH: usize = 20;
pub const BY_NUMBERS: usize = 21;

/// The number by which `choose_wrong_line` takes a wrong line of `WRONG_SHOWN`, counted from 1: they come behind `WRONG_LINES`.
pub fn number_of_shown(line: usize) -> usize {
    WRONG_LINES.len() + line
}

pub fn wrong_shown(line: usize) -> bool {
    wrong(number_of_shown(line))
}

/// What the reference prints, and writes to OUT. Of a graph, which is laid out as its program likes, its parts (`drawn::graph_parts`).
pub fn shown(showing: Showing, inputs: &[Vec<u8>]) -> Printed {
    let text = match (showing, inputs) {
        (Showing::Made, [text]) => return make_profile(text),
        (Showing::Profile, [profile]) => show_profile(profile),
        (Showing::Proof, [profile, question, proof]) => show_proof(profile, question, proof),
        (Showing::Tree, [profile, question, tree]) => tree_text(profile, question, tree, false),
        (Showing::All, [profile, question, tree]) => tree_text(profile, question, tree, true),
        (Showing::Dot, [profile, question, tree]) => graph_parts(profile, question, tree),
        (Showing::Advice, [profile, question]) => advise(profile, question),
        _ => panic!("{:?} has {} inputs", showing, inputs.len()),
    };
    printed(text.unwrap_or_else(|refusal| refused_line(&refusal)))
}

/// "`refused` with number, input and record", and the line's end.
pub fn refused_line(refusal: &Refusal) -> Vec<u8> {
    format!("refused {} {} {}\n", refusal.number, refusal.input, refusal.record).into_bytes()
}

fn label_line(label: &Label) -> Vec<u8> {
    let class = if label.class == 2 && !wrong_shown(ONE_CLASS) { "attribute" } else { "element" };
    [format!("{} {} ", class, label.number).as_bytes(), &label.name, b"\n"].concat()
}

/// "One line for each record, in their order, so that line n + 1 is record n."
pub fn profile_text(profile: &Profile) -> Vec<u8> {
    let mut text = Vec::new();
    if profile.edition == SECOND_EDITION {
        text.extend_from_slice(b"edition 2\n");
    }
    text.extend(profile.labels.iter().flat_map(label_line));
    for key in &profile.keys {
        text.extend(print_typed(&typed_of(&profile.labels, key)));
        text.push(b'\n');
    }
    text
}

fn show_profile(profile: &[u8]) -> Result<Vec<u8>, Refusal> {
    Ok(profile_text(&read_profile(profile)?))
}

/// A rule by 01's name, and what its line was taken from. An accepted line has no other rule.
pub fn reason(line: &Line) -> String {
    let from = |name: &str| format!("{}, from {}", name, line.first);
    match line.rule {
        0 => format!("key {} of the profile", line.first),
        1 => "epsilon".to_string(),
        2 => from("prefix-epsilon"),
        3 => from("superkey"),
        4 => from("subnodes"),
        5 if wrong_shown(RULE_NAMES) => from("target path"),
        6 if wrong_shown(RULE_NAMES) => from("context path"),
        5 => from("context path"),
        6 => from("target path"),
        7 => from("context target"),
        8 => from("subnodes-epsilon"),
        9 => format!("interaction, from {} and {}", line.first, line.second),
        _ => "single attribute".to_string(),
    }
}

/// Number, key and reason in columns, each as wide as its widest, with two spaces between them.
fn show_proof(profile: &[u8], question: &[u8], proof: &[u8]) -> Result<Vec<u8>, Refusal> {
    let (_, lines) = accepted_proof(profile, question, proof)?;
    let labels = read_profile(profile)?.labels;
    let keys: Vec<Vec<u8>> = lines.iter().map(|line| print_typed(&typed_of(&labels, &line.key))).collect();
    let last = if wrong_shown(WIDE_NUMBERS) { lines.len() } else { lines.len() - 1 };
    let number_width = last.to_string().len();
    let widest = keys.iter().map(|key| key.len()).max().unwrap_or(0);
    let key_width = if wrong_shown(NO_PADDING) { 0 } else { widest };
    let mut text = Vec::new();
    for (number, (line, key)) in lines.iter().zip(&keys).enumerate() {
        text.extend(format!("{:>1$}  ", number, number_width).into_bytes());
        text.extend_from_slice(key);
        text.resize(text.len() + key_width.saturating_sub(key.len()), b' ');
        text.extend(format!("  {}\n", reason(line)).into_bytes());
    }
    Ok(text)
}
