//! Labels, words, paths (01, "Trees, paths and keys").
use super::wrong;
use std::collections::HashSet;

pub const ANY_PATH: u8 = 0;
pub const TEXT: u8 = 1;
pub const FIRST_DECLARED: u8 = 2;
pub const LAST_DECLARED: u8 = 200;
pub const FILLER_ELEMENT: u8 = 201;
pub const FILLER_ATTRIBUTE: u8 = 202;
pub const ROOT: u8 = 203;

pub type Path = Vec<u8>;

#[derive(Clone, Copy, PartialEq, Eq, Debug)]
pub enum Class {
    Element,
    Attribute,
    Text,
}

/// The class of each label: 1 and the three of trees are fixed, the others are as declared.
#[derive(Clone)]
pub struct Classes {
    declared: Vec<Option<Class>>,
}

impl Classes {
    pub fn none() -> Classes {
        Classes { declared: vec![None; 256] }
    }

    pub fn declare(&mut self, label: u8, class: Class) {
        self.declared[label as usize] = Some(class);
    }

    pub fn is_declared(&self, label: u8) -> bool {
        self.declared[label as usize].is_some()
    }

    /// The class of a label that a tree may hold; none for any other number.
    pub fn of(&self, label: u8) -> Option<Class> {
        match label {
            TEXT => Some(Class::Text),
            FILLER_ELEMENT | ROOT => Some(Class::Element),
            FILLER_ATTRIBUTE => Some(Class::Attribute),
            _ => self.declared[label as usize],
        }
    }

    /// "Attributes and text have no children", "an attribute or text label stands only last".
    pub fn is_last_only(&self, label: u8) -> bool {
        matches!(self.of(label), Some(Class::Attribute) | Some(Class::Text))
    }
}

pub fn is_normal(path: &[u8]) -> bool {
    path.windows(2).all(|two| two != [ANY_PATH, ANY_PATH])
}

pub fn is_simple(path: &[u8]) -> bool {
    !path.contains(&ANY_PATH)
}

/// "Joining two paths removes doubled 0": the normal form of symbols that stand together.
pub fn normal_form(symbols: &[u8]) -> Path {
    let mut path: Path = Vec::new();
    for &symbol in symbols {
        if !(symbol == ANY_PATH && path.last() == Some(&ANY_PATH)) {
            path.push(symbol);
        }
    }
    path
}

pub fn join(p: &[u8], q: &[u8]) -> Path {
    normal_form(&[p, q].concat())
}

/// "A path is valid if an attribute or text label stands only last." The same for words.
pub fn is_valid(path: &[u8], classes: &Classes) -> bool {
    match path.split_last() {
        None => true,
        Some((_, before)) => before.iter().all(|&symbol| !classes.is_last_only(symbol)),
    }
}

/// The places between a path's symbols that a run of labels may have come to: bit i stands for
/// "the first i symbols are done". Paths here have at most 63 symbols.
pub type Places = u64;

/// Where an any-path may begin it may end: it is a possibly empty run.
fn with_ended(path: &[u8], places: Places) -> Places {
    let mut all = places;
    for (i, &symbol) in path.iter().enumerate() {
        if symbol == ANY_PATH && all & (1 << i) != 0 && !wrong(1) {
            all |= 1 << (i + 1);
        }
    }
    all
}

pub fn places_at_start(path: &[u8]) -> Places {
    assert!(path.len() < 64);
    with_ended(path, 1)
}

pub fn places_after(path: &[u8], places: Places, label: u8) -> Places {
    let mut next = 0;
    for (i, &symbol) in path.iter().enumerate() {
        if places & (1 << i) == 0 {
            continue;
        }
        if symbol == ANY_PATH {
            next |= 1 << i;
            if wrong(1) {
                next |= 1 << (i + 1);
            }
        } else if symbol == label {
            next |= 1 << (i + 1);
        }
    }
    with_ended(path, next)
}

pub fn is_whole(path: &[u8], places: Places) -> bool {
    places & (1 << path.len()) != 0
}

/// Whether a run of labels is a word of a path.
pub fn is_word(run: &[u8], path: &[u8]) -> bool {
    let end = run.iter().fold(places_at_start(path), |places, &label| places_after(path, places, label));
    is_whole(path, end)
}

/// The same by the sentence itself: the any-path is any beginning of the run. Exponential.
pub fn is_word_by_definition(run: &[u8], path: &[u8]) -> bool {
    match path.split_first() {
        None => run.is_empty(),
        Some((&ANY_PATH, rest)) => (0..=run.len()).any(|k| is_word_by_definition(&run[k..], rest)),
        Some((&symbol, rest)) => run.first() == Some(&symbol) && is_word_by_definition(&run[1..], rest),
    }
}

/// "P is included in Q if every valid word of P, over all labels with 201 and 202, is a word of Q."
/// A search for a valid word of P that is none of Q, through the places in P and the sets of places
/// in Q. A label that neither path names is consumed by any-paths alone, so 201 stands for every
/// such element and 202 for every such attribute.
pub fn is_included(p: &[u8], q: &[u8], classes: &Classes) -> bool {
    let mut labels: Vec<u8> = p.iter().chain(q).copied().filter(|&symbol| symbol != ANY_PATH).collect();
    labels.push(TEXT);
    if !wrong(2) {
        labels.extend([FILLER_ELEMENT, FILLER_ATTRIBUTE]);
    }
    labels.sort_unstable();
    labels.dedup();
    // (places in P, places in Q, whether an attribute or text has ended the word)
    let start = (places_at_start(p), places_at_start(q), false);
    let mut seen = HashSet::new();
    let mut waiting = vec![start];
    while let Some(state) = waiting.pop() {
        let (in_p, in_q, ended) = state;
        if in_p == 0 || !seen.insert(state) {
            continue;
        }
        if is_whole(p, in_p) && !is_whole(q, in_q) {
            return false;
        }
        if !ended {
            for &label in &labels {
                waiting.push((places_after(p, in_p, label), places_after(q, in_q, label), classes.is_last_only(label)));
            }
        }
    }
    true
}

/// All valid words of up to `longest` labels.
pub fn valid_words(labels: &[u8], classes: &Classes, longest: usize) -> Vec<Vec<u8>> {
    let mut words: Vec<Vec<u8>> = vec![Vec::new()];
    let mut begun: Vec<Vec<u8>> = vec![Vec::new()];
    for _ in 0..longest {
        let mut longer = Vec::new();
        for word in &begun {
            for &label in labels {
                let mut next = word.clone();
                next.push(label);
                words.push(next.clone());
                if !classes.is_last_only(label) {
                    longer.push(next);
                }
            }
        }
        begun = longer;
    }
    words
}
