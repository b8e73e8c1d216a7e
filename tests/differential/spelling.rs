//! 02, request 13: one spelling for a path, tried on all short paths. Two valid paths in normal form have the same words exactly when
//! they are the same symbols; the normal form has the same words, and its own normal form is itself.
use crate::reference::paths::*;
use std::collections::HashMap;

const FRAME: u8 = 4;
const STAMP: u8 = 5;
const SEQ: u8 = 7;
/// A path of so many symbols, filled by 201, is a word of so many labels: longer words tell no more paths apart.
const LONGEST_PATH: usize = 4;
const LONGEST_WORD: usize = LONGEST_PATH + 1;

/// All paths of up to `longest` of the symbols.
fn all_paths(symbols: &[u8], longest: usize) -> Vec<Path> {
    let mut paths: Vec<Path> = vec![Vec::new()];
    let mut last = 0;
    for _ in 0..longest {
        let end = paths.len();
        for at in last..end {
            for &symbol in symbols {
                paths.push([&paths[at][..], &[symbol]].concat());
            }
        }
        last = end;
    }
    paths
}

fn words_of(path: &[u8], words: &[Vec<u8>]) -> Vec<bool> {
    words.iter().map(|word| is_word(word, path)).collect()
}

/// The pairs of different valid paths in normal form over these symbols that have the same of these words.
fn spelled_twice(symbols: &[u8], words: &[Vec<u8>], classes: &Classes) -> Vec<(Path, Path)> {
    let mut spelled: HashMap<Vec<bool>, Path> = HashMap::new();
    let mut twice = Vec::new();
    for path in all_paths(symbols, LONGEST_PATH).into_iter().filter(|path| is_normal(path) && is_valid(path, classes)) {
        if let Some(other) = spelled.insert(words_of(&path, words), path.clone()) {
            twice.push((other, path));
        }
    }
    twice
}

/// What is wrong about the spelling of short paths; nothing where all is right.
fn fault() -> Option<String> {
    let mut classes = Classes::none();
    classes.declare(FRAME, Class::Element);
    classes.declare(STAMP, Class::Element);
    classes.declare(SEQ, Class::Attribute);
    let symbols = [ANY_PATH, TEXT, FRAME, STAMP, SEQ];
    let words = valid_words(&[TEXT, FRAME, STAMP, SEQ, FILLER_ELEMENT], &classes, LONGEST_WORD);
    if let Some((one, other)) = spelled_twice(&symbols, &words, &classes).first() {
        return Some(format!("{:?} and {:?} have the same words", one, other));
    }
    for path in all_paths(&symbols, LONGEST_PATH) {
        let normal = normal_form(&path);
        if words_of(&normal, &words) != words_of(&path, &words) || normal_form(&normal) != normal || !is_normal(&normal) {
            return Some(format!("the normal form of {:?} is not it", path));
        }
    }
    // Labels must be taken without end: over one label alone two spellings have the same words, and the search has to see them.
    let few = valid_words(&[FRAME], &classes, LONGEST_WORD);
    let twice = spelled_twice(&[ANY_PATH, FRAME], &few, &classes);
    if !twice.contains(&(vec![ANY_PATH, FRAME], vec![FRAME, ANY_PATH])) {
        return Some("`_*.frame` and `frame._*` are not found where no further label is allowed".to_string());
    }
    println!("spelling: {} paths, {} words: one spelling each; without a further label {} are spelled twice",
        all_paths(&symbols, LONGEST_PATH).len(), words.len(), twice.len());
    None
}

pub fn is_one() -> bool {
    let fault = fault();
    fault.iter().for_each(|fault| println!("spelling: {}", fault));
    fault.is_none()
}
