//! The bench examples of 01, and keys read in 01's notation.
use super::paths::{Path, ANY_PATH, TEXT};
use super::records::{edition_record, key_record, label_record, Key, Label, FIRST_EDITION, SECOND_EDITION};

/// (number, class, name): "Elements 2 run, 3 port, 4 frame, 5 stamp; attributes 6 id, 7 seq."
pub const BENCH_LABELS: [(u8, u8, &str); 6] =
    [(2, 1, "run"), (3, 1, "port"), (4, 1, "frame"), (5, 1, "stamp"), (6, 2, "id"), (7, 2, "seq")];

/// Row, the profile's edition and keys, question, implied. m2 is m in edition 2.
pub const ROWS: [(&str, u8, &[&str], &str, bool); 13] = [
    ("a", FIRST_EDITION, &["(e,(port.frame,{@seq}))"], "(port,(frame,{@seq}))", true),
    ("b", FIRST_EDITION, &["(port,(frame,{@seq}))"], "(e,(port.frame,{@seq}))", false),
    ("c", FIRST_EDITION, &["(e,(port.frame,{e,stamp}))"], "(e,(port,{e,frame.stamp}))", true),
    ("d", FIRST_EDITION, &["(e,(port.frame,{stamp,@seq}))"], "(e,(port,{frame.stamp,frame.@seq}))", false),
    ("f", FIRST_EDITION, &["(e,(port,{frame.@seq}))", "(port,(frame,{@seq}))"], "(e,(port.frame,{@seq}))", true),
    ("g", FIRST_EDITION, &[], "(run,(e,{@id}))", true),
    ("h", FIRST_EDITION, &["(e,(_*.frame,{@seq}))"], "(e,(port.frame,{@seq}))", true),
    ("i", FIRST_EDITION, &["(e,(port.frame,{@seq}))"], "(e,(_*.frame,{@seq}))", false),
    ("j", FIRST_EDITION, &["(e,(frame,{stamp.#}))"], "(e,(frame,{stamp}))", false),
    ("k", FIRST_EDITION, &["(e,(port,{frame}))"], "(e,(port,{frame.@seq}))", false),
    ("l", FIRST_EDITION, &["(e,(port,{e,frame}))"], "(e,(port,{e,frame.@seq}))", true),
    ("m", FIRST_EDITION, &[], "(port,(@id,{e}))", false),
    ("m2", SECOND_EDITION, &[], "(port,(@id,{e}))", true),
];

pub const LISTING_OF_B: &str = "nodes 12\n0 - 203 -\n1 0 202 1\n2 0 3 -\n3 2 202 3\n4 2 4 -\n5 4 202 5\n6 4 7 6\n\
                                7 0 3 -\n8 7 202 8\n9 7 4 -\n10 9 202 10\n11 9 7 6\n";

pub fn bench_labels() -> Vec<u8> {
    let record = |&(number, class, name): &(u8, u8, &str)| {
        label_record(&Label { number, class, name: name.as_bytes().to_vec() })
    };
    BENCH_LABELS.iter().flat_map(record).collect()
}

pub fn path(text: &str) -> Path {
    if text == "e" {
        return Vec::new();
    }
    let symbol = |word: &str| match word {
        "_*" => ANY_PATH,
        "#" => TEXT,
        _ => {
            let name = word.trim_start_matches('@');
            BENCH_LABELS.iter().find(|label| label.2 == name).unwrap_or_else(|| panic!("{}", word)).0
        }
    };
    text.split('.').map(symbol).collect()
}

/// A key as 01 writes it, `(C,(T,{P,..}))`; key paths are put into the order of records.
pub fn key(text: &str) -> Key {
    let inner = &text[1..text.len() - 1];
    let (context, rest) = inner.split_once(",(").unwrap();
    let (target, set) = rest.split_once(",{").unwrap();
    let mut paths: Vec<Path> = set.trim_end_matches("})").split(',').map(path).collect();
    paths.sort_by_key(|each| (each.len(), each.clone()));
    Key { context: path(context), target: path(target), paths }
}

pub fn bench_profile(keys: &[&str]) -> Vec<u8> {
    let mut bytes = bench_labels();
    for text in keys {
        bytes.extend(key_record(&key(text)));
    }
    bytes
}

/// The same in either edition.
pub fn bench_profile_of(edition: u8, keys: &[&str]) -> Vec<u8> {
    let first = if edition == SECOND_EDITION { edition_record(edition) } else { Vec::new() };
    [first, bench_profile(keys)].concat()
}

pub fn question(text: &str) -> Vec<u8> {
    key_record(&key(text))
}
