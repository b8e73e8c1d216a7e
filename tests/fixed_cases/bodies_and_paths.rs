//! Inputs: the body of record n, and inclusion of two bare paths.
use super::expectations::Cases;
use super::notation::*;

pub fn put(cases: &mut Cases) {
    bodies(cases);
    no_bodies(cases);
    refused_paths(cases);
    inclusions(cases);
}

/// Two labels and two keys, written byte by byte: records of 7, 8, 10 and 13 bytes.
pub const SMALL: &str = "07 00 01 00 02 01 61  08 00 01 00 06 02 62 2d
    0a 00 02 00 00 01 02 01 01 06  0d 00 02 00 01 00 02 02 02 02 00 01 06";

fn bodies(cases: &mut Cases) {
    for (n, wanted) in [(0, "02 01 61"), (1, "06 02 62 2d"), (2, "00 01 02 01 01 06"), (3, "01 00 02 02 02 02 00 01 06")] {
        cases.put_bytes(&format!("body of record {}", n), body(&hex(SMALL), n), "body", &hex(wanted));
    }
    // Six labels and 58 keys; the last key is number 57, 0111001 in ports and runs.
    let keys = profile_with(&different(58, "(run,{@id}))"));
    cases.put_bytes("body of record 63 of 64", body(&keys, 63), "body", &hex("07 02 03 03 03 02 02 03 01 02 01 01 06"));
    let mut all: Vec<u8> = (2..=200).flat_map(|number| label(number, 1, &format!("n{}", number))).collect();
    all.extend(key_of(&[], "(200,(199,{2}))"));
    cases.put_bytes("body of record 198, label 200", body(&all, 198), "body", &joined(&[&[200, 1], b"n200"]));
    cases.put_bytes("body of record 199, the key", body(&all, 199), "body", &hex("01 c8 01 c7 01 01 02"));
}

/// "if that refuses, or there is no record n, it answers the empty part alone".
fn no_bodies(cases: &mut Cases) {
    let small = hex(SMALL);
    for n in [4, 5, 256, 65_536, 4_294_967_295] {
        cases.put_bytes(&format!("body of record {}, past the end", n), body(&small, n), "body", &[]);
    }
    cases.put_bytes("body of record 0 of an empty profile", body(&[], 0), "body", &[]);
    for (name, bytes) in [
        ("a byte too many", joined(&[&small, &[9]])),
        ("a byte too few", small[..37].to_vec()),
        ("a label after the keys", joined(&[&small, &label(8, 1, "late")])),
        ("a key with a fault", joined(&[&small, &hex("09 00 02 00 01 c8 00 01 00")])),
        ("65 keys", profile_with(&different(65, "(run,{@id}))"))),
        ("over its size", joined(&[&small, &vec![0; 16_384]])),
    ] {
        for n in [0, 3, 4] {
            cases.put_bytes(&format!("body of record {} of a refused profile: {}", n, name), body(&bytes, n), "body", &[]);
        }
    }
}

/// "Inclusion takes a profile and two bare paths (up to 32 symbols) as inputs 2 and 3 and gives 4, or 6 for the path alone."
fn refused_paths(cases: &mut Cases) {
    let labels = labels(BENCH);
    let long = ["run"; 33].join(".");
    for (name, bad, number) in [
        ("undeclared", "8", 4),
        ("201", "201", 4),
        ("203", "203", 4),
        ("doubled 0", "run._*._*.run", 4),
        ("33 symbols", &long, 4),
        ("4 before 6", "@id.8", 4),
        ("attribute before an element", "@id.run", 6),
        ("attribute before an any-path", "@id._*", 6),
        ("text before text", "#.#", 6),
        ("attribute within", "_*.@seq._*.run", 6),
    ] {
        let bad = path(BENCH, bad);
        cases.put(&format!("first path: {}", name), include(&labels, &bad, &[2]), &format!("refused {} 2 0", number));
        cases.put(&format!("second path: {}", name), include(&labels, &[2], &bad), &format!("refused {} 3 0", number));
    }
    cases.put("first path's 6 before the second's 4", include(&labels, &[6, 2], &[8]), "refused 6 2 0");
    cases.put("first path's 4 before the second's 6", include(&labels, &[8], &[6, 2]), "refused 4 2 0");
    cases.put("no length byte stands before a bare path", include(&labels, &[1, 2], &[2]), "refused 6 2 0");
    cases.put("profile before both paths", include(&[9], &[8], &[6, 2]), "refused 1 1 0");
    cases.put("paths of 32", include(&labels, &[2; 32], &[2; 32]), "included");
    let turns = [2, 0].repeat(16);
    cases.put("paths of 32 with any-paths", include(&labels, &[2; 32], &turns), "included");
    cases.put("paths of 32 with any-paths, the other way", include(&labels, &turns, &[2; 32]), "not included");
}

/// "P is included in Q if every valid word of P, over all labels with 201 and 202, is a word of Q."
const INCLUSIONS: [(&str, &str, bool); 45] = [
    ("e", "e", true),
    ("e", "_*", true),
    ("_*", "e", false),
    ("_*", "_*", true),
    ("run", "run", true),
    ("run", "port", false),
    ("run", "run.run", false),
    ("run.run", "run", false),
    ("run", "_*", true),
    ("_*", "run", false),
    ("@id", "_*", true),
    ("#", "_*", true),
    ("_*.#", "_*", true),
    ("_*", "_*.#", false),
    ("_*.@id", "_*.@seq", false),
    ("port.frame", "_*.frame", true),
    ("frame", "_*.frame", true),
    ("_*.frame", "port.frame", false),
    ("_*.port.frame", "_*.frame", true),
    ("_*.frame", "_*.port.frame", false),
    ("port._*", "_*", true),
    ("_*", "port._*", false),
    ("port._*.frame", "port._*.frame", true),
    ("port.frame", "port._*.frame", true),
    ("port.run.frame", "port._*.frame", true),
    ("port._*.frame", "port.frame", false),
    ("port._*.run._*.frame", "port._*.frame", true),
    ("port._*.frame", "port._*.run._*.frame", false),
    // Only a word with a label that neither path names tells these two apart.
    ("run._*.run", "_*.run.run", false),
    // Words that other labels tell apart.
    ("run._*.port", "_*.run.port", false),
    ("run._*.run", "run.run._*.run", false),
    ("run.run._*.run", "run._*.run.run", false),
    ("run.run.run", "run._*.run.run", true),
    ("run._*", "_*.run", false),
    ("run._*.run", "run._*", true),
    ("_*.run._*.port._*", "_*.run._*", true),
    ("_*.run._*.port._*", "_*.port._*.run._*", false),
    // A run of labels has itself as its only word: the any-path in front, in the middle and last takes none, one or several.
    ("port.frame.frame", "_*.frame", true),
    ("frame.port", "_*.frame", false),
    ("port.run.port.frame", "port._*.frame", true),
    ("port.run", "port._*.frame", false),
    ("port", "port._*", true),
    ("port.frame.@seq", "port._*", true),
    ("port", "e", false),
    ("port.frame", "port", false),
];

fn inclusions(cases: &mut Cases) {
    for (p, q, is_included) in INCLUSIONS {
        let (first, second) = (path(BENCH, p), path(BENCH, q));
        let wanted = if is_included { "included" } else { "not included" };
        cases.put(&format!("inclusion of {} in {}", p, q), include(&labels(BENCH), &first, &second), wanted);
    }
}
