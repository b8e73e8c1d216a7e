//! A profile made of text, the way back from `show profile`.
use super::operations::read_line;
use super::records::*;
use super::shown::*;
use super::text::{read_typed, typed_of};

/// "TEXT over 131,071 bytes": refused before anything else.
pub const TEXT_BYTES: usize = 131_071;
/// "The 16,385 bytes of PROFILE_READ": one more than a profile may have.
const MADE_ROOM: usize = PROFILE_BYTES + 1;

/// Why a line gives no record.
enum Fault {
    NoLine,
    Refused(Refusal),
}

/// "TEXT is cut at newlines; a last newline ends the last line, the last line may also stand without one; an empty TEXT has no lines."
pub fn lines_of(text: &[u8]) -> Vec<&[u8]> {
    if text.is_empty() {
        return Vec::new();
    }
    let ended = if wrong_shown(NEWLINE_BEGINS) { None } else { text.strip_suffix(b"\n") };
    ended.unwrap_or(text).split(|&byte| byte == b'\n').collect()
}

/// "One to three decimal digits, no 0 in front (0 itself is `0`), at most 255."
fn number_of(word: &[u8]) -> Option<u8> {
    let is_spelled = (1..=3).contains(&word.len()) && word.iter().all(|byte| byte.is_ascii_digit());
    let is_led = word.len() > 1 && word.first() == Some(&b'0') && !wrong_shown(LEADING_ZEROS);
    let number = word.iter().fold(0, |high, &byte| 10 * high + byte.wrapping_sub(b'0') as u32 % 10);
    Some(number).filter(|&number| is_spelled && !is_led && number <= 255).map(|number| number as u8)
}

/// The record of a line, over the profile made so far. What stands between single spaces is a word; none of them is empty.
fn record_of(profile: &[u8], line: &[u8]) -> Result<Vec<u8>, Fault> {
    if line.first() == Some(&b'(') {
        return key_record_of(profile, line);
    }
    let line = if wrong_shown(SPACES_BEHIND) { line.strip_suffix(b" ").unwrap_or(line) } else { line };
    let words: Vec<&[u8]> = line.split(|&byte| byte == b' ').collect();
    let label = |class: u8, number: &[u8], name: &[u8]| {
        let number = number_of(number).filter(|_| !name.is_empty())?;
        Some(label_record(&Label { number, class, name: name.to_vec() }))
    };
    let found = match words[..] {
        [b"edition", number] => number_of(number).map(edition_record),
        [b"element", number, name] => label(1, number, name),
        [b"attribute", number, name] => label(2, number, name),
        _ => None,
    };
    found.ok_or(Fault::NoLine)
}

fn key_record_of(profile: &[u8], line: &[u8]) -> Result<Vec<u8>, Fault> {
    let record = read_line(profile, line, ANSWER_BYTES).map_err(Fault::Refused)?;
    Ok(if wrong_shown(PATHS_AS_TYPED) { as_typed(profile, line, &record) } else { record })
}

/// A key's record with its paths in the order of the line: a wrong one.
fn as_typed(profile: &[u8], line: &[u8], record: &[u8]) -> Vec<u8> {
    let (profile, key) = (read_profile(profile).ok(), read_key(&record[4..]));
    let (profile, mut key) = (profile.expect("a line was read over it"), key.expect("a record that was written"));
    let labels = &profile.labels;
    let typed = read_typed(line).expect("a line that was read").paths;
    let place = |path: &Vec<u8>| {
        let one = Key { context: Vec::new(), target: Vec::new(), paths: vec![path.clone()] };
        typed.iter().position(|each| *each == typed_of(labels, &one).paths[0])
    };
    key.paths.sort_by_key(place);
    key_record(&key)
}

/// "The first faulty line is told": before a line is, the profile made so far is judged.
fn told(profile: &[u8], line: usize, fault: Fault) -> Vec<u8> {
    let line = if wrong_shown(LINES_FROM_0) { line - 1 } else { line };
    match (read_profile(profile), fault) {
        (Err(refusal), _) if !wrong_shown(NOT_JUDGED) => refused_line(&refusal),
        (_, Fault::Refused(refusal)) if refusal.input == PROFILE => refused_line(&refusal),
        (_, Fault::Refused(refusal)) => [format!("line {}: ", line).as_bytes(), &refused_line(&refusal)].concat(),
        (_, Fault::NoLine) => format!("line {}: no edition, element, attribute or key line\n", line).into_bytes(),
    }
}

fn made(text: &[u8]) -> Result<Vec<u8>, Vec<u8>> {
    let over_size = refused_line(&Refusal { number: 7, input: PROFILE, record: 0 });
    if text.len() > TEXT_BYTES {
        return Err(over_size);
    }
    let mut profile = Vec::new();
    for (at, line) in lines_of(text).into_iter().enumerate() {
        let record = record_of(&profile, line).map_err(|fault| told(&profile, at + 1, fault))?;
        if profile.len() + record.len() > MADE_ROOM {
            return Err(over_size);
        }
        profile.extend(record);
    }
    read_profile(&profile).map_err(|refusal| refused_line(&refusal))?;
    Ok(profile)
}

/// "Nothing is written to OUT on a fault."
pub fn make_profile(text: &[u8]) -> Printed {
    match made(text) {
        Ok(profile) => Printed { text: format!("made {}\n", profile.len()).into_bytes(), out: Some(profile) },
        Err(line) => printed(line),
    }
}
