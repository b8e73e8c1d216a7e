//! Counting over a campaign (02, request 12): one list of what each input comes to, and each count a filter over it.
use super::records::{read_profile, read_tree, refuse, Profile, Refusal, TREE_OR_PROOF};
use super::trees::Tree;
use super::wrong;
use std::collections::BTreeSet;

/// The numbers in `WRONG_LINES`.
const REFUSED_AS_BROKEN: usize = 32;
const REPEATED_ONCE: usize = 33;

pub const CAMPAIGN_NAMES: usize = 200;
/// The length that stands for a name that cannot be read.
pub const UNREAD: u32 = 4_294_967_295;

/// What an input comes to: of a tree, for each key of the profile, whether it keeps it.
#[derive(Clone, PartialEq, Eq, Debug)]
pub enum Outcome {
    Unread,
    Refused(u32),
    Judged(Vec<bool>),
}

/// "named one a line": names are parted by newlines, "a final newline ends the last name", "an empty line is a name".
pub fn names(list: &[u8]) -> Vec<&[u8]> {
    let list = match list.split_last() {
        None => return Vec::new(),
        Some((b'\n', front)) => front,
        Some(_) => list,
    };
    list.split(|&byte| byte == b'\n').collect()
}

/// The inputs as a case has them, one behind the other: four bytes of length and as many bytes, or `UNREAD` and none. A last one that
/// breaks off is what is left.
pub fn framed(segments: &[Option<Vec<u8>>]) -> Vec<u8> {
    let mut out = Vec::new();
    for segment in segments {
        let length = segment.as_ref().map_or(UNREAD, |bytes| bytes.len() as u32);
        out.extend(length.to_le_bytes());
        out.extend(segment.iter().flatten());
    }
    out
}

pub fn unframed(bytes: &[u8]) -> Vec<Option<&[u8]>> {
    let mut segments = Vec::new();
    let mut rest = bytes;
    while rest.len() >= 4 {
        let (head, after) = rest.split_at(4);
        let length = u32::from_le_bytes([head[0], head[1], head[2], head[3]]);
        let end = if length == UNREAD { 0 } else { after.len().min(length as usize) };
        segments.push(if length == UNREAD { None } else { Some(&after[..end]) });
        rest = &after[end..];
    }
    segments
}

pub fn outcome(segment: Option<&[u8]>, profile: &Profile) -> Outcome {
    let read = match segment {
        None => return Outcome::Unread,
        Some(bytes) => read_tree(bytes, profile),
    };
    match read {
        Err(_) if wrong(REFUSED_AS_BROKEN) => Outcome::Judged(vec![false; profile.keys.len()]),
        Err(refusal) => Outcome::Refused(refusal.number),
        Ok(nodes) => {
            let tree = Tree::new(&nodes, &profile.classes);
            Outcome::Judged(profile.keys.iter().map(|key| tree.keeps(key)).collect())
        }
    }
}

fn count(outcomes: &[Outcome], is_counted: impl Fn(&Outcome) -> bool) -> usize {
    outcomes.iter().filter(|each| is_counted(each)).count()
}

/// How many inputs keep a key, and how many break it.
pub fn kept_and_broken(outcomes: &[Outcome], key: usize) -> (usize, usize) {
    let says = |each: &Outcome, wanted: bool| matches!(each, Outcome::Judged(keeps) if keeps[key] == wanted);
    (count(outcomes, |each| says(each, true)), count(outcomes, |each| says(each, false)))
}

/// Each refusal number that occurred, ascending, and how often.
pub fn refused_by_number(outcomes: &[Outcome]) -> Vec<(u32, usize)> {
    let number = |each: &Outcome| if let Outcome::Refused(number) = each { Some(*number) } else { None };
    let occurred: BTreeSet<u32> = outcomes.iter().filter_map(number).collect();
    occurred.into_iter().map(|which| (which, count(outcomes, |each| number(each) == Some(which)))).collect()
}

pub fn unread(outcomes: &[Outcome]) -> usize {
    count(outcomes, |each| *each == Outcome::Unread)
}

/// "one line a key (number, kept, broken), then number and count for each refusal number that occurred, ascending, then `unread` and the
/// count of unreadable names".
fn print_report(outcomes: &[Outcome], keys: usize) -> String {
    let mut report = String::new();
    for key in 0..keys {
        let (kept, broken) = kept_and_broken(outcomes, key);
        report += &format!("{} {} {}\n", key, kept, broken);
    }
    for (number, count) in refused_by_number(outcomes) {
        report += &format!("{} {}\n", number, count);
    }
    report + &format!("unread {}\n", unread(outcomes))
}

/// "Refusals: a list of over 200 names, 7 with input 3, before the profile."
pub fn reported(list: &[u8], profile: &[u8], segments: &[u8]) -> Result<Vec<u8>, Refusal> {
    let names = names(list);
    if names.len() > CAMPAIGN_NAMES {
        return refuse(7, TREE_OR_PROOF, 0);
    }
    let profile = read_profile(profile)?;
    let is_counted = |at: usize| !wrong(REPEATED_ONCE) || at >= names.len() || !names[..at].contains(&names[at]);
    let inputs = unframed(segments).into_iter().enumerate().filter(|(at, _)| is_counted(*at));
    let outcomes: Vec<Outcome> = inputs.map(|(_, segment)| outcome(segment, &profile)).collect();
    Ok(print_report(&outcomes, profile.keys.len()).into_bytes())
}
