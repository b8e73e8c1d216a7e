//! Trimming an accepted proof (02, request 10), step by step in the request's order.
use super::records::{Key, Line};
use super::wrong;

/// The line with the numbers of its premises changed: rules 2 to 8 have one, rule 9 two. What rule 0 cites is a key and no line: "The key
/// numbers that rule 0 cites stay."
pub fn with_premises(line: &Line, number: &dyn Fn(u16) -> u16) -> Line {
    let mut changed = line.clone();
    if (2..=9).contains(&line.rule) {
        changed.first = number(line.first);
    }
    if line.rule == 9 {
        changed.second = number(line.second);
    }
    changed
}

pub fn premises(line: &Line) -> Vec<usize> {
    match line.rule {
        2..=8 => vec![line.first as usize],
        9 => vec![line.first as usize, line.second as usize],
        _ => Vec::new(),
    }
}

/// "Keeps of several lines with equal keys only the earliest, points premises there."
fn without_doubles(lines: &[Line]) -> Vec<Line> {
    let mut kept: Vec<Line> = Vec::new();
    // Of each line so far, where the earliest with its key stands among those kept.
    let mut stands: Vec<u16> = Vec::new();
    for (at, line) in lines.iter().enumerate() {
        let is_left_double = wrong(22) || (wrong(23) && at + 1 == lines.len());
        let earliest = kept.iter().position(|other| other.key == line.key).filter(|_| !is_left_double);
        if earliest.is_none() {
            kept.push(with_premises(line, &|premise| stands[premise as usize]));
        }
        stands.push(earliest.unwrap_or(kept.len() - 1) as u16);
    }
    kept
}

/// "Then ends at the earliest line that has the question's key."
fn up_to_the_question(lines: &[Line], question: &Key) -> Vec<Line> {
    let has_it = |line: &Line| line.key == *question;
    let end = if wrong(23) { lines.iter().rposition(has_it) } else { lines.iter().position(has_it) };
    lines[..=end.expect("an accepted proof has the question's key")].to_vec()
}

/// From which lines the last is reached through premises: a search from the last.
fn reach_the_last(lines: &[Line]) -> Vec<bool> {
    let mut reach = vec![false; lines.len()];
    let mut waiting = vec![lines.len() - 1];
    while let Some(at) = waiting.pop() {
        if !reach[at] {
            reach[at] = true;
            waiting.extend(premises(&lines[at]));
        }
    }
    reach
}

/// "Removes lines from which that line is not reached through premises, and renumbers."
fn renumbered(lines: &[Line], stay: &[bool]) -> Vec<Line> {
    let number = |old: u16| stay[..old as usize].iter().filter(|&&each| each).count() as u16;
    lines.iter().zip(stay).filter(|(_, &stays)| stays).map(|(line, _)| with_premises(line, &number)).collect()
}

/// The lines of an accepted proof of the question, trimmed.
pub fn trimmed(lines: &[Line], question: &Key) -> Vec<Line> {
    let kept = up_to_the_question(&without_doubles(lines), question);
    renumbered(&kept, &reach_the_last(&kept))
}
