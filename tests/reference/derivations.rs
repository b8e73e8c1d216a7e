//! Random proofs: lines drawn from earlier ones by the rules, and proofs with lines that trimming takes out.
use super::generate::{in_order, inner_path, key, path, Asked, World};
use super::paths::*;
use super::random::Random;
use super::records::*;
use super::trim::{premises, with_premises};

/// Lines each drawn from the ones before by a rule, now and then with a slip.
pub fn derivation(random: &mut Random, asked: &Asked, length: usize) -> Vec<Line> {
    let mut lines: Vec<Line> = Vec::new();
    while lines.len() < length {
        if let Some(line) = drawn(random, asked, &lines) {
            lines.push(if random.chance(1, 40) { slip(random, &asked.world, line) } else { line });
        }
    }
    lines
}

/// A line that some rule gives after the lines before it, if that rule gives any.
fn drawn(random: &mut Random, asked: &Asked, lines: &[Line]) -> Option<Line> {
    let rule = if lines.is_empty() { random.one_of(&[0, 1, 10]) } else { random.below(11) as u8 };
    match rule {
        0 if asked.profile.keys.is_empty() => None,
        0 => {
            let number = random.below(asked.profile.keys.len());
            Some(Line { rule, first: number as u16, second: NONE, key: asked.profile.keys[number].clone() })
        }
        1 => {
            let mut any = key(random, &asked.world);
            any.context = join(&any.context, &any.target);
            any.target.clear();
            Some(Line { rule, first: NONE, second: NONE, key: any })
        }
        // In edition 1 no line follows by rule 10: that is tried now and then.
        10 if asked.world.edition == FIRST_EDITION && !random.chance(1, 20) => None,
        10 => one_attribute(random, &asked.world).map(|key| Line { rule, first: NONE, second: NONE, key }),
        9 => interaction(random, lines),
        _ => {
            let first = random.below(lines.len());
            from_one(random, &asked.world, rule, &lines[first].key).map(|key| Line { rule, first: first as u16, second: NONE, key })
        }
    }
}

/// The proof with lines that trimming takes out: some doubled, with or without use, some idle, some moved to where their premises just
/// stand. What followed follows still, and the last key stays.
pub fn padded(random: &mut Random, asked: &Asked, lines: &[Line]) -> Vec<Line> {
    let mut all = lines.to_vec();
    let times = if all.is_empty() { 0 } else { random.below(10) };
    for _ in 0..times {
        match random.below(4) {
            0 | 1 => double_line(random, &mut all),
            2 => {
                let at = random.below(all.len());
                if let Some(line) = drawn(random, asked, &all[..at]) {
                    insert_line(&mut all, at, line);
                }
            }
            _ => move_upwards(random, &mut all),
        }
    }
    all
}

/// Puts a line at that place; the numbers of those behind it grow.
fn insert_line(lines: &mut Vec<Line>, at: usize, line: Line) {
    let number = |old: u16| if old as usize >= at { old.saturating_add(1) } else { old };
    for behind in &mut lines[at..] {
        *behind = with_premises(behind, &number);
    }
    lines.insert(at, line);
}

/// Writes a line's key once more behind it, as it was or from the line itself by a rule that changes nothing; only the last line's key
/// behind all others. Of the lines behind that, each that uses the first may use the second instead.
fn double_line(random: &mut Random, lines: &mut Vec<Line>) {
    let old = random.below(lines.len());
    let new = (old + 1 + random.below(lines.len() - old)).min((old + 1).max(lines.len() - 1));
    let again = match random.below(3) {
        0 => lines[old].clone(),
        _ => Line { rule: random.one_of(&[3, 5, 6, 7]), first: old as u16, second: NONE, key: lines[old].key.clone() },
    };
    insert_line(lines, new, again);
    for line in &mut lines[new + 1..] {
        if random.chance(1, 2) {
            *line = with_premises(line, &|premise| if premise as usize == old { new as u16 } else { premise });
        }
    }
}

/// Moves a line, but not the last, upwards, to anywhere behind its premises.
fn move_upwards(random: &mut Random, lines: &mut Vec<Line>) {
    let from = random.below(lines.len());
    let lowest = premises(&lines[from]).iter().map(|&premise| premise + 1).max().unwrap_or(0);
    if from + 1 == lines.len() || lowest > from {
        return;
    }
    let to = lowest + random.below(from - lowest + 1);
    let number = |old: u16| match old as usize {
        old if old == from => to as u16,
        old if (to..from).contains(&old) => old as u16 + 1,
        _ => old,
    };
    let moved = lines.remove(from);
    lines.insert(to, moved);
    for line in lines {
        *line = with_premises(line, &number);
    }
}

/// A key whose target is an attribute label, if there is one.
fn one_attribute(random: &mut Random, world: &World) -> Option<Key> {
    let attributes = world.attributes();
    if attributes.is_empty() {
        return None;
    }
    let context = inner_path(random, world, 4, true);
    Some(Key { context, target: vec![random.one_of(&attributes)], paths: vec![vec![]] })
}

/// A key that the rule gives from one premise, if it gives any.
fn from_one(random: &mut Random, world: &World, rule: u8, old: &Key) -> Option<Key> {
    let mut new = old.clone();
    let cut = random.below(old.target.len() + 1);
    let (x, p) = (old.target[..cut].to_vec(), old.target[cut..].to_vec());
    let holds_empty = old.paths[0].is_empty();
    match rule {
        2 if holds_empty => {
            for each in new.paths.iter_mut().skip(1) {
                if random.chance(1, 2) {
                    let more = inner_path(random, world, 2, false);
                    each.extend(more);
                }
            }
            in_order(&mut new.paths);
        }
        3 => {
            new.paths.push(path(random, world, 2, false));
            in_order(&mut new.paths);
        }
        4 if old.paths.len() == 1 && is_simple(&p) => {
            new.target = x;
            new.paths = vec![join(&p, &old.paths[0])];
        }
        5 => new.context = narrower(random, world, &old.context),
        6 => new.target = narrower(random, world, &old.target),
        7 => {
            let split = cut > 0 && x.last() == Some(&ANY_PATH) && random.chance(1, 2);
            new.context = join(&old.context, &x);
            new.target = if split { [vec![ANY_PATH], p].concat() } else { p };
        }
        8 if holds_empty && old.paths.len() <= 2 && is_simple(&p) => {
            new.target = x;
            new.paths = vec![vec![], join(&p, old.paths.last().unwrap())];
            in_order(&mut new.paths);
        }
        _ => return None,
    }
    let fits = new.context.len() <= LINE_SIZES.path && new.target.len() <= LINE_SIZES.path;
    let short = new.paths.len() <= LINE_SIZES.count && new.paths.iter().all(|each| each.len() <= LINE_SIZES.key_path);
    let way = join(&new.context, &new.target);
    let valid = new.paths.iter().all(|each| is_valid(&join(&way, each), &world.classes));
    if fits && short && valid {
        Some(new)
    } else {
        None
    }
}

/// A path included in the given one.
fn narrower(random: &mut Random, world: &World, path: &[u8]) -> Path {
    let mut symbols = Vec::new();
    for &symbol in path {
        if symbol == ANY_PATH && random.chance(1, 2) {
            symbols.extend(inner_path(random, world, 2, true));
        } else {
            symbols.push(symbol);
        }
    }
    normal_form(&symbols)
}

/// Two lines that rule 9 takes, if there are any.
fn interaction(random: &mut Random, lines: &[Line]) -> Option<Line> {
    let mut found = Vec::new();
    for (i, first) in lines.iter().enumerate() {
        for (j, second) in lines.iter().enumerate() {
            let (one, two) = (&first.key, &second.key);
            let mut lifted: Vec<Path> = two.paths.iter().map(|each| join(&two.target, each)).collect();
            in_order(&mut lifted);
            let is_near = two.context == join(&one.context, &one.target) || random.chance(1, 20);
            if is_simple(&two.target) && is_near && lifted == one.paths {
                let target = join(&one.target, &two.target);
                let key = Key { context: one.context.clone(), target, paths: two.paths.clone() };
                if key.target.len() <= LINE_SIZES.path {
                    found.push(Line { rule: 9, first: i as u16, second: j as u16, key });
                }
            }
        }
    }
    if found.is_empty() {
        return None;
    }
    Some(random.one_of(&found))
}

/// A line that is still well formed but need not follow any more.
fn slip(random: &mut Random, world: &World, line: Line) -> Line {
    let mut slipped = line;
    match random.below(5) {
        0 => slipped.rule = random.below(12) as u8,
        1 => slipped.first = random.one_of(&[0, 1, 2, 63, 64, NONE]),
        2 => slipped.second = random.one_of(&[0, 1, NONE, 65_534]),
        3 => slipped.key = key(random, world),
        _ => slipped.key.paths.truncate(1),
    }
    slipped
}
