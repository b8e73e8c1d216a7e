//! A comparison that cannot fail shows nothing: each wrong line of the reference has to be seen in what the programs answered.
use crate::reference::choose_wrong_line;
use crate::reference::shown::{number_of_shown, shown, Printed, WRONG_SHOWN};
use crate::runner::Case;

/// How many cases see the line, of which words, and the first of them.
fn seen(asked: &[(Case, Printed)], line: usize) -> Vec<(&Case, Printed)> {
    let (showings, _) = WRONG_SHOWN[line - 1];
    choose_wrong_line(number_of_shown(line));
    let tried = asked.iter().filter(|(case, _)| showings.contains(&case.showing));
    let wrong = tried.map(|(case, found)| (case, found, shown(case.showing, &case.inputs)));
    let seen = wrong.filter(|(_, found, wrong)| *found != wrong).map(|(case, _, wrong)| (case, wrong)).collect();
    choose_wrong_line(0);
    seen
}

/// Whether each line is seen, or the one that is given; of that the first case is printed.
pub fn are_seen(asked: &[(Case, Printed)], only: Option<usize>) -> bool {
    let mut missed = 0;
    let chosen: Vec<usize> = (1..=WRONG_SHOWN.len()).filter(|&line| only.map_or(true, |only| only == line)).collect();
    for &line in &chosen {
        let (showings, text) = WRONG_SHOWN[line - 1];
        let seen = seen(asked, line);
        let words: Vec<String> = showings.iter().map(|showing| showing.words().join(" ")).collect();
        let unseen = showings.iter().filter(|showing| !seen.iter().any(|(case, _)| case.showing == **showing)).count();
        let said = if unseen == 0 { format!("seen in {} answers", seen.len()) } else { "NOT seen".to_string() };
        println!("wrong line {} {} of {}: {}", line, said, words.join(", "), text);
        missed += unseen;
        if let (Some(_), Some((case, wrong))) = (only, seen.first()) {
            println!("{:?} {:?}\n{}", case.showing, case.inputs, String::from_utf8_lossy(&wrong.text));
        }
    }
    println!("{} wrong lines, {} not seen", chosen.len(), missed);
    missed == 0 && !chosen.is_empty()
}
