//! Runs the programs on files of a folder, compares, and counts outcomes.
use crate::graph;
use crate::reference::shown::{shown, Printed, Showing};
use std::collections::BTreeMap;
use std::fs::{create_dir_all, read, remove_dir_all, write};
use std::path::{Path, PathBuf};
use std::process::{Command, Stdio};

/// So many differences are printed and written; behind the last the run ends.
const SHOWN: usize = 5;
/// So many bytes of an answer are printed; its file has them all.
const PRINTED: usize = 600;
/// What stands in OUT before `make` runs.
const AS_IT_WAS: &[u8] = b"as it was\n";
/// The folder of the differences.
const DIFFERENCE: &str = "difference";

/// What is asked of a program: its words and its input files.
#[derive(Clone)]
pub struct Case {
    pub showing: Showing,
    pub inputs: Vec<Vec<u8>>,
}

pub struct Runner {
    programs: PathBuf,
    folder: PathBuf,
    /// Everything that was asked, with the answer.
    all: Vec<(Case, Printed)>,
    counts: BTreeMap<String, usize>,
    differences: usize,
    processes: usize,
}

impl Runner {
    /// Removes what an earlier run left.
    pub fn new(programs: &str, folder: &str) -> Runner {
        let folder = PathBuf::from(folder);
        let _ = remove_dir_all(folder.join(DIFFERENCE));
        create_dir_all(&folder).expect("the folder can be made");
        let counts = BTreeMap::new();
        Runner { programs: PathBuf::from(programs), folder, all: Vec::new(), counts, differences: 0, processes: 0 }
    }

    pub fn asked(&self) -> &[(Case, Printed)] {
        &self.all
    }

    pub fn count(&mut self, what: &str) {
        *self.counts.entry(what.to_string()).or_insert(0) += 1;
    }

    pub fn file(&self, name: &str) -> PathBuf {
        self.folder.join(name)
    }

    pub fn put(&self, name: &str, bytes: &[u8]) {
        write(self.file(name), bytes).expect("a file of the run can be written");
    }

    pub fn get(&self, name: &str) -> Vec<u8> {
        read(self.file(name)).unwrap_or_default()
    }

    /// What a program prints, run with words and then files of the folder. A program that ends otherwise than by itself, or says
    /// something on standard error, has printed something wrong.
    pub fn program(&mut self, words: &[&str], files: &[&str]) -> Vec<u8> {
        self.processes += 1;
        let mut command = Command::new(&self.programs);
        if self.programs.is_dir() {
            command = Command::new(self.programs.join(words[0]));
        } else {
            command.arg(words[0]);
        }
        let paths = files.iter().map(|name| self.folder.join(name));
        let output = command.args(&words[1..]).args(paths).stdin(Stdio::null()).output();
        let output = output.unwrap_or_else(|error| panic!("{} in {}: {}", words[0], self.programs.display(), error));
        let mut text = output.stdout;
        if !output.status.success() || !output.stderr.is_empty() {
            text.extend(format!("[{}] {}", output.status, String::from_utf8_lossy(&output.stderr)).into_bytes());
        }
        text
    }

    /// What the program answers.
    fn answer(&mut self, case: &Case) -> Printed {
        let files = case.showing.inputs();
        files.iter().zip(&case.inputs).for_each(|(name, bytes)| self.put(name, bytes));
        if case.showing != Showing::Made {
            let text = self.program(case.showing.words(), files);
            let text = if case.showing == Showing::Dot { graph::parts(&text) } else { text };
            return Printed { text, out: None };
        }
        self.put("out", AS_IT_WAS);
        let text = self.program(case.showing.words(), &[files, &["out"]].concat());
        Printed { text, out: Some(self.get("out")).filter(|out| out != AS_IT_WAS) }
    }

    /// Asks the program, and holds its answer to the reference's.
    pub fn hold(&mut self, showing: Showing, inputs: &[&[u8]]) -> Printed {
        let case = Case { showing, inputs: inputs.iter().map(|input| input.to_vec()).collect() };
        let wanted = shown(showing, &case.inputs);
        let found = self.answer(&case);
        self.count(&outcome(showing, &wanted));
        if found != wanted {
            self.differs(&showing.words().join(" "), &case, &wanted, &found);
        }
        self.all.push((case, found.clone()));
        found
    }

    /// Something else that has to hold of the last answer.
    pub fn demand(&mut self, holds: bool, what: &str) {
        if !holds {
            let (case, found) = self.all.last().cloned().expect("something was asked");
            let wanted = Printed { text: format!("{}\n", what).into_bytes(), out: None };
            self.differs(what, &case, &wanted, &found);
        }
    }

    fn differs(&mut self, what: &str, case: &Case, wanted: &Printed, found: &Printed) {
        self.differences += 1;
        let folder = self.folder.join(DIFFERENCE).join(self.differences.to_string());
        create_dir_all(&folder).expect("the folder of a difference can be made");
        for (name, bytes) in case.showing.inputs().iter().zip(&case.inputs) {
            write(folder.join(name), bytes).expect("a file of a difference can be written");
        }
        println!("difference {}: {}, files in {}", self.differences, what, folder.display());
        for (name, printed) in [("wanted", wanted), ("found", found)] {
            write(folder.join(name), &printed.text).expect("a file of a difference can be written");
            let out = printed.out.as_ref().map_or(String::new(), |out| format!(" and OUT of {} bytes", out.len()));
            println!("  {}{}:\n{}", name, out, beginning(&printed.text));
        }
        println!("  run it again: {}\n", again(&self.programs, &folder, case.showing));
        if self.differences == SHOWN {
            println!("shown: {} differences, and no more are looked for", SHOWN);
            std::process::exit(1);
        }
    }

    /// Prints the counts. Whether nothing differed and nothing is too rare.
    pub fn is_fine(&self, least: &[(&str, usize)]) -> bool {
        let count = |what: &str| self.counts.get(what).copied().unwrap_or(0);
        let counts: Vec<String> = self.counts.iter().map(|(what, count)| format!("{}: {}", what, count)).collect();
        if !least.is_empty() {
            println!("{}", counts.join("\n"));
        }
        let rare: Vec<&(&str, usize)> = least.iter().filter(|(what, least)| count(what) < *least).collect();
        for (what, least) in &rare {
            println!("too rare: {}: {} of {}", what, count(what), least);
        }
        println!("{}; {} processes, {} answers differ", self.summary(), self.processes, self.differences);
        rare.is_empty() && self.differences == 0
    }

    /// How often each was asked; a tree is asked as `tree`, as `all` and as `dot`.
    fn summary(&self) -> String {
        let asked = |showing: Showing| self.all.iter().filter(|(case, _)| case.showing == showing).count();
        let named = [
            (Showing::Profile, "profiles"),
            (Showing::Made, "texts"),
            (Showing::Proof, "proofs"),
            (Showing::Tree, "trees"),
            (Showing::Advice, "questions"),
        ];
        named.map(|(showing, name)| format!("{} {}", asked(showing), name)).join(", ")
    }
}

fn beginning(text: &[u8]) -> String {
    let more = if text.len() > PRINTED { " .." } else { "" };
    format!("{}{}", String::from_utf8_lossy(&text[..text.len().min(PRINTED)]), more)
}

fn again(programs: &Path, folder: &Path, showing: Showing) -> String {
    let slash = if programs.is_dir() { "/" } else { " " };
    let files = showing.inputs().iter().map(|name| folder.join(name).display().to_string());
    let out = if showing == Showing::Made { format!(" {}", folder.join("out").display()) } else { String::new() };
    let files: Vec<String> = files.collect();
    format!("{}{}{} {}{}", programs.display(), slash, showing.words().join(" "), files.join(" "), out)
}

/// The program's words, and the answer without its numbers but a refusal's.
fn outcome(showing: Showing, wanted: &Printed) -> String {
    let text = String::from_utf8_lossy(&wanted.text);
    let words: Vec<&str> = text.split_whitespace().take(4).collect();
    let answer = match words[..] {
        [] => "nothing".to_string(),
        ["line", _, "refused", number] => format!("line refused {}", number),
        ["line", ..] => "no line".to_string(),
        ["refused", number, ..] => format!("refused {}", number),
        ["made", _] | ["kept"] | ["implied"] => words[0].to_string(),
        ["nothing", "near"] => "nothing near".to_string(),
        _ => "shown".to_string(),
    };
    format!("{}: {}", showing.words().join(" "), answer)
}
