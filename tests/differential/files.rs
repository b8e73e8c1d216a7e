//! A case that differs, printed and written as files that can be run again.
use crate::reference::campaign;
use crate::reference::records::ANSWER_BYTES;
use crate::reference::stream::*;
use std::fs::{create_dir_all, remove_dir_all, write};
use std::path::PathBuf;

/// So many differences are shown and written.
const SHOWN: usize = 5;
/// So many bytes of an input are printed; its file has them all.
const PRINTED: usize = 400;

/// The name that the program `list` opens.
const PROFILE_FILE: &str = "profile.key";

/// The differences of a run, each in a folder of its own: 1, 2, ..
pub struct Differences {
    folder: PathBuf,
    pub count: usize,
}

impl Differences {
    /// Removes what an earlier run left.
    pub fn new(folder: &str) -> Differences {
        let folder = PathBuf::from(folder);
        for number in 1..=SHOWN {
            let _ = remove_dir_all(folder.join(number.to_string()));
        }
        Differences { folder, count: 0 }
    }

    pub fn add(&mut self, title: &str, case: &Case, wanted: &Answer, found: Option<&Answer>) {
        self.count += 1;
        if self.count > SHOWN {
            return;
        }
        show(title, case, wanted, found);
        let folder = self.folder.join(self.count.to_string());
        match write_files(&folder, case, wanted, found) {
            Ok(()) => println!("  run it again from the repository's root:\n{}", commands(&folder.to_string_lossy(), case)),
            Err(error) => println!("  {}: {}", folder.display(), error),
        }
    }
}

fn hex(bytes: &[u8]) -> String {
    let shown: Vec<String> = bytes.iter().take(PRINTED).map(|byte| format!("{:02x}", byte)).collect();
    format!("{}{}", shown.join(" "), if bytes.len() > PRINTED { " .." } else { "" })
}

fn show(title: &str, case: &Case, wanted: &Answer, found: Option<&Answer>) {
    println!("{}: {}, number {}, room {}", title, OPERATIONS[case.operation as usize], case.number, case.room);
    for (input, bytes) in case.inputs.iter().enumerate() {
        println!("  input {}: {}", input + 1, hex(bytes));
    }
    println!("  wanted {} {}", wanted.line, hex(&wanted.bytes));
    match found {
        Some(found) => println!("  found  {} {}", found.line, hex(&found.bytes)),
        None => println!("  found  no answer"),
    }
}

/// The names of the second and the third input's files.
fn names(operation: u8) -> [&'static str; 2] {
    match operation {
        INCLUDE => ["path", "other"],
        CHECK_PROOF | TRIM => ["question", "proof"],
        READ_LINE => ["line", "tree"],
        CAMPAIGN => ["list", "segments"],
        _ => ["question", "tree"],
    }
}

fn write_files(folder: &std::path::Path, case: &Case, wanted: &Answer, found: Option<&Answer>) -> std::io::Result<()> {
    create_dir_all(folder)?;
    let [second, third] = names(case.operation);
    for (name, bytes) in [PROFILE_FILE, second, third].iter().zip(&case.inputs) {
        write(folder.join(name), bytes)?;
    }
    if case.operation == CAMPAIGN {
        write_segments(folder, case)?;
    }
    let mut frame = Vec::new();
    write_case(&mut frame, case)?;
    write(folder.join("frame"), frame)?;
    for (name, answer) in [("wanted", Some(wanted)), ("found", found)] {
        let mut bytes = Vec::new();
        answer.map_or(Ok(()), |answer| write_answer(&mut bytes, answer))?;
        write(folder.join(name), bytes)?;
    }
    write(folder.join("commands"), commands(&folder.to_string_lossy(), case))
}

/// The segments of a campaign under the names that its list has, as far as these are plain.
fn write_segments(folder: &std::path::Path, case: &Case) -> std::io::Result<()> {
    for (name, segment) in campaign::names(&case.inputs[1]).into_iter().zip(campaign::unframed(&case.inputs[2])) {
        let is_plain = !name.is_empty() && name.iter().all(|byte| byte.is_ascii_alphanumeric());
        match (std::str::from_utf8(name), segment) {
            (Ok(name), Some(bytes)) if is_plain => write(folder.join(name), bytes)?,
            _ => {}
        }
    }
    Ok(())
}

/// The lines that run a case again: by the program that has its operation, and by `replay`, which alone
/// lends another room than 01 asks and lists one block alone.
fn commands(folder: &str, case: &Case) -> String {
    let profile = format!("{}/{}", folder, PROFILE_FILE);
    let [second, third] = names(case.operation).map(|name| format!("{}/{}", folder, name));
    let program = match case.operation {
        REWRITE => format!("profile rewrite {} {}/out", profile, folder),
        BODY => format!("profile body {} {}", profile, case.number),
        INCLUDE => format!("profile include {} {} {}", profile, second, third),
        KEEP => format!("profile keep {} {} {}", profile, second, third),
        CHECK_PROOF => format!("checker proof {} {} {}", profile, second, third),
        CHECK_TREE => format!("checker tree {} {} {}", profile, second, third),
        DECIDE => format!("decide {} {} {}/out", profile, second, folder),
        READ_LINE => format!("text key {} {} {}/out", profile, second, folder),
        WRITE_LINE => format!("text line {} {} {}/out", profile, second, folder),
        REDUCE => format!("lean reduce {} {}/out", profile, folder),
        DROPPED_PROOF => format!("lean proof {} {} {}/out", profile, case.number, folder),
        TRIM => format!("trim {} {} {} {}/out", profile, second, third, folder),
        SALVAGE | SALVAGE_LISTING => format!("salvage {} {} {}/out", profile, third, folder),
        CAMPAIGN => format!("campaign {} {}", PROFILE_FILE, "list"),
        _ => "list <tree".to_string(),
    };
    let run = match case.operation {
        LIST | CAMPAIGN => format!("(root=$PWD; cd {} && \"$root/tests/run_program.sh\" {})", folder, program),
        _ => format!("tests/run_program.sh {}", program),
    };
    let note = if case.room as usize == ANSWER_BYTES { "" } else { "   # lends another room than this case" };
    format!("{}{}\ntests/run_program.sh test_replay <{}/frame\n", run, note, folder)
}
