//! Fixed cases as files and command lines, for the programs that have their operations.
use super::expectations::{Fixed, Printed};
use crate::reference::stream::*;
use std::fs::{create_dir_all, write};
use std::path::Path;

/// The program's name and its arguments; the files lie in the folder.
fn command(operation: u8, folder: &str) -> String {
    match operation {
        READ_LINE => format!("text key {0}/profile {0}/second {0}/out", folder),
        WRITE_LINE => format!("text line {0}/profile {0}/second {0}/out", folder),
        SALVAGE_LISTING => format!("salvage {0}/profile {0}/third {0}/out", folder),
        _ => panic!("no program is run for {}", OPERATIONS[operation as usize]),
    }
}

/// For each case that a program answers a folder, named by its number: its inputs, its name, the command, what it prints, and the file that
/// it writes, if it does.
pub fn write_programs(all: &[Fixed], folder: &Path) -> std::io::Result<()> {
    let by_program = all.iter().filter_map(|fixed| fixed.by_program.as_ref().map(|printed| (fixed, printed)));
    for (number, (Fixed { name, case, .. }, Printed { says, out })) in by_program.enumerate() {
        let folder = folder.join((number + 1).to_string());
        create_dir_all(&folder)?;
        for (file, bytes) in ["profile", "second", "third"].iter().zip(&case.inputs) {
            write(folder.join(file), bytes)?;
        }
        write(folder.join("name"), name)?;
        write(folder.join("command"), command(case.operation, &folder.to_string_lossy()))?;
        write(folder.join("says"), says)?;
        if let Some(bytes) = out {
            write(folder.join("wanted"), bytes)?;
        }
    }
    Ok(())
}
