//! Runs through the checker each case that `vbits` ran under Memcheck, tabulates where the V bits
//! are equal and which side is finer, and fails on any difference that its tables don't foresee.

mod cases;
mod comparison;
mod differences;
mod events;
mod machine;
mod modes;
mod moved;
mod rules;
mod seen;
mod tables;

use std::fs;
use std::process::ExitCode;

use crate::comparison::Comparison;
use crate::machine::ENGINE;
use crate::modes::Mode;

/// Takes the arguments: `no=FILE auto=FILE yes=FILE plain=FILE strict=FILE`, the lines of each mode.
fn compare_all(arguments: &[String]) -> Result<Comparison, String> {
    let mut all = Comparison::default();
    for argument in arguments {
        let (name, path) =
            argument.split_once('=').ok_or(format!("unknown argument {argument}"))?;
        let mode = Mode::named(name).ok_or(format!("unknown mode {name}"))?;
        let text = fs::read_to_string(path).map_err(|error| format!("{path}: {error}"))?;
        all.take_file(&text, mode);
    }
    all.find_gaps();
    all.find_idle_rows();
    Ok(all)
}

fn main() -> ExitCode {
    let arguments: Vec<String> = std::env::args().skip(1).collect();
    match compare_all(&arguments) {
        Ok(all) => {
            print!("{all}");
            all.faults.iter().for_each(|fault| println!("NOT EXPECTED: {fault}"));
            if all.faults.is_empty() {
                println!("\nAs expected, engine {}.", ENGINE.name);
                return ExitCode::SUCCESS;
            }
            ExitCode::FAILURE
        }
        Err(error) => {
            eprintln!("memcheck: {error}");
            ExitCode::FAILURE
        }
    }
}
