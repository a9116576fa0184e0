//! The parts of a run: what is tried chunk by chunk, what is printed of it, and what it came to.

use std::fmt::Display;
use std::ops::Range;
use std::process::ExitCode;

use compare::parallel;

/// Cases that a thread takes at a time.
const CHUNK: u64 = 256;
/// Failures printed of each kind.
const PRINTED: usize = 5;

/// What every chunk of the numbers met, given to `add`; how many failed, of which the first few are
/// printed.
pub fn tried<T: Send, F: Display + Send>(
    numbers: Range<u64>,
    work: impl Fn(Range<u64>) -> (T, Vec<F>) + Sync,
    mut add: impl FnMut(&T),
) -> usize {
    let mut failures = 0;
    for (met, found) in parallel::in_order(numbers, CHUNK, work) {
        add(&met);
        for failure in &found {
            if failures < PRINTED {
                println!("{failure}");
            }
            failures += 1;
        }
    }
    failures
}

/// What a part of the run came to: its words of the last line, and whether it is as it should be.
pub struct Part {
    pub words: String,
    pub passed: bool,
}

/// Each is printed; how many there are.
pub fn printed(what: &str, lines: &[String]) -> usize {
    lines.iter().for_each(|line| println!("{what}: {line}"));
    lines.len()
}

/// Planted faults, unless what they are put beside is wrong itself.
pub fn unless(mismatches: usize, bitten: impl FnOnce() -> Part) -> Part {
    if mismatches == 0 {
        return bitten();
    }
    println!("faults not tried: a checker that mismatches says nothing about them\n");
    Part { words: "faults not tried".to_string(), passed: false }
}

/// One case alone; the status is 1 if it fails.
pub fn single(failure: Option<String>) -> ExitCode {
    println!("{}", failure.as_deref().unwrap_or("compare: 1 case, as it should be"));
    ExitCode::from(u8::from(failure.is_some()))
}

/// One case, of which there is none past the last drawn one.
pub fn one_of(cases: u64, number: u64, failure: impl FnOnce() -> Option<String>) -> ExitCode {
    if number < cases {
        return single(failure());
    }
    eprintln!("compare: no case {number}, the last is {}", cases - 1);
    ExitCode::from(2)
}
