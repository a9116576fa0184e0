//! The commands: their cases, the sweep of value words, and the planted faults.

use std::ops::Range;
use std::process::ExitCode;

use compare::checker;
use compare::commanding::sweep::{self, Sweep};
use compare::commanding::{self, teeth, Cases, Tally};
use compare::commands::COMMANDER;
use compare::types::Commander;

use crate::part::{one_of, printed, single, tried, Part};
use crate::Options;

const BOTH: [&Commander; 2] = [&checker::COMMANDER, &COMMANDER];

/// Cases of the commands; how many failed.
fn commandings(cases: &Cases, count: u64) -> (Tally, usize) {
    let work = |numbers: Range<u64>| {
        let mut tally = Tally::default();
        let mut failure = |k| commanding::try_case(BOTH, cases, k, &mut tally).err();
        let failed = numbers.filter_map(&mut failure).collect();
        (tally, failed)
    };
    let mut total = Tally::default();
    let failures = tried(0..count, work, |tally| total.add(tally));
    (total, failures)
}

/// The counted and the drawn cases.
fn cases(options: &Options) -> Part {
    println!("Commands: outputs by kind of case, refused or by what they are\n");
    let cases = Cases::new(options.seed);
    let count = cases.counted() + options.cases;
    let (tally, mismatches) = commandings(&cases, count);
    println!("{}", tally.table());
    let missing = printed("never met", &tally.missing());
    let words =
        format!("{} command cases, {mismatches} mismatches, {missing} never met", tally.cases());
    Part { words, passed: mismatches == 0 && missing == 0 && tally.cases() == count }
}

/// The words of a sweep and those about the ends, at each gate.
fn swept(sweep: &Sweep) -> Part {
    println!("Value words at each gate\n");
    let swept = sweep.swept(BOTH);
    println!("{}", swept.table());
    let (about, differing, failures) = sweep::about_ends(BOTH);
    let failures = [swept.failures(), failures].concat();
    failures.iter().for_each(|failure| println!("{failure}"));
    let (all, differing) = (swept.calls() + about, swept.differing() + differing);
    let words = format!("{all} value words swept, {differing} mismatches");
    Part { words, passed: failures.is_empty() }
}

/// The cases and the sweep, and in how many parts something failed.
pub fn compared(options: &Options) -> (Part, usize) {
    let parts = [cases(options), swept(&Sweep::of_seed(options.seed))];
    let failed = parts.iter().filter(|part| !part.passed).count();
    let words = parts.map(|part| part.words).join(", ");
    (Part { words, passed: failed == 0 }, failed)
}

/// All planted faults of the commands.
pub fn bitten(options: &Options) -> Part {
    let cases = Cases::new(options.seed);
    let bites = teeth::bites(&cases, cases.counted() + options.cases, None);
    println!("Planted faults of the commands: cases until found, and value words about the ends\n");
    println!("{}", teeth::table(&bites));
    let found = bites.iter().filter(|bite| bite.is_found()).count();
    let swept = bites.iter().filter(|bite| bite.is_swept()).count();
    let all = bites.len();
    let words = format!("{found} of {all} command faults found, {swept} by value words alone");
    Part { words, passed: found == all && swept > 0 }
}

/// Every value word at each gate.
pub fn all_values() -> ExitCode {
    let part = swept(&Sweep::ALL);
    println!("compare: {}", part.words);
    ExitCode::from(u8::from(!part.passed))
}

/// One case of the commands.
pub fn one_case(options: &Options, number: u64) -> ExitCode {
    let cases = Cases::new(options.seed);
    one_of(cases.counted() + options.cases, number, || {
        let failure = commanding::try_case(BOTH, &cases, number, &mut Tally::default()).err()?;
        Some(failure.to_string())
    })
}

/// One value word at each gate.
pub fn one_value(word: u32) -> ExitCode {
    single(sweep::try_word(BOTH, word).map(|failure| failure.to_string()))
}

/// The planted fault of this name; the status is 1 unless there is one and it is found.
pub fn one_fault(options: &Options, name: &str) -> ExitCode {
    let cases = Cases::new(options.seed);
    let bites = teeth::bites(&cases, cases.counted() + options.cases, Some(name));
    print!("{}", teeth::table(&bites));
    let found = !bites.is_empty() && bites.iter().all(|bite| bite.is_found());
    ExitCode::from(u8::from(!found))
}
