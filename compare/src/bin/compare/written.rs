//! The writers: their cases, the images that are written again, and the planted faults.

use std::ops::Range;
use std::process::ExitCode;

use compare::plan::Plan;
use compare::writer::WRITER;
use compare::writing::rewriting::{self, Images};
use compare::writing::{self, teeth, Cases, Tally, CHECKER};

use crate::part::{one_of, printed, tried, Part};
use crate::Options;

/// Cases of the writers; how many failed.
fn writings(cases: &Cases, count: u64) -> (Tally, usize) {
    let work = |numbers: Range<u64>| {
        let mut tally = Tally::default();
        let mut failure = |k| writing::try_case(&CHECKER, &WRITER, cases, k, &mut tally).err();
        let failed = numbers.filter_map(&mut failure).collect();
        (tally, failed)
    };
    let mut total = Tally::default();
    let failures = tried(0..count, work, |tally| total.add(tally));
    (total, failures)
}

/// The images of the comparison, written again; how many failed.
fn rewritings(plan: &Plan, count: u64) -> (Images, usize) {
    let work = |numbers: Range<u64>| {
        let mut images = Images::default();
        let mut failure = |k| rewriting::try_image(&CHECKER, plan, k, &mut images).err();
        let failed = numbers.filter_map(&mut failure).collect();
        (images, failed)
    };
    let mut total = Images::default();
    let failures = tried(0..count, work, |images| total.add(images));
    (total, failures)
}

/// The counted and the drawn cases, the images written again, and how many of both failed.
pub fn compared(options: &Options, plan: &Plan) -> (Part, usize) {
    println!("Writing: fields by kind of case, written or refused by number\n");
    let cases = Cases::new(options.seed);
    let count = cases.counted() + options.cases;
    let (tally, mismatches) = writings(&cases, count);
    println!("{}", tally.table());
    println!("Images of the comparison, taken apart and written again\n");
    let images = plan.counted() + options.cases;
    let (again, other) = rewritings(plan, images);
    println!("{}", again.table());
    let missing = printed("never met", &[tally.missing(), again.missing()].concat());
    let words = format!(
        "{} writer cases, {mismatches} mismatches, {} images written again, {other} otherwise, \
         {missing} never met",
        tally.cases(),
        again.all
    );
    let whole = tally.cases() == count && again.all == images && missing == 0;
    (Part { words, passed: mismatches + other == 0 && whole }, mismatches + other)
}

/// All planted faults of the writer.
pub fn bitten(options: &Options) -> Part {
    let cases = Cases::new(options.seed);
    let bites = teeth::bites(&cases, cases.counted() + options.cases, None);
    println!(
        "Round trips, and how many planted faults of the writer break each before any other\n"
    );
    println!("{}", teeth::clause_table(&bites));
    let unbroken = printed("never broken", &teeth::unbroken(&bites));
    println!("Planted faults of the writer: cases until found, and until a round trip breaks\n");
    println!("{}", teeth::table(&bites));
    let found = bites.iter().filter(|bite| bite.is_found()).count();
    let breaking = teeth::breaking_any(&bites);
    let all = bites.len();
    let words = format!("{found} of {all} writer faults found, {breaking} break a round trip");
    Part { words, passed: found == all && unbroken == 0 }
}

/// One case of the writers.
pub fn one_case(options: &Options, number: u64) -> ExitCode {
    let cases = Cases::new(options.seed);
    one_of(cases.counted() + options.cases, number, || {
        let tally = &mut Tally::default();
        let failure = writing::try_case(&CHECKER, &WRITER, &cases, number, tally).err()?;
        Some(failure.to_string())
    })
}

/// The image of one case of the comparison.
pub fn one_image(options: &Options, number: u64) -> ExitCode {
    let plan = Plan::new(options.seed);
    one_of(plan.counted() + options.cases, number, || {
        let images = &mut Images::default();
        let failure = rewriting::try_image(&CHECKER, &plan, number, images).err()?;
        Some(failure.to_string())
    })
}

/// The planted fault of this name, if there is one; the status is 1 unless it is found.
pub fn one_fault(options: &Options, name: &str) -> Option<ExitCode> {
    let cases = Cases::new(options.seed);
    let bites = teeth::bites(&cases, cases.counted() + options.cases, Some(name));
    if bites.is_empty() {
        return None;
    }
    print!("{}", teeth::table(&bites));
    Some(ExitCode::from(u8::from(!bites.iter().all(|bite| bite.is_found()))))
}
