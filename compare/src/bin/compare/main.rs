//! Compares the checker with the interpreter, tries demand 3 and the alarms, compares the writers and the
//! commands, and tries all of it on planted faults.

mod commanded;
mod part;
mod written;

use std::env;
use std::ops::Range;
use std::process::ExitCode;

use compare::alarms::{self, Cases, Stepper};
use compare::claim::{self, Tally, CLAUSES};
use compare::compare::{compare, Mismatch};
use compare::coverage::Coverage;
use compare::plan::Plan;
use compare::{checker, former, guard, interpreter, teeth};

use part::{one_of, printed, single, tried, unless, Part};

const USAGE: &str = "compare [--seed S] [--cases K] [--case K0 | --former K0 | --claim K0 | \
                     --alarm K0 | --written K0 | --rewritten K0 | --commanded K0 | --swept WORD | \
                     --all-values | --fault NAME]";

/// What is tried alone.
enum Alone {
    Case(u64),
    Former(u64),
    Claim(u64),
    Alarm(u64),
    Written(u64),
    Rewritten(u64),
    Commanded(u64),
    Swept(u32),
    AllValues,
    Fault(String),
}

impl Alone {
    fn of(word: &str, value: String) -> Option<Alone> {
        let number = value.parse().ok();
        Some(match word {
            "--case" => Alone::Case(number?),
            "--former" => Alone::Former(number?),
            "--claim" => Alone::Claim(number?),
            "--alarm" => Alone::Alarm(number?),
            "--written" => Alone::Written(number?),
            "--rewritten" => Alone::Rewritten(number?),
            "--commanded" => Alone::Commanded(number?),
            "--swept" => Alone::Swept(number?.try_into().ok()?),
            "--fault" => Alone::Fault(value),
            _ => return None,
        })
    }
}

struct Options {
    seed: u64,
    /// Drawn cases, drawn alarm cases and drawn cases of the writers and of the commands, besides all the
    /// counted ones, and half as many claim cases.
    cases: u64,
    alone: Option<Alone>,
}

fn options() -> Option<Options> {
    let mut options = Options { seed: 1, cases: 20_000, alone: None };
    let mut words = env::args().skip(1);
    while let Some(word) = words.next() {
        if word == "--all-values" && options.alone.is_none() {
            options.alone = Some(Alone::AllValues);
            continue;
        }
        let value = words.next()?;
        match word.as_str() {
            "--seed" => options.seed = value.parse().ok()?,
            "--cases" => options.cases = value.parse().ok()?,
            _ if options.alone.is_some() => return None,
            _ => options.alone = Some(Alone::of(&word, value)?),
        }
    }
    Some(options)
}

/// These cases on both engines; how many mismatched.
fn comparison(plan: &Plan, cases: Range<u64>, total: &mut Coverage) -> usize {
    let work = |numbers: Range<u64>| {
        let mut coverage = Coverage::default();
        let engines = [&checker::ENGINE, &interpreter::ENGINE];
        let found: Vec<Mismatch> =
            numbers.filter_map(|k| compare(engines, plan, k, &mut coverage)).collect();
        (coverage, found)
    };
    tried(cases, work, |coverage| total.add(coverage))
}

/// Claim cases, of which one that fails ends its chunk; how many failed.
fn claims(seed: u64, cases: u64) -> (Tally, usize) {
    let work = |mut numbers: Range<u64>| {
        let mut tally = Tally::with_needs();
        let calls = claim::MOST_CALLS;
        let mut failure = |k| claim::try_case(&checker::ENGINE, seed, k, calls, &mut tally).err();
        let failed = numbers.find_map(&mut failure);
        (tally, failed.into_iter().collect())
    };
    let mut total = Tally::with_needs();
    let failures = tried(0..cases, work, |tally| total.add(tally));
    (total, failures)
}

/// Alarm cases; how many failed.
fn alarms(cases: &Cases, count: u64) -> (alarms::Tally, usize) {
    let work = |numbers: Range<u64>| {
        let mut tally = alarms::Tally::default();
        let mut stepper = Stepper::new(&checker::ENGINE);
        let mut failure = |k| alarms::try_case(&mut stepper, cases, k, &mut tally).err();
        let failed = numbers.filter_map(&mut failure).collect();
        (tally, failed)
    };
    let mut total = alarms::Tally::default();
    let failures = tried(0..count, work, |tally| total.add(tally));
    (total, failures)
}

/// The counted and the drawn cases, and how many mismatched.
fn compared(options: &Options, plan: &Plan) -> (Part, usize) {
    println!("Comparison: calls by kind of case, taken or refused by number\n");
    let cases = plan.counted() + options.cases;
    let mut coverage = Coverage::default();
    let mut mismatches = comparison(plan, 0..plan.counted(), &mut coverage);
    // Programs among the drawn ones never end on an engine that is wrong about budgets.
    if mismatches == 0 {
        mismatches = comparison(plan, plan.counted()..cases, &mut coverage);
    }
    println!("{}", coverage.table());
    let missing = printed("never met", &coverage.missing());
    let (met, steps) = (coverage.cases(), coverage.steps());
    let words = format!("{met} cases, {mismatches} mismatches, {steps} steps, {missing} never met");
    (Part { words, passed: mismatches == 0 && missing == 0 && met == cases }, mismatches)
}

/// The same cases beside the interpreter with the limits of before document 02's request L5.
fn kept(options: &Options, plan: &Plan) -> Part {
    println!("The former limits: cases of the comparison by what they allow\n");
    let cases = plan.counted() + options.cases;
    let work = |numbers: Range<u64>| {
        let mut tally = former::Tally::default();
        let mut mismatch = |k| former::try_case(&checker::ENGINE, plan, k, &mut tally).err();
        let found: Vec<Mismatch> = numbers.filter_map(&mut mismatch).collect();
        (tally, found)
    };
    let mut total = former::Tally::default();
    let mismatches = tried(0..cases, work, |tally| total.add(tally));
    println!("{}", total.table());
    let missing = printed("never met", &total.missing());
    let words = format!("{mismatches} answered otherwise than before");
    Part { words, passed: mismatches == 0 && missing == 0 && total.cases == cases }
}

/// The claim cases.
fn claimed(options: &Options) -> Part {
    println!("Demand 3 beside the bare machine, and register 15 on both\n");
    let (tally, failures) = claims(options.seed, options.cases / 2);
    println!("{}", tally.table());
    if tally.is_empty() {
        println!("the claim is empty: too little was tried");
    }
    let words = format!("{} claim programs, {failures} failed", tally.programs);
    let whole = !tally.is_empty() && tally.programs == options.cases / 2;
    Part { words, passed: failures == 0 && whole }
}

/// The counted and the drawn alarm cases.
fn alarmed(options: &Options) -> Part {
    println!("Alarms: bits of one result called undefined, and bits that two fillings vary\n");
    let cases = Cases::new(options.seed);
    let count = cases.counted() + options.cases;
    let (tally, wrong) = alarms(&cases, count);
    println!("{}", tally.table());
    let missing = printed("never met", &tally.missing());
    let words = format!("{} alarm cases, {wrong} wrong, {missing} never met", tally.cases());
    Part { words, passed: wrong == 0 && missing == 0 && tally.cases() == count }
}

/// All planted faults.
fn bitten(options: &Options, plan: &Plan) -> Part {
    let bites = teeth::bites(plan, plan.counted() + options.cases, None);
    println!("Clauses of the claim, and how many planted faults break each before any other\n");
    println!("{}", teeth::clause_table(&bites));
    let unbroken = printed("never broken", &teeth::unbroken(&bites));
    println!("Alarms: planted faults that call a bit that does not vary, or not one that does\n");
    println!("{}", teeth::alarm_table(&bites));
    let unfound = printed("never found", &teeth::unfound_alarms(&bites));
    println!("Planted faults: cases until found, claim cases until a clause breaks, and alarms\n");
    println!("{}", teeth::table(&bites));
    let found = bites.iter().filter(|bite| bite.is_found()).count();
    let words = format!(
        "{found} of {} faults found, {} break the claim, {} of {} clauses broken, \
         {} have wrong alarms",
        bites.len(),
        teeth::breaking_any(&bites),
        CLAUSES.len() - unbroken,
        CLAUSES.len(),
        teeth::alarming_wrongly(&bites)
    );
    Part { words, passed: found == bites.len() && unbroken == 0 && unfound == 0 }
}

fn all(options: &Options) -> ExitCode {
    let plan = Plan::new(options.seed);
    let (comparison, mismatches) = compared(options, &plan);
    let former = kept(options, &plan);
    let (claim, alarms) = (claimed(options), alarmed(options));
    let teeth = unless(mismatches, || bitten(options, &plan));
    let (writers, mismatches) = written::compared(options, &plan);
    let writer_teeth = unless(mismatches, || written::bitten(options));
    let (commands, failed) = commanded::compared(options);
    let command_teeth = unless(failed, || commanded::bitten(options));
    let parts =
        [comparison, former, claim, alarms, teeth, writers, writer_teeth, commands, command_teeth];
    println!("compare: {}", parts.each_ref().map(|part| part.words.as_str()).join("; "));
    ExitCode::from(u8::from(!parts.iter().all(|part| part.passed)))
}

fn one_case(options: &Options, number: u64) -> ExitCode {
    let plan = Plan::new(options.seed);
    one_of(plan.counted() + options.cases, number, || {
        let engines = [&checker::ENGINE, &interpreter::ENGINE];
        let found = compare(engines, &plan, number, &mut Coverage::default())?;
        Some(found.to_string())
    })
}

fn one_former(options: &Options, number: u64) -> ExitCode {
    let plan = Plan::new(options.seed);
    one_of(plan.counted() + options.cases, number, || {
        let tally = &mut former::Tally::default();
        let found = former::try_case(&checker::ENGINE, &plan, number, tally).err()?;
        Some(found.to_string())
    })
}

fn one_alarm(options: &Options, number: u64) -> ExitCode {
    let cases = Cases::new(options.seed);
    one_of(cases.counted() + options.cases, number, || {
        let (mut stepper, tally) = (Stepper::new(&checker::ENGINE), &mut Default::default());
        let failure = alarms::try_case(&mut stepper, &cases, number, tally).err()?;
        Some(failure.to_string())
    })
}

/// The planted fault of this name, of the interpreter, of a writer or of commands; the status is 1 unless it is
/// found.
fn one_fault(options: &Options, name: &str) -> ExitCode {
    let plan = Plan::new(options.seed);
    let bites = teeth::bites(&plan, plan.counted() + options.cases, Some(name));
    if bites.is_empty() {
        return written::one_fault(options, name)
            .unwrap_or_else(|| commanded::one_fault(options, name));
    }
    print!("{}", teeth::table(&bites));
    ExitCode::from(u8::from(!bites.iter().all(|bite| bite.is_found())))
}

fn main() -> ExitCode {
    let Some(options) = options() else {
        eprintln!("{USAGE}");
        return ExitCode::from(2);
    };
    guard::keep_guarded_panics_quiet();
    match &options.alone {
        None => all(&options),
        Some(Alone::Case(number)) => one_case(&options, *number),
        Some(Alone::Former(number)) => one_former(&options, *number),
        Some(Alone::Claim(number)) => {
            let tally = &mut Tally::default();
            let (seed, calls) = (options.seed, claim::MOST_CALLS);
            let answer = claim::try_case(&checker::ENGINE, seed, *number, calls, tally);
            single(answer.err().map(|failure| failure.to_string()))
        }
        Some(Alone::Alarm(number)) => one_alarm(&options, *number),
        Some(Alone::Written(number)) => written::one_case(&options, *number),
        Some(Alone::Rewritten(number)) => written::one_image(&options, *number),
        Some(Alone::Commanded(number)) => commanded::one_case(&options, *number),
        Some(Alone::Swept(word)) => commanded::one_value(*word),
        Some(Alone::AllValues) => commanded::all_values(),
        Some(Alone::Fault(name)) => one_fault(&options, name),
    }
}
