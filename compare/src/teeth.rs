//! Whether the comparison finds a planted fault: each faulty interpreter against the checker.

use crate::alarms::teeth::{self as alarms, Found};
use crate::alarms::{Case, Cases};
use crate::checker;
use crate::claim::{self, Clause, Tally, CLAUSES};
use crate::compare::{self, Mismatch};
use crate::coverage::Coverage;
use crate::parallel;
use crate::plan::Plan;
use crate::types::Engine;
use faults::FAULTS;

/// Claim cases tried on each fault.
const CLAIM_CASES: u64 = 300;

pub struct Bite {
    name: &'static str,
    sentence: &'static str,
    /// The first case in which the fault shows.
    found: Option<Mismatch>,
    /// Claim cases until the fault, put in the checker's place, breaks the claim, and in what.
    claim_broken: Option<(u64, Clause)>,
    /// How the fault, put in the checker's place, is wrong about alarms.
    alarms: Found,
}

impl Bite {
    fn of(
        plan: &Plan,
        cases: u64,
        shares: &[Case],
        (name, sentence, faulty): &(&'static str, &'static str, Engine),
    ) -> Bite {
        let mut unused = Coverage::default();
        let found = (0..cases)
            .find_map(|k| compare::compare([&checker::ENGINE, faulty], plan, k, &mut unused));
        let claim_broken = (0..CLAIM_CASES).find_map(|k| {
            let (calls, tally) = (claim::MOST_FAULTY_CALLS, &mut Tally::default());
            let failure = claim::try_case(faulty, plan.seed, k, calls, tally).err()?;
            Some((k + 1, failure.clause()?))
        });
        let alarms = Found::of(faulty, shares);
        Bite { name, sentence, found, claim_broken, alarms }
    }

    pub fn is_found(&self) -> bool {
        self.found.is_some()
    }

    /// The clause of the claim that breaks first.
    fn breaks(&self) -> Option<Clause> {
        self.claim_broken.map(|(_, clause)| clause)
    }

    fn row(&self) -> String {
        let claim = self.claim_broken.map_or("-".to_string(), |(cases, _)| cases.to_string());
        let clause = self.breaks().map_or("", Clause::name);
        let alarms = self.alarms.words();
        let (cases, kind, difference) = match &self.found {
            Some(found) => ((found.case + 1).to_string(), found.kind, found.difference.as_str()),
            None => ("-".to_string(), "NOT FOUND", self.sentence),
        };
        let counts = format!("{:<36}{cases:>7}{claim:>7}", self.name);
        format!("{counts}  {clause:<19}{alarms:<12}{kind:<28}{difference}\n")
    }
}

/// All planted faults or the one of this name, each over the first so many cases at most.
pub fn bites(plan: &Plan, cases: u64, name: Option<&str>) -> Vec<Bite> {
    let asked: Vec<_> =
        FAULTS.iter().filter(|fault| name.is_none_or(|name| name == fault.0)).collect();
    let alarm_cases = Cases::new(plan.seed);
    let shares = alarms::shares(&alarm_cases, 0..alarm_cases.counted());
    let work = |at: std::ops::Range<u64>| Bite::of(plan, cases, &shares, asked[at.start as usize]);
    parallel::in_order(0..asked.len() as u64, 1, work)
}

pub fn table(bites: &[Bite]) -> String {
    let [fault, clause, alarms, kind] = ["fault", "broken first", "alarms", "found by"];
    let counts = format!("{fault:<36}{:>7}{:>7}", "cases", "claim");
    let head = format!("{counts}  {clause:<19}{alarms:<12}{kind:<28}difference\n");
    bites.iter().fold(head, |table, bite| table + &bite.row())
}

/// How many faults break this clause of the claim before any other.
fn breaking(bites: &[Bite], clause: Clause) -> usize {
    bites.iter().filter(|bite| bite.breaks() == Some(clause)).count()
}

pub fn clause_table(bites: &[Bite]) -> String {
    let row = |clause: &Clause| format!("{:<19}{:>4}\n", clause.name(), breaking(bites, *clause));
    CLAUSES.iter().chain(&[Clause::Panic]).map(row).collect()
}

/// The clauses that no fault breaks first.
pub fn unbroken(bites: &[Bite]) -> Vec<String> {
    let unbroken = CLAUSES.into_iter().filter(|&clause| breaking(bites, clause) == 0);
    unbroken.map(|clause| clause.name().to_string()).collect()
}

/// How many faults break some clause of the claim; a panic is none.
pub fn breaking_any(bites: &[Bite]) -> usize {
    CLAUSES.into_iter().map(|clause| breaking(bites, clause)).sum()
}

/// How many faults are wrong about alarms in some op and way.
pub fn alarming_wrongly(bites: &[Bite]) -> usize {
    bites.iter().filter(|bite| bite.alarms.is_any()).count()
}

pub fn alarm_table(bites: &[Bite]) -> String {
    alarms::table(bites.iter().map(|bite| &bite.alarms))
}

/// The ops and ways of being wrong about alarms in which no fault is found.
pub fn unfound_alarms(bites: &[Bite]) -> Vec<String> {
    alarms::unfound(bites.iter().map(|bite| &bite.alarms))
}
