//! Whether the comparison of writers finds a planted fault: each faulty writer against the checker's.

use super::case::Cases;
use super::round_trip::{Clause, Trip, CLAUSES};
use super::{try_case, Failure, Tally, CHECKER};
use crate::parallel;
use crate::types::Writer;
use faults::WRITER_FAULTS;

/// Cases of which the round trips are tried on each fault.
const ROUND_TRIPS: u64 = 1_000;

pub struct Bite {
    name: &'static str,
    sentence: &'static str,
    /// The first case in which the fault shows.
    found: Option<Failure>,
    /// Cases until the fault, put in the checker's place, breaks a round trip, and in what.
    broken: Option<(u64, Clause)>,
}

/// The clause of a round trip that the writer breaks in a case.
fn breaks(trip: &Trip, cases: &Cases, number: u64) -> Option<Clause> {
    let (_, mut case) = cases.case(number);
    let written = case.written_by(trip.writer).ok()?;
    let broken = trip.look(&case.parts(), written, case.out.part()).err()?;
    Some(broken.clause)
}

impl Bite {
    fn of(
        cases: &Cases,
        count: u64,
        (name, sentence, faulty): &(&'static str, &'static str, Writer),
    ) -> Bite {
        let mut unused = Tally::default();
        let found =
            (0..count).find_map(|k| try_case(&CHECKER, faulty, cases, k, &mut unused).err());
        let trip = Trip { writer: faulty, ..CHECKER };
        let broken = (0..ROUND_TRIPS).find_map(|k| Some((k + 1, breaks(&trip, cases, k)?)));
        Bite { name, sentence, found, broken }
    }

    pub fn is_found(&self) -> bool {
        self.found.is_some()
    }

    fn row(&self) -> String {
        let (trips, clause) = match self.broken {
            Some((count, clause)) => (count.to_string(), clause.name()),
            None => ("-".to_string(), ""),
        };
        let (cases, kind, difference) = match &self.found {
            Some(found) => ((found.number + 1).to_string(), found.kind, found.words()),
            None => ("-".to_string(), "NOT FOUND", self.sentence.to_string()),
        };
        let counts = format!("{:<36}{cases:>7}{trips:>7}", self.name);
        format!("{counts}  {clause:<15}{kind:<28}{difference}\n")
    }
}

/// All planted faults of the writer or the one of this name, each over the first so many cases at most.
pub fn bites(cases: &Cases, count: u64, name: Option<&str>) -> Vec<Bite> {
    let asked: Vec<_> =
        WRITER_FAULTS.iter().filter(|fault| name.is_none_or(|name| name == fault.0)).collect();
    let work = |at: std::ops::Range<u64>| Bite::of(cases, count, asked[at.start as usize]);
    parallel::in_order(0..asked.len() as u64, 1, work)
}

pub fn table(bites: &[Bite]) -> String {
    let [fault, clause, kind] = ["fault", "broken first", "found by"];
    let counts = format!("{fault:<36}{:>7}{:>7}", "cases", "trips");
    let head = format!("{counts}  {clause:<15}{kind:<28}difference\n");
    bites.iter().fold(head, |table, bite| table + &bite.row())
}

/// How many faults break this clause of a round trip before any other.
fn breaking(bites: &[Bite], clause: Clause) -> usize {
    bites.iter().filter(|bite| bite.broken.is_some_and(|(_, broken)| broken == clause)).count()
}

pub fn clause_table(bites: &[Bite]) -> String {
    let row = |clause: &Clause| format!("{:<15}{:>4}\n", clause.name(), breaking(bites, *clause));
    CLAUSES.iter().map(row).collect()
}

/// The clauses that no fault breaks first.
pub fn unbroken(bites: &[Bite]) -> Vec<String> {
    let unbroken = CLAUSES.into_iter().filter(|&clause| breaking(bites, clause) == 0);
    unbroken.map(|clause| clause.name().to_string()).collect()
}

/// How many faults break some clause of a round trip.
pub fn breaking_any(bites: &[Bite]) -> usize {
    bites.iter().filter(|bite| bite.broken.is_some()).count()
}
