//! Whether the comparison of commands finds a planted fault: each faulty commander against the checker's.

use super::case::Cases;
use super::{sweep, try_case, Failure, Tally};
use crate::checker;
use crate::parallel;
use crate::types::Commander;
use faults::COMMAND_FAULTS;

pub struct Bite {
    name: &'static str,
    sentence: &'static str,
    /// The first case in which the fault shows.
    found: Option<Failure>,
    /// Words about an end, at all gates, on which it shows.
    swept: u64,
}

impl Bite {
    fn of(
        cases: &Cases,
        count: u64,
        (name, sentence, faulty): &(&'static str, &'static str, Commander),
    ) -> Bite {
        let (both, mut unused) = ([&checker::COMMANDER, faulty], Tally::default());
        let found = (0..count).find_map(|k| try_case(both, cases, k, &mut unused).err());
        let (_, swept, _) = sweep::about_ends(both);
        Bite { name, sentence, found, swept }
    }

    pub fn is_found(&self) -> bool {
        self.found.is_some()
    }

    /// By the words about the ends.
    pub fn is_swept(&self) -> bool {
        self.swept > 0
    }

    fn row(&self) -> String {
        let (cases, kind, difference) = match &self.found {
            Some(found) => ((found.number + 1).to_string(), found.kind, found.words.as_str()),
            None => ("-".to_string(), "NOT FOUND", self.sentence),
        };
        let swept = if self.is_swept() { self.swept.to_string() } else { "-".to_string() };
        let counts = format!("{:<36}{cases:>7}{swept:>8}", self.name);
        format!("{counts}  {kind:<28}{difference}\n")
    }
}

/// All planted faults of the commands or the one of this name, each over the first so many cases at most.
pub fn bites(cases: &Cases, count: u64, name: Option<&str>) -> Vec<Bite> {
    let asked: Vec<_> =
        COMMAND_FAULTS.iter().filter(|fault| name.is_none_or(|name| name == fault.0)).collect();
    let work = |at: std::ops::Range<u64>| Bite::of(cases, count, asked[at.start as usize]);
    parallel::in_order(0..asked.len() as u64, 1, work)
}

pub fn table(bites: &[Bite]) -> String {
    let counts = format!("{:<36}{:>7}{:>8}", "fault", "cases", "swept");
    let head = format!("{counts}  {:<28}difference\n", "found by");
    bites.iter().fold(head, |table, bite| table + &bite.row())
}
