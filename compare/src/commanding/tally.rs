//! What was met of the commanded cases, kind by kind, and what should have been and was not.

use super::case::{Answer, Case, Cases};
use super::causes::Causes;
use super::sorts::{Met, Sorts};
use crate::coverage::add;
use crate::layout::Layout;
use crate::numbering::Numbered;

/// Cases, and what came of them: kinds 1 to 4, and 0 with refusal 13.
const COLUMNS: [&str; 6] = ["cases", "13", "bump", "rebound", "preload", "blocked"];

pub struct Tally {
    kinds: Vec<[u64; COLUMNS.len()]>,
    sorts: Sorts,
}

impl Default for Tally {
    fn default() -> Tally {
        Tally { kinds: vec![Default::default(); Cases::kinds().len()], sorts: Sorts::default() }
    }
}

impl Tally {
    /// A case and its answer, in which all was as it should be.
    pub fn meet(&mut self, kind: usize, case: &Case, answer: Answer) {
        let causes = Causes::of(case);
        let met = Met { case, causes: &causes, answer };
        self.sorts.meet(kind >= Case::FAMILIES.len(), &met);
        let counts = &mut self.kinds[kind];
        counts[0] += 1;
        if let Some(count) = counts.get_mut(1 + usize::from(answer.kind)) {
            *count += 1;
        }
    }

    pub fn add(&mut self, other: &Tally) {
        for (to, from) in self.kinds.iter_mut().zip(&other.kinds) {
            add(to, from);
        }
        self.sorts.add(&other.sorts);
    }

    pub fn cases(&self) -> u64 {
        self.kinds.iter().map(|counts| counts[0]).sum()
    }

    /// What should have been met and was not.
    pub fn missing(&self) -> Vec<String> {
        let never = self.sorts.counts().filter(|&(_, count)| count == 0);
        never.map(|(name, _)| format!("commands, {name}")).collect()
    }

    pub fn table(&self) -> String {
        Layout(27, 8).table(COLUMNS, Cases::kinds(), &self.kinds) + &self.sorts.lines()
    }
}
