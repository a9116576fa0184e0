//! What was met of the written cases, kind by kind, and what should have been and was not.

use super::case::{Case, Cases};
use super::causes::Causes;
use super::sorts::{Met, Sorts};
use crate::coverage::{add, pairs};
use crate::layout::Layout;
use crate::numbering::Numbered;
use crate::parts::Parts;
use crate::types::Written;

/// What a writer answers.
const NUMBERS: [u32; 6] = [0, 3, 5, 6, 7, 12];
/// Cases, and what came of them.
const COLUMNS: [&str; 7] = ["cases", "written", "3", "5", "6", "7", "12"];

/// What was looked at besides.
const LOOKS: [&str; 4] = [
    "read back and written again",
    "of them longer buffers, refused with 4",
    "refused as by reading",
    "with 12, accepted by reading",
];

pub struct Tally {
    kinds: Vec<[u64; COLUMNS.len()]>,
    looks: [u64; LOOKS.len()],
    sorts: Sorts,
}

impl Default for Tally {
    fn default() -> Tally {
        let kinds = vec![Default::default(); Cases::kinds().len()];
        Tally { kinds, looks: Default::default(), sorts: Sorts::default() }
    }
}

impl Tally {
    /// A case and its answer, in which all was as it should be.
    pub fn meet(&mut self, kind: usize, case: &Case, parts: &Parts, written: Written) {
        let causes = Causes::of(case, parts);
        let met = Met { case, parts, causes: &causes, written };
        self.sorts.meet(kind >= Case::FAMILIES.len(), &met);
        let counts = &mut self.kinds[kind];
        counts[0] += 1;
        if let Some(place) = NUMBERS.iter().position(|&number| number == written.number) {
            counts[1 + place] += 1;
        }
        let is_written = written.number == 0;
        let is_longer = is_written && case.room() > written.size;
        let is_refused = [3, 5, 6, 7].contains(&written.number) && parts.are_whole();
        let looks = [is_written, is_longer, is_refused, written.number == 12];
        add(&mut self.looks, &looks.map(u64::from));
    }

    pub fn add(&mut self, other: &Tally) {
        for (to, from) in self.kinds.iter_mut().zip(&other.kinds) {
            add(to, from);
        }
        add(&mut self.looks, &other.looks);
        self.sorts.add(&other.sorts);
    }

    pub fn cases(&self) -> u64 {
        self.kinds.iter().map(|counts| counts[0]).sum()
    }

    /// What should have been met and was not.
    pub fn missing(&self) -> Vec<String> {
        let looks = LOOKS.iter().zip(self.looks).map(|(name, count)| (name.to_string(), count));
        let never = looks.chain(self.sorts.counts()).filter(|&(_, count)| count == 0);
        never.map(|(name, _)| format!("writing, {name}")).collect()
    }

    pub fn table(&self) -> String {
        let kinds = Layout(27, 8).table(COLUMNS, Cases::kinds(), &self.kinds);
        let looks = pairs(LOOKS.iter().zip(self.looks));
        format!("{kinds}{looks}\n{}", self.sorts.lines())
    }
}
