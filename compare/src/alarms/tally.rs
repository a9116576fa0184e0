//! What was seen, op by op.

use super::sorts::Sorts;
use super::{place_of, Case, Seen, Wrong, OPS};
use crate::coverage::add;
use crate::layout::{name_of, Layout};

/// Cases, of them those with every filling, fillings; then bits of results by whether they are called
/// undefined and whether they vary.
const COLUMNS: [&str; 8] = [
    "cases",
    "all filled",
    "fillings",
    "called, varies",
    "varies",
    "called only",
    "varies only",
    "neither",
];

const UNCLAIMED: &str =
    "nothing is claimed of ADD and SUB, but a bit of theirs that varies only would be a failure";

#[derive(Default)]
pub struct Tally {
    ops: [[u64; COLUMNS.len()]; OPS.len()],
    sorts: Sorts,
}

fn count(bits: u32) -> u64 {
    u64::from(bits.count_ones())
}

impl Tally {
    pub fn add_case(&mut self, counted: bool, case: &Case, seen: &Seen) {
        let place = place_of(case.row.op);
        let counts = [
            1,
            u64::from(case.operands.all_are_made()),
            seen.fillings,
            count(seen.called & seen.varies),
            count(seen.varies),
            count(Wrong::TooMuch.bits(seen)),
            count(Wrong::TooLittle.bits(seen)),
            count(!(seen.called | seen.varies)),
        ];
        add(&mut self.ops[place], &counts);
        self.sorts.meet(counted, place, case, seen);
    }

    pub fn add(&mut self, other: &Tally) {
        for (to, from) in self.ops.iter_mut().zip(&other.ops) {
            add(to, from);
        }
        self.sorts.add(&other.sorts);
    }

    pub fn cases(&self) -> u64 {
        self.ops.iter().map(|counts| counts[0]).sum()
    }

    /// What should have been met and was not.
    pub fn missing(&self) -> Vec<String> {
        self.sorts.missing()
    }

    pub fn table(&self) -> String {
        let layout = Layout(4, 15);
        let rows = OPS.iter().zip(&self.ops);
        let rows: String = rows.map(|(&op, counts)| layout.line(name_of(op), counts)).collect();
        let (heads, sorts) = (layout.line("", COLUMNS), self.sorts.table());
        format!("{heads}{rows}{UNCLAIMED}\n\n{sorts}")
    }
}
