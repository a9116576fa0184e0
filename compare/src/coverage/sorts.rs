//! The sorts of an op that a request of document 02 tells apart. Each has to be met in a step that a run
//! took alone, in counted and in drawn cases.

mod accesses;
mod sums;

use super::Counts;
use crate::cases::Desk;
use crate::images::op;
use crate::types::State;

pub use accesses::Access;
pub use sums::is_settled;

/// A step that a run took alone: its row, the state before it and all that it left.
pub struct Step<'a> {
    pub row: &'a [u8],
    pub before: &'a State,
    pub after: &'a Desk,
}

/// An op and the names of its sorts.
struct Sorted {
    op: u8,
    names: &'static [&'static str],
    /// The sort of a step, by its place among the names.
    sort: fn(&Step) -> usize,
}

const SORTED: [Sorted; 7] = [
    Sorted { op: op::ADD, names: &sums::CARRIES, sort: sums::carry },
    Sorted { op: op::SUB, names: &sums::CARRIES, sort: sums::carry },
    Sorted { op: op::EQ, names: &sums::EQUALITIES, sort: sums::equality },
    Sorted { op: op::LDS8, names: &accesses::BYTES_LOADED, sort: accesses::byte_loaded },
    Sorted { op: op::LD16, names: &accesses::HALVES_LOADED, sort: accesses::half_loaded },
    Sorted { op: op::LDS16, names: &accesses::HALVES_LOADED, sort: accesses::half_loaded },
    Sorted { op: op::ST16, names: &accesses::HALVES_STORED, sort: accesses::half_stored },
];

pub const MET_IN: [&str; 2] = ["counted", "drawn"];

/// How often each sort was met, counted and drawn.
pub struct Sorts([[Vec<u64>; MET_IN.len()]; SORTED.len()]);

impl Default for Sorts {
    fn default() -> Sorts {
        Sorts(SORTED.map(|sorted| MET_IN.map(|_| vec![0; sorted.names.len()])))
    }
}

impl Sorts {
    pub fn add(&mut self, other: &Sorts) {
        for (to, from) in self.0.iter_mut().flatten().zip(other.0.iter().flatten()) {
            super::add(to, from);
        }
    }

    pub fn meet(&mut self, drawn: bool, step: &Step) {
        for (sorted, counts) in SORTED.iter().zip(&mut self.0) {
            if sorted.op == step.row[0] {
                counts[usize::from(drawn)][(sorted.sort)(step)] += 1;
            }
        }
    }

    pub fn each(&self) -> impl Iterator<Item = Counts> + '_ {
        let both = SORTED.iter().zip(&self.0);
        both.flat_map(|(sorted, counts)| {
            let op = op::NAMES[usize::from(sorted.op)];
            let sorts =
                |counts: &[u64]| sorted.names.iter().copied().zip(counts.to_vec()).collect();
            let counts = MET_IN.iter().zip(counts);
            counts.map(move |(met_in, counts)| (format!("{op}, {met_in}"), sorts(counts)))
        })
    }
}
