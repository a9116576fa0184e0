//! What was met of the sorts of cases that have to be, kept apart for the counted cases and the drawn ones.

use crate::coverage::{pairs, Counts, MET_IN};

/// The counts of some sorts, and what a case adds to them.
pub trait Tallied: Default {
    /// What a sort looks at.
    type Met<'a>;

    fn add(&mut self, other: &Self);

    fn meet(&mut self, met: &Self::Met<'_>);

    /// The counts, group by group.
    fn each(&self) -> Vec<Counts>;
}

/// How often each sort was met, counted and drawn.
#[derive(Default)]
pub struct Sorts<T>([T; MET_IN.len()]);

impl<T: Tallied> Sorts<T> {
    pub fn add(&mut self, other: &Sorts<T>) {
        for (to, from) in self.0.iter_mut().zip(&other.0) {
            to.add(from);
        }
    }

    pub fn meet(&mut self, drawn: bool, met: &T::Met<'_>) {
        self.0[usize::from(drawn)].meet(met);
    }

    fn each(&self) -> impl Iterator<Item = Counts> + '_ {
        MET_IN.iter().zip(&self.0).flat_map(|(met_in, met)| {
            let each = met.each().into_iter();
            each.map(move |(what, counts)| (format!("{what}, {met_in}"), counts))
        })
    }

    /// Each sort with its group, and its count.
    pub fn counts(&self) -> impl Iterator<Item = (String, u64)> + '_ {
        self.each().flat_map(|(what, counts)| {
            counts.into_iter().map(move |(sort, count)| (format!("{what}: {sort}"), count))
        })
    }

    /// A line for each group.
    pub fn lines(&self) -> String {
        self.each().map(|(what, counts)| format!("{what}: {}\n", pairs(counts))).collect()
    }
}
