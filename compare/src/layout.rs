//! The lines of the printed tables.

use std::fmt::Display;

use crate::images::op;

/// The widths of a table: of the names at the left, and of each cell.
pub struct Layout(pub usize, pub usize);

impl Layout {
    pub fn line<C: Display>(&self, name: &str, cells: impl IntoIterator<Item = C>) -> String {
        let &Layout(names, width) = self;
        let cells: String = cells.into_iter().map(|cell| format!("{cell:>width$}")).collect();
        format!("{name:<names$}{cells}\n")
    }

    /// Heads, a row of counts for each name, and their sums.
    pub fn table<const COLUMNS: usize>(
        &self,
        heads: [&str; COLUMNS],
        names: impl IntoIterator<Item = &'static str>,
        rows: &[[u64; COLUMNS]],
    ) -> String {
        let lines = names.into_iter().zip(rows).map(|(name, counts)| self.line(name, counts));
        let sum = |column| rows.iter().map(|counts: &[u64; COLUMNS]| counts[column]).sum();
        let sums: [u64; COLUMNS] = std::array::from_fn(sum);
        let (heads, sums) = (self.line("", heads), self.line("all", sums));
        format!("{heads}{}{sums}", lines.collect::<String>())
    }
}

/// A count, or a dash where there can be none.
pub fn cell(can_be: bool, count: impl Display) -> String {
    if can_be {
        count.to_string()
    } else {
        "-".to_string()
    }
}

pub fn name_of(op: u8) -> &'static str {
    op::NAMES[usize::from(op)]
}
