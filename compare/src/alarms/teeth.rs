//! Whether the check finds a planted fault: each faulty interpreter in the checker's place.

use std::ops::Range;

use super::{place_of, Case, Cases, Seen, Stepper, Wrong, OPS, WRONGS};
use crate::layout::{cell, name_of, Layout};
use crate::types::Engine;

/// Cases of each op that every fault is tried on, those with more undefined bits left out.
pub const SHARE: usize = 200;
pub const MOST_UNDEFINED: u32 = 4;

/// The first cases of each op among these numbers, a share of each, in their order. Too few are an
/// error.
pub fn shares(cases: &Cases, numbers: Range<u64>) -> Vec<Case> {
    let mut lacking = [SHARE; OPS.len()];
    let is_taken = |case: &Case| {
        let lacks = &mut lacking[place_of(case.row.op)];
        let taken = *lacks > 0 && case.operands.undefined() <= MOST_UNDEFINED;
        *lacks -= usize::from(taken);
        taken
    };
    let cases = numbers.map(|k| cases.case(k).1);
    let shares = cases.filter(is_taken).take(SHARE * OPS.len()).collect();
    for (op, lacks) in OPS.into_iter().zip(lacking) {
        assert_eq!(lacks, 0, "cases that {} lacks of its share", name_of(op));
    }
    shares
}

/// In which ops the check finds a fault, and how it is wrong there.
#[derive(Default)]
pub struct Found([[bool; WRONGS.len()]; OPS.len()]);

impl Found {
    pub fn of(faulty: &Engine, shares: &[Case]) -> Found {
        let mut stepper = Stepper::new(faulty);
        let mut found = Found::default();
        for case in shares {
            if let Ok(seen) = stepper.look(case) {
                found.add(case.row.op, &seen);
            }
        }
        found
    }

    fn add(&mut self, op: u8, seen: &Seen) {
        for (way, wrong) in self.0[place_of(op)].iter_mut().zip(WRONGS) {
            *way |= wrong.is_barred(op) && wrong.bits(seen) != 0;
        }
    }

    /// In any op.
    fn is_so(&self, wrong: Wrong) -> bool {
        self.0.iter().any(|ways| ways[wrong as usize])
    }

    /// The ways in which it is wrong.
    pub fn words(&self) -> &'static str {
        match WRONGS.map(|wrong| self.is_so(wrong)) {
            [true, true] => "both",
            [true, false] => Wrong::TooMuch.name(),
            [false, true] => Wrong::TooLittle.name(),
            [false, false] => "",
        }
    }

    pub fn is_any(&self) -> bool {
        self.0.iter().flatten().any(|&way| way)
    }
}

type Counts = [[usize; WRONGS.len()]; OPS.len()];

/// How many are found, by op and way.
fn counts<'a>(found: impl Iterator<Item = &'a Found>) -> Counts {
    let mut counts = Counts::default();
    for found in found {
        for (count, way) in counts.iter_mut().flatten().zip(found.0.iter().flatten()) {
            *count += usize::from(*way);
        }
    }
    counts
}

/// A row for each op, and one for all.
pub fn table<'a>(found: impl Iterator<Item = &'a Found> + Clone) -> String {
    let layout = Layout(8, 12);
    let row = |(&op, counts): (&u8, &[usize; WRONGS.len()])| {
        let cells = WRONGS.iter().zip(counts);
        layout.line(name_of(op), cells.map(|(wrong, count)| cell(wrong.is_barred(op), count)))
    };
    let rows: String = OPS.iter().zip(&counts(found.clone())).map(row).collect();
    let of_any = WRONGS.map(|wrong| found.clone().filter(|found| found.is_so(wrong)).count());
    layout.line("", WRONGS.map(Wrong::name)) + &rows + &layout.line("any op", of_any)
}

/// The ops and ways in which none is found and one should be.
pub fn unfound<'a>(found: impl Iterator<Item = &'a Found>) -> Vec<String> {
    let mut unfound = Vec::new();
    for (&op, counts) in OPS.iter().zip(&counts(found)) {
        let none =
            WRONGS.iter().zip(counts).filter(|(wrong, &count)| wrong.is_barred(op) && count == 0);
        let name = name_of(op);
        unfound.extend(none.map(|(wrong, _)| format!("{name}, {}", wrong.name())));
    }
    unfound
}
