//! Images accepted before give the answers they gave (document 02, L5): the checker beside the interpreter with
//! the limits of document 01, which is one of the planted faults. Where an image keeps to them, both answer
//! alike in everything; every other one was refused with 3.

use crate::cases::Case;
use crate::compare::{first_difference, Mismatch};
use crate::coverage::{add, pairs};
use crate::images::{sizes_of, FORMER_DATA, FORMER_MEMORY, FORMER_ROWS, MAGIC};
use crate::plan::Plan;
use crate::types::Engine;

/// The planted fault.
const LIMITS: &str = "limits_of_document_01";

/// What came of the cases.
const COLUMNS: [&str; 7] = [
    "within the former limits, answered alike",
    "of them accepted",
    "refused by reading",
    "above them, refused with 3 before",
    "of them accepted now",
    "refused with 3 now",
    "refused with a later number now",
];

#[derive(Default)]
pub struct Tally {
    pub cases: u64,
    counts: [u64; COLUMNS.len()],
}

impl Tally {
    fn meet(&mut self, is_above: bool, number: u32) {
        let accepted = number == 0;
        let came = if is_above {
            [false, false, false, true, accepted, number == 3, number > 3]
        } else {
            [true, accepted, !accepted, false, false, false, false]
        };
        self.cases += 1;
        add(&mut self.counts, &came.map(u64::from));
    }

    pub fn add(&mut self, other: &Tally) {
        self.cases += other.cases;
        add(&mut self.counts, &other.counts);
    }

    /// What should have been met and was not.
    pub fn missing(&self) -> Vec<String> {
        let never = COLUMNS.iter().zip(self.counts).filter(|&(_, count)| count == 0);
        never.map(|(name, _)| format!("former limits: {name}")).collect()
    }

    pub fn table(&self) -> String {
        pairs(COLUMNS.iter().zip(self.counts)) + "\n"
    }
}

/// Is M, N or D above what its limit was?
pub fn are_above(m: u32, n: u32, d: u32) -> bool {
    m > FORMER_MEMORY || n > FORMER_ROWS || d > FORMER_DATA
}

/// Was an image refused with 3 for one of these?
pub fn is_above(image: &[u8]) -> bool {
    let above = sizes_of(image).is_some_and(|[m, n, _, d]| are_above(m, n, d));
    above && image.starts_with(&MAGIC)
}

/// What is wrong with a case: the call, and the difference after it.
fn difference(checker: &Engine, case: &Case) -> Option<(String, String)> {
    let former = faults::planted(LIMITS).expect("it is one of the planted faults");
    let image = &case.desk.image;
    if !is_above(image) {
        return first_difference([checker, former], case, |_, _, _| {});
    }
    let (header, _) = (former.read)(image);
    let words = || format!("refusal number: {LIMITS} {}, not 3", header.number);
    (header.number != 3).then(|| ("reading".to_string(), words()))
}

/// Case k of the comparison.
pub fn try_case(
    checker: &Engine,
    plan: &Plan,
    number: u64,
    tally: &mut Tally,
) -> Result<(), Mismatch> {
    let (kind, case) = plan.case(number);
    if let Some(found) = difference(checker, &case) {
        return Err(Mismatch::of(plan, number, kind, &case, found));
    }
    let (header, _) = (checker.read)(&case.desk.image);
    tally.meet(is_above(&case.desk.image), header.number);
    Ok(())
}
