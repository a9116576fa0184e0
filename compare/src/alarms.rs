//! The alarms from outside (document 02, L14): is a bit of one result called undefined exactly if two
//! choices of the operands' undefined bits give it different values?

mod case;
mod counted;
mod drawn;
mod fillings;
mod sorts;
mod step;
mod tally;
pub mod teeth;

use std::fmt;

use crate::images::op;
use crate::layout::name_of;

pub use case::{Case, Cases};
pub use fillings::{Filling, Operands};
pub use step::{Seen, Stepper};
pub use tally::Tally;

/// The ops that are looked at: those of the claim, and ADD and SUB, of which it says nothing.
pub const OPS: [u8; 10] =
    [op::MOV, op::AND, op::OR, op::XOR, op::SHL, op::SHR, op::SAR, op::EQ, op::ADD, op::SUB];

/// The place of an op among them; every case is of one.
fn place_of(op: u8) -> usize {
    OPS.iter().position(|&listed| listed == op).expect("an op of the list")
}

/// How a rule can be wrong about a bit.
#[derive(Clone, Copy, PartialEq, Eq)]
pub enum Wrong {
    /// Called undefined, and no filling varies it.
    TooMuch,
    /// Varies, and is not called undefined.
    TooLittle,
}

pub const WRONGS: [Wrong; 2] = [Wrong::TooMuch, Wrong::TooLittle];

impl Wrong {
    pub fn name(self) -> &'static str {
        match self {
            Wrong::TooMuch => "too much",
            Wrong::TooLittle => "too little",
        }
    }

    /// The bits that are so.
    pub fn bits(self, seen: &Seen) -> u32 {
        match self {
            Wrong::TooMuch => seen.called & !seen.varies,
            Wrong::TooLittle => seen.varies & !seen.called,
        }
    }

    /// Is such a bit a failure? Of ADD and SUB only soundness is asked.
    pub fn is_barred(self, op: u8) -> bool {
        self == Wrong::TooLittle || (op != op::ADD && op != op::SUB)
    }
}

/// A case in which a bit is wrong, with all that is needed to see it again.
pub struct Failure {
    seed: u64,
    number: u64,
    kind: &'static str,
    words: String,
}

impl fmt::Display for Failure {
    fn fmt(&self, out: &mut fmt::Formatter) -> fmt::Result {
        writeln!(out, "alarm: --seed {} --alarm {} ({})", self.seed, self.number, self.kind)?;
        write!(out, "  {}", self.words)
    }
}

/// The op and its operands, in words.
fn described(case: &Case) -> String {
    let Operands { x, v, y, w } = case.operands;
    let name = name_of(case.row.op);
    format!("{name}, x {x:#x}, v {v:#x}, y {y:#x}, w {w:#x}")
}

/// What is wrong with what was seen, if it is barred.
fn wrong(case: &Case, seen: &Seen) -> Option<String> {
    let is_wrong = |wrong: &Wrong| wrong.is_barred(case.row.op) && wrong.bits(seen) != 0;
    let found = WRONGS.iter().find(|wrong| is_wrong(wrong))?;
    let Seen { called, varies, .. } = seen;
    let (case, wrong) = (described(case), found.name());
    Some(format!("{case}: called undefined {called:#x}, varies {varies:#x}: {wrong}"))
}

/// Case k on an engine.
pub fn try_case(
    stepper: &mut Stepper,
    cases: &Cases,
    number: u64,
    tally: &mut Tally,
) -> Result<(), Failure> {
    let (kind, case) = cases.case(number);
    let failure = |words| Failure { seed: cases.seed, number, kind, words };
    let seen = stepper.look(&case).map_err(|words| failure(described(&case) + ": " + &words))?;
    tally.add_case(number < cases.counted(), &case, &seen);
    wrong(&case, &seen).map_or(Ok(()), |words| Err(failure(words)))
}
