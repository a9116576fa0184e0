//! Writing (document 02, L2): two writers given identical copies of a case, the first thing in which they
//! differ, and the round trips of what the first one wrote.

mod case;
mod causes;
mod counted;
mod drawn;
pub mod rewriting;
mod round_trip;
mod sorts;
mod spoiled;
mod tally;
pub mod teeth;

use std::fmt;

use crate::checker;
use crate::differ::Differ;
use crate::images::hex;
use crate::interpreter;
use crate::types::{Writer, Written};

pub use case::{Case, Cases};
pub use round_trip::{Broken, Clause, Rewritten, Trip, CLAUSES};
pub use tally::Tally;

/// The checker's writer, and its reader and the interpreter to read what it wrote.
pub const CHECKER: Trip =
    Trip { writer: &checker::WRITER, readers: [&checker::ENGINE, &interpreter::ENGINE] };

/// What went wrong in a case.
enum Wrong {
    /// The writers differ, or what is lent was touched where it should not be.
    Differs(String),
    Broken(Broken),
}

/// A case that went wrong, with all that is needed to see it again.
pub struct Failure {
    seed: u64,
    pub number: u64,
    pub kind: &'static str,
    lent: String,
    wrong: Wrong,
}

impl Failure {
    /// What went wrong, in words.
    pub fn words(&self) -> String {
        match &self.wrong {
            Wrong::Differs(words) => words.clone(),
            Wrong::Broken(broken) => format!("round trip, {broken}"),
        }
    }
}

impl fmt::Display for Failure {
    fn fmt(&self, out: &mut fmt::Formatter) -> fmt::Result {
        let Failure { seed, number, kind, lent, .. } = self;
        writeln!(out, "writing: --seed {seed} --written {number} ({kind})")?;
        write!(out, "  {lent}\n  {}", self.words())
    }
}

/// What is lent, in words.
fn described(case: &Case) -> String {
    let Case { m, instructions, regions, data, .. } = case;
    let (instructions, regions) = (instructions.part(), regions.part());
    let (data, room) = (hex(data.part()), case.room());
    format!(
        "M {m:#x}, instructions {instructions:x?}, regions {regions:x?}, data {data:?}, \
         a buffer of {room} bytes"
    )
}

/// The answers of two writers, and all that was lent to them.
impl Differ {
    fn written(&mut self, left: Written, right: Written) {
        self.text("refusal number", left.number.to_string(), right.number.to_string());
        self.text("refusal index", left.index.to_string(), right.index.to_string());
        self.text("size", left.size.to_string(), right.size.to_string());
    }

    fn cases(&mut self, left: &Case, right: &Case) {
        self.lent("buffer byte", &left.out, &right.out);
        self.lent("instruction word", &left.instructions, &right.instructions);
        self.lent("region word", &left.regions, &right.regions);
        self.lent("data byte", &left.data, &right.data);
    }
}

/// What a call that answers this size left otherwise than it was lent, where nothing is to be written.
pub fn touched(name: &'static str, case: &Case, left: &Case, size: usize) -> Option<String> {
    let mut kept = left.clone();
    let image = size.min(case.room());
    kept.out.part_mut()[..image].copy_from_slice(&case.out.part()[..image]);
    if kept == *case {
        return None;
    }
    let mut differ = Differ::new([name, "as lent"]);
    differ.cases(&kept, case);
    Some(differ.told())
}

/// Both writers on copies of a case: the answer that both give and what the first one leaves, or the first
/// difference between them, or between what it leaves and what it was lent.
fn compared(writers: [&Writer; 2], case: &Case) -> Result<(Written, Case), String> {
    let [mut left, mut right] = [case.clone(), case.clone()];
    let answers = [left.written_by(writers[0]), right.written_by(writers[1])];
    let [Ok(first), Ok(second)] = answers else {
        let words = answers.map(|answer| answer.err().unwrap_or("answered".to_string()));
        return Err(format!("the call itself: {}", words.join(", ")));
    };
    if first != second || left != right {
        let mut differ = Differ::new(writers.map(|writer| writer.name));
        differ.written(first, second);
        differ.cases(&left, &right);
        return Err(differ.told());
    }
    match touched(writers[0].name, case, &left, first.size) {
        Some(words) => Err(words),
        None => Ok((first, left)),
    }
}

/// Case k on both writers, and the round trips of the first.
pub fn try_case(
    trip: &Trip,
    other: &Writer,
    cases: &Cases,
    number: u64,
    tally: &mut Tally,
) -> Result<(), Failure> {
    let (kind, case) = cases.case(number);
    let failure = |wrong| {
        let (seed, kind, lent) = (cases.seed, Cases::kinds()[kind], described(&case));
        Failure { seed, number, kind, lent, wrong }
    };
    let answer = compared([trip.writer, other], &case);
    let (written, left) = answer.map_err(|words| failure(Wrong::Differs(words)))?;
    let parts = case.parts();
    let looked = trip.look(&parts, written, left.out.part());
    looked.map_err(|broken| failure(Wrong::Broken(broken)))?;
    tally.meet(kind, &case, &parts, written);
    Ok(())
}
