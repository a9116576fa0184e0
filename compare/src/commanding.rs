//! Damper commands (document 02, L7): two commanders given identical copies of a case, and the first thing
//! in which they differ.

mod case;
mod causes;
mod counted;
mod drawn;
mod sorts;
pub mod sweep;
mod tally;
pub mod teeth;
mod values;

use std::fmt;

use crate::differ::Differ;
use crate::types::Commander;

pub use case::{answer_of, Answer, Case, Cases, KINDS};
pub use tally::Tally;

/// A case that went wrong, with all that is needed to see it again.
pub struct Failure {
    seed: u64,
    pub number: u64,
    pub kind: &'static str,
    lent: String,
    /// What went wrong, in words.
    pub words: String,
}

impl fmt::Display for Failure {
    fn fmt(&self, out: &mut fmt::Formatter) -> fmt::Result {
        let Failure { seed, number, kind, lent, words } = self;
        writeln!(out, "command: --seed {seed} --commanded {number} ({kind})")?;
        write!(out, "  {lent}\n  {words}")
    }
}

/// Words of a list that are printed.
const PRINTED: usize = 1024;

/// What is lent, in words.
fn described(case: &Case) -> String {
    let words = case.outputs.part();
    let (count, number) = (words.len(), case.number);
    let more = if count > PRINTED { " and more" } else { "" };
    format!("outputs {:x?}{more}, {count} words, number {number}", &words[..count.min(PRINTED)])
}

/// The answers of two commanders, and all that was lent to them.
impl Differ {
    fn answered(&mut self, left: Answer, right: Answer) {
        self.text("refusal number", left.number.to_string(), right.number.to_string());
        self.text("kind", left.kind.to_string(), right.kind.to_string());
        self.word("bits", left.bits, right.bits);
    }

    fn commands(&mut self, left: &Case, right: &Case) {
        self.lent("output word", &left.outputs, &right.outputs);
        self.lent("kind", &left.kind, &right.kind);
        self.lent("bits", &left.bits, &right.bits);
    }
}

/// What a call left otherwise than it was lent, where nothing is to be written.
pub fn touched(name: &'static str, case: &Case, left: &Case) -> Option<String> {
    let mut kept = left.clone();
    kept.kind.part_mut().copy_from_slice(case.kind.part());
    kept.bits.part_mut().copy_from_slice(case.bits.part());
    if kept == *case {
        return None;
    }
    let mut differ = Differ::new([name, "as lent"]);
    differ.commands(&kept, case);
    Some(differ.told())
}

/// Both commanders on copies of a case: the answer that both give, or the first difference between them, or
/// between what one leaves and what it was lent.
fn compared(commanders: [&Commander; 2], case: &Case) -> Result<Answer, String> {
    let [mut left, mut right] = [case.clone(), case.clone()];
    let answers = [left.answer_of(commanders[0]), right.answer_of(commanders[1])];
    let [Ok(first), Ok(second)] = answers else {
        let words = answers.map(|answer| answer.err().unwrap_or("answered".to_string()));
        return Err(format!("the call itself: {}", words.join(", ")));
    };
    if first != second || left != right {
        let mut differ = Differ::new(commanders.map(|commander| commander.name));
        differ.answered(first, second);
        differ.commands(&left, &right);
        return Err(differ.told());
    }
    touched(commanders[0].name, case, &left).map_or(Ok(first), Err)
}

/// Case k on both commanders.
pub fn try_case(
    commanders: [&Commander; 2],
    cases: &Cases,
    number: u64,
    tally: &mut Tally,
) -> Result<(), Failure> {
    let (kind, case) = cases.case(number);
    let answer = compared(commanders, &case).map_err(|words| {
        let (seed, kind, lent) = (cases.seed, Cases::kinds()[kind], described(&case));
        Failure { seed, number, kind, lent, words }
    })?;
    tally.meet(kind, &case, answer);
    Ok(())
}
