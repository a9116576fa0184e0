//! Two engines given identical copies of a case, and the first thing in which they differ.

use std::fmt;

use crate::calls::{self, Answer, CodePart};
use crate::cases::{Call, Case, Desk};
use crate::coverage::Coverage;
use crate::differ::Differ;
use crate::frame::Frame;
use crate::images::hex;
use crate::plan::Plan;
use crate::types::{Engine, Header, State};

/// Two engines that differ, with all that is needed to see it again.
pub struct Mismatch {
    pub seed: u64,
    pub case: u64,
    pub kind: &'static str,
    image: String,
    call: String,
    pub difference: String,
}

impl Mismatch {
    /// What is wrong with a case of this kind: the call, and the difference after it.
    pub fn of(
        plan: &Plan,
        number: u64,
        kind: usize,
        case: &Case,
        (call, difference): (String, String),
    ) -> Mismatch {
        let (kind, image) = (Plan::kinds()[kind], hex(&case.desk.image));
        Mismatch { seed: plan.seed, case: number, kind, image, call, difference }
    }
}

impl fmt::Display for Mismatch {
    fn fmt(&self, out: &mut fmt::Formatter) -> fmt::Result {
        writeln!(out, "mismatch: --seed {} --case {} ({})", self.seed, self.case, self.kind)?;
        writeln!(out, "  image {}", self.image)?;
        writeln!(out, "  {}", self.call)?;
        write!(out, "  {}", self.difference)
    }
}

/// Case k on both engines, after every call of which answers, state, buffers and lists are compared, and
/// register 15 is looked at.
pub fn compare(
    engines: [&Engine; 2],
    plan: &Plan,
    number: u64,
    coverage: &mut Coverage,
) -> Option<Mismatch> {
    let (kind, case) = plan.case(number);
    coverage.case(kind);
    let found = first_difference(engines, &case, |before, answer, after| {
        coverage.call(kind, before, answer, after)
    })?;
    Some(Mismatch::of(plan, number, kind, &case, found))
}

/// The call, and the difference after it. What is seen after each call is shown to `look`.
pub fn first_difference(
    engines: [&Engine; 2],
    case: &Case,
    mut look: impl FnMut(&State, &Answer, &Desk),
) -> Option<(String, String)> {
    let mut desks = [case.desk.clone(), case.desk.clone()];
    for (place, &call) in case.calls.iter().enumerate() {
        let before = desks[0].state;
        let [left, right] = &mut desks;
        let answers = [calls::make(engines[0], left, call), calls::make(engines[1], right, call)];
        let panicked = answers.iter().any(|answer| matches!(answer, Answer::Panicked(_)));
        if panicked || answers[0] != answers[1] || desks[0] != desks[1] {
            let names = [engines[0].name, engines[1].name];
            let difference = described(names, &answers, &desks);
            return Some((call_words(case, place, &before), difference));
        }
        if let Some(words) = unkept(call, &before, &answers[0]) {
            return Some((call_words(case, place, &before), words));
        }
        look(&before, &answers[0], &desks[0]);
    }
    None
}

/// What an accepted call, answered alike by both, made of register 15, if that was not kept (document 02,
/// L9).
fn unkept(call: Call, before: &State, answer: &Answer) -> Option<String> {
    let (kept, left) = match (call, answer) {
        (Call::Begin(registers), Answer::Begun(began)) => (Frame::begun(&registers), began.state),
        (Call::Run(_), Answer::Ran(ran)) => (Frame::of(before), ran.state),
        _ => return None,
    };
    let is_accepted = answer.refusal().is_some_and(|(number, _)| number == 0);
    kept.unkept(Frame::of(&left)).filter(|_| is_accepted)
}

fn call_words(case: &Case, place: usize, before: &State) -> String {
    let runs = case.calls[..=place].iter().filter(|call| matches!(call, Call::Run(_))).count();
    match case.calls[place] {
        Call::Read => "reading".to_string(),
        Call::Begin(registers) => format!("beginning with registers {registers:x?}"),
        Call::Run(budget) => {
            let budget = budget.after(before.steps);
            format!("run {runs} of the case, budget {budget}, from {before:x?}")
        }
        Call::Swap => "swapping the lists".to_string(),
    }
}

/// The answers of reading, beginning and running, and all that is lent to them.
impl Differ {
    fn header(&mut self, left: &Header, right: &Header) {
        self.word("refusal number", left.number, right.number);
        self.word("refusal index", left.index, right.index);
        self.word("M", left.m, right.m);
        self.word("N", left.n, right.n);
        self.word("R", left.r, right.r);
        self.word("D", left.d, right.d);
    }

    fn code(&mut self, left: &CodePart, right: &CodePart) {
        let length = |part: &CodePart| part.bytes.len().to_string();
        self.text("length of the code part", length(left), length(right));
        let offset = |part: &CodePart| match part.offset {
            Some(offset) => offset.to_string(),
            None => "none: not a part of the image".to_string(),
        };
        self.text("offset of the code part", offset(left), offset(right));
        self.words(|k| format!("code byte {k}"), &left.bytes, &right.bytes);
    }

    fn state(&mut self, left: &State, right: &State) {
        self.words(|k| format!("register {k}"), &left.regs, &right.regs);
        self.words(|k| format!("register {k}'s V"), &left.vregs, &right.vregs);
        self.word("next index", left.index, right.index);
        self.word("steps taken", left.steps, right.steps);
        self.word("outputs made", left.outputs, right.outputs);
        self.word("reports made", left.reports, right.reports);
    }

    fn answers(&mut self, answers: &[Answer; 2]) {
        match answers {
            [Answer::Panicked(left), Answer::Panicked(right)] => {
                self.found = Some(format!("both calls: {left}, {right}"));
            }
            [Answer::Read(left, left_code), Answer::Read(right, right_code)] => {
                self.header(left, right);
                self.code(left_code, right_code);
            }
            [Answer::Begun(left), Answer::Begun(right)] => {
                self.word("refusal number", left.number, right.number);
                self.word("refusal index", left.index, right.index);
            }
            [Answer::Ran(left), Answer::Ran(right)] => {
                self.word("refusal number", left.number, right.number);
                self.word("refusal index", left.index, right.index);
                self.word("stop reason", left.reason, right.reason);
            }
            [left, right] => {
                let words = |answer: &Answer| match answer {
                    Answer::Panicked(message) => message.clone(),
                    _ => "answered".to_string(),
                };
                self.text("the call itself", words(left), words(right));
            }
        }
    }

    fn desks(&mut self, [left, right]: &[Desk; 2]) {
        const REPORT: [&str; 4] = ["steps", "index", "kind", "detail"];
        const OUTPUT: [&str; 2] = ["port", "value"];
        self.state(&left.state, &right.state);
        self.words(|k| format!("memory byte {k}"), &left.mem, &right.mem);
        self.words(|k| format!("memory byte {k}'s V"), &left.v, &right.v);
        self.words(|k| format!("memory byte {k}'s A"), &left.a, &right.a);
        let report = |k| format!("report place {}'s {}", k / 4, REPORT[k % 4]);
        self.words(report, &left.lists.reports, &right.lists.reports);
        let output = |k| format!("output place {}'s {}", k / 2, OUTPUT[k % 2]);
        self.words(output, &left.lists.outputs, &right.lists.outputs);
        self.words(|k| format!("image byte {k}"), &left.image, &right.image);
    }
}

fn described(names: [&'static str; 2], answers: &[Answer; 2], desks: &[Desk; 2]) -> String {
    let mut differ = Differ::new(names);
    differ.answers(answers);
    differ.desks(desks);
    differ.told()
}
