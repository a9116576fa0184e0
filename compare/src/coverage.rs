//! What occurred in the cases, and what should have occurred and did not.

mod frame;
mod sizes;
mod sorts;

use std::fmt::{Display, Write};

use crate::calls::Answer;
use crate::cases::Desk;
use crate::images::{op, HEADER_BYTES, ROW_BYTES};
use crate::plan::Plan;
use crate::systematic::FAMILIES;
use crate::types::State;
use frame::Frames;
use sizes::{Run, Sizes};
use sorts::{Sorts, Step};

pub use sorts::{is_settled, MET_IN};

/// Accepted calls are counted as number 0.
const NUMBERS: usize = 12;
const REASONS: usize = 5;
const REPORT_KINDS: usize = 6;
/// The highest refusal of reading, beginning and running.
const CALLS: [(&str, usize); 3] = [("reading", 7), ("beginning", 8), ("running", 11)];

#[derive(Clone, Default)]
struct OfKind {
    cases: u64,
    numbers: [u64; NUMBERS],
    steps: u64,
}

pub struct Coverage {
    kinds: Vec<OfKind>,
    calls: [[u64; NUMBERS]; CALLS.len()],
    reasons: [u64; REASONS],
    reports: [u64; REPORT_KINDS],
    /// Ops of steps that a run took alone, and STOP where a run ended at it, counted and drawn.
    ops: [[u64; op::COUNT]; MET_IN.len()],
    /// Of those, some ops by their sort.
    sorts: Sorts,
    /// What was met of register 15.
    frames: Frames,
    /// What was met of large images.
    sizes: Sizes,
}

/// What is counted, such as "EQ, drawn", with each sort and its count.
pub type Counts = (String, Vec<(&'static str, u64)>);

pub fn add(to: &mut [u64], from: &[u64]) {
    for (to, from) in to.iter_mut().zip(from) {
        *to += from;
    }
}

/// The name of each sort with its count.
pub fn named<S>(sorts: &[(&'static str, S)], counts: &[u64]) -> Vec<(&'static str, u64)> {
    sorts.iter().zip(counts).map(|((name, _), &count)| (*name, count)).collect()
}

/// Each name with its count.
pub fn pairs<T: Display>(counts: impl IntoIterator<Item = (T, u64)>) -> String {
    let pairs = counts.into_iter().map(|(name, count)| format!("{name} {count}"));
    pairs.collect::<Vec<_>>().join(", ")
}

/// Is a kind of case drawn and not counted?
fn is_drawn(kind: usize) -> bool {
    kind >= FAMILIES.len()
}

impl Default for Coverage {
    fn default() -> Coverage {
        Coverage {
            kinds: vec![OfKind::default(); Plan::kinds().len()],
            calls: Default::default(),
            reasons: Default::default(),
            reports: Default::default(),
            ops: Default::default(),
            sorts: Default::default(),
            frames: Default::default(),
            sizes: Default::default(),
        }
    }
}

impl Coverage {
    pub fn add(&mut self, other: &Coverage) {
        for (to, from) in self.kinds.iter_mut().zip(&other.kinds) {
            to.cases += from.cases;
            to.steps += from.steps;
            add(&mut to.numbers, &from.numbers);
        }
        for (to, from) in self.calls.iter_mut().zip(&other.calls) {
            add(to, from);
        }
        for (to, from) in self.ops.iter_mut().zip(&other.ops) {
            add(to, from);
        }
        add(&mut self.reasons, &other.reasons);
        add(&mut self.reports, &other.reports);
        self.sorts.add(&other.sorts);
        self.frames.add(&other.frames);
        self.sizes.add(&other.sizes);
    }

    pub fn case(&mut self, kind: usize) {
        self.kinds[kind].cases += 1;
    }

    pub fn call(&mut self, kind: usize, before: &State, answer: &Answer, after: &Desk) {
        let Some((number, index)) = answer.refusal() else {
            return;
        };
        let of_call = match answer {
            Answer::Read(..) => 0,
            Answer::Begun(_) => 1,
            _ => 2,
        };
        let number = (number as usize).min(NUMBERS - 1);
        self.kinds[kind].numbers[number] += 1;
        self.calls[of_call][number] += 1;
        self.sizes.call(is_drawn(kind), of_call, &after.image, (number, index));
        if number == 5 {
            self.frames.refuse(is_drawn(kind), of_call, &after.image, index);
        }
        if let Answer::Ran(ran) = answer {
            if number == 0 {
                self.reasons[(ran.reason as usize).min(REASONS - 1)] += 1;
                self.kinds[kind].steps += u64::from(ran.state.steps - before.steps);
                self.ran(kind, before, ran.reason, after);
            }
        }
    }

    fn ran(&mut self, kind: usize, before: &State, reason: u32, after: &Desk) {
        for k in before.reports..after.state.reports {
            let Some(report) = after.lists.reports.chunks(4).nth(k as usize) else {
                break;
            };
            self.reports[(report[2] as usize).min(REPORT_KINDS - 1)] += 1;
        }
        let drawn = is_drawn(kind);
        let ops = &mut self.ops[usize::from(drawn)];
        let alone = (after.state.steps == before.steps + 1).then(|| {
            let row = &after.image[HEADER_BYTES + ROW_BYTES * before.index as usize..];
            Step { row, before, after }
        });
        if let Some(step) = &alone {
            ops[usize::from(step.row[0])] += 1;
            self.sorts.meet(drawn, step);
            self.frames.meet(drawn, step);
        }
        if reason == 1 {
            ops[usize::from(op::STOP)] += 1;
        }
        self.sizes.run(drawn, &Run { before, reason, after, step: alone.as_ref() });
    }

    pub fn cases(&self) -> u64 {
        self.kinds.iter().map(|kind| kind.cases).sum()
    }

    pub fn steps(&self) -> u64 {
        self.kinds.iter().map(|kind| kind.steps).sum()
    }

    /// What the documents have and no case met.
    pub fn missing(&self) -> Vec<String> {
        let mut missing = Vec::new();
        let mut look = |what: String, count: u64| {
            if count == 0 {
                missing.push(what);
            }
        };
        for ((name, highest), counts) in CALLS.iter().zip(&self.calls) {
            for (number, &count) in counts.iter().enumerate().take(highest + 1) {
                look(format!("{name} with refusal number {number}"), count);
            }
        }
        for (reason, &count) in self.reasons.iter().enumerate().skip(1) {
            look(format!("stop reason {reason}"), count);
        }
        for (kind, &count) in self.reports.iter().enumerate().skip(1) {
            look(format!("report kind {kind}"), count);
        }
        for (met_in, ops) in MET_IN.iter().zip(&self.ops) {
            for (name, &count) in op::NAMES.iter().zip(ops) {
                look(format!("op {name}, {met_in}"), count);
            }
        }
        for (what, counts) in self.sorts.each().chain(self.frames.each()).chain(self.sizes.each()) {
            for (sort, count) in counts {
                look(format!("{what}: {sort}"), count);
            }
        }
        missing
    }

    pub fn table(&self) -> String {
        let mut table = String::new();
        let mut row = |name: &str, cases: &str, numbers: &[u64; NUMBERS], steps: &str| {
            let numbers: String = numbers.iter().map(|count| format!("{count:>7}")).collect();
            let _ = writeln!(table, "{name:<27}{cases:>8}{numbers}{steps:>10}");
        };
        for (name, kind) in Plan::kinds().iter().zip(&self.kinds) {
            row(name, &kind.cases.to_string(), &kind.numbers, &kind.steps.to_string());
        }
        for ((name, _), numbers) in CALLS.iter().zip(&self.calls) {
            row(&format!("all of {name}"), "", numbers, "");
        }
        let numbers: String = (1..NUMBERS).map(|number| format!("{number:>7}")).collect();
        let heads = format!("{:<27}{:>8}{:>7}{numbers}{:>10}", "", "cases", "taken", "steps");
        let numbered = |counts: &[u64]| pairs(counts.iter().copied().enumerate().skip(1));
        let (reasons, reports) = (numbered(&self.reasons), numbered(&self.reports));
        let kinds = format!("stop reasons: {reasons}\nreport kinds: {reports}\n");
        let ops = MET_IN.iter().zip(&self.ops);
        let ops = ops.map(|(met_in, ops)| {
            format!("single steps, {met_in}: {}\n", pairs(op::NAMES.into_iter().zip(*ops)))
        });
        let ops: String = ops.collect();
        let line = |(what, counts): Counts| format!("{what}: {}\n", pairs(counts));
        let sorts = self.sorts.each().map(|counts| "single steps of ".to_string() + &line(counts));
        let others = self.frames.each().chain(self.sizes.each()).map(line);
        let sorts: String = sorts.chain(others).collect();
        format!("{heads}\n{table}{kinds}{ops}{sorts}")
    }
}
