//! The sorts of cases that have to be met, among the counted and among the drawn.

use std::cmp::Ordering;

use super::case::Case;
use super::causes::{header, row, Causes, LIMITS};
use crate::coverage::{add, named, Counts};
use crate::former;
use crate::images::{
    op, FORMER_DATA, FORMER_MEMORY, FORMER_ROWS, FRAME, MOST_DATA, MOST_MEMORY, MOST_REGIONS,
    MOST_ROWS,
};
use crate::interpreter::instruction_allowed;
use crate::met;
use crate::parts::{Parts, ROW_WORDS};
use crate::programs::STORES;
use crate::types::{Header, Written};

/// What a sort looks at: what was lent, what is wrong with it, and what came of it.
pub struct Met<'a> {
    pub case: &'a Case,
    pub parts: &'a Parts,
    pub causes: &'a Causes,
    pub written: Written,
}

impl Met<'_> {
    fn is(&self, number: u32) -> bool {
        self.written.number == number
    }

    fn is_spare(&self, bytes: usize) -> bool {
        self.is(0) && self.case.room() == self.written.size + bytes
    }

    /// Refused for room, which ends behind the first end and before the second of the image's.
    fn is_short_in(&self, part: usize) -> bool {
        let ends = self.parts.ends();
        let start = if part == 0 { 0 } else { ends[part - 1] };
        self.is(12) && (start..ends[part]).contains(&self.case.room())
    }

    fn is_largest(&self) -> bool {
        let most = [MOST_ROWS, MOST_REGIONS, MOST_DATA].map(|most| most as usize);
        self.is(0) && self.parts.m == MOST_MEMORY && self.parts.sizes() == most
    }

    fn has(&self, size: usize, count: u32) -> bool {
        self.is(0) && self.parts.sizes()[size] == count as usize
    }

    fn has_above(&self, size: usize, count: u32) -> bool {
        self.is(0) && self.parts.sizes()[size] > count as usize
    }

    /// Refused for this one of the limits alone, by one.
    fn is_one_above(&self, limit: &str, count: usize, most: u32) -> bool {
        let limit = LIMITS.iter().position(|&name| name == limit);
        let is_alone = limit.is_some_and(|limit| self.causes.is_alone(limit));
        self.is(3) && is_alone && count == most as usize + 1
    }

    /// Refused with this number, where 3 was due before document 02's request L5.
    fn is_otherwise(&self, number: u32) -> bool {
        let Header { m, n, d, .. } = header(self.parts);
        self.is(number) && former::are_above(m, n, d)
    }
}

/// A name, and whether a case is so.
type Sort = (&'static str, fn(&Met) -> bool);

const REFUSED: [Sort; 23] = [
    ("5 at 0", |met| met.is(5) && met.written.index == 0),
    ("5 above 0", |met| met.is(5) && met.written.index > 0),
    ("5, several at fault", |met| met.is(5) && met.causes.instructions.len() > 1),
    ("6 at 0", |met| met.is(6) && met.written.index == 0),
    ("6 above 0", |met| met.is(6) && met.written.index > 0),
    ("6, several at fault", |met| met.is(6) && met.causes.regions_alone > 1),
    ("7, data lack", |met| met.is(7) && met.causes.sum == Ordering::Less),
    ("7, data are spare", |met| met.is(7) && met.causes.sum == Ordering::Greater),
    ("12 by one byte", |met| met.is(12) && met.causes.lacking == 1),
    ("12, empty buffer", |met| met.is(12) && met.case.room() == 0),
    ("12 in the header", |met| met.is_short_in(0)),
    ("12 in the instructions", |met| met.is_short_in(1)),
    ("12 in the regions", |met| met.is_short_in(2)),
    ("12 in the data", |met| met.is_short_in(3)),
    ("3, M 8,193", |met| met.is_one_above("M above 8,192", met.parts.m as usize, MOST_MEMORY)),
    ("3, N 2,049", |met| met.is_one_above("N above 2,048", met.parts.sizes()[0], MOST_ROWS)),
    ("3, D 8,193", |met| met.is_one_above("D above 8,192", met.parts.sizes()[2], MOST_DATA)),
    ("5 above 511", |met| met.is(5) && met.written.index >= FORMER_ROWS as usize),
    ("5 at 2,047", |met| met.is(5) && met.written.index == MOST_ROWS as usize - 1),
    ("5 where 3 was due", |met| met.is_otherwise(5)),
    ("6 where 3 was due", |met| met.is_otherwise(6)),
    ("7 where 3 was due", |met| met.is_otherwise(7)),
    ("12 where 3 was due", |met| met.is_otherwise(12)),
];

const ACCEPTED: [Sort; 15] = [
    ("room exact", |met| met.is_spare(0)),
    ("a byte to spare", |met| met.is_spare(1)),
    ("more to spare", |met| met.is(0) && met.case.room() > met.written.size + 1),
    ("M 1", |met| met.is(0) && met.parts.m == 1),
    ("M above 4,096", |met| met.is(0) && met.parts.m > FORMER_MEMORY),
    ("M 8,192", |met| met.is(0) && met.parts.m == MOST_MEMORY),
    ("N 1", |met| met.has(0, 1)),
    ("N above 512", |met| met.has_above(0, FORMER_ROWS)),
    ("N 2,048", |met| met.has(0, MOST_ROWS)),
    ("R 0", |met| met.has(1, 0)),
    ("R 32", |met| met.has(1, MOST_REGIONS)),
    ("D 0", |met| met.has(2, 0)),
    ("D above 4,096", |met| met.has_above(2, FORMER_DATA)),
    ("D 8,192", |met| met.has(2, MOST_DATA)),
    ("the largest image", |met| met.is_largest()),
];

/// A refusal, and a later one that it comes before.
const SHADOWED: [(&str, u32, u32); 10] = [
    ("3 before 5", 3, 5),
    ("3 before 6", 3, 6),
    ("3 before 7", 3, 7),
    ("3 before 12", 3, 12),
    ("5 before 6", 5, 6),
    ("5 before 7", 5, 7),
    ("5 before 12", 5, 12),
    ("6 before 7", 6, 7),
    ("6 before 12", 6, 12),
    ("7 before 12", 7, 12),
];

/// Counts by op; those that cannot be stay at 0.
type Ops = [u64; op::COUNT];

#[derive(Clone, Default)]
pub struct Tallied {
    limits: [u64; LIMITS.len()],
    refused: [u64; REFUSED.len()],
    shadowed: [u64; SHADOWED.len()],
    accepted: [u64; ACCEPTED.len()],
    /// Written by an accepted call.
    ops: Ops,
    /// Register 15 as d is all that is wrong with the instruction for which a call is refused.
    frames: Ops,
    /// Written by an accepted call with register 15 as d.
    stored: Ops,
}

impl Tallied {
    fn refuse(&mut self, met: &Met) {
        let mut row = row(&met.parts.instructions[ROW_WORDS * met.written.index..]);
        let is_frame = op::has_result(row[0]) && row[1] == FRAME;
        row[1] = FRAME - 1;
        if is_frame && instruction_allowed(&row, &header(met.parts)) {
            self.frames[usize::from(row[0])] += 1;
        }
    }

    fn accept(&mut self, met: &Met) {
        let (mut ops, mut stored) = ([0; op::COUNT], [0; op::COUNT]);
        for words in met.parts.instructions.chunks_exact(ROW_WORDS) {
            let [op, d, ..] = words[0].to_le_bytes();
            ops[usize::from(op)] = 1;
            if d == FRAME {
                stored[usize::from(op)] = 1;
            }
        }
        add(&mut self.ops, &ops);
        add(&mut self.stored, &stored);
    }
}

/// The names and counts of the ops that are so.
fn by_op(counts: &Ops, is: fn(u8) -> bool) -> Vec<(&'static str, u64)> {
    let ops = (0..op::COUNT).filter(|&op| is(op as u8));
    ops.map(|op| (op::NAMES[op], counts[op])).collect()
}

impl met::Tallied for Tallied {
    type Met<'a> = Met<'a>;

    fn add(&mut self, other: &Tallied) {
        add(&mut self.limits, &other.limits);
        add(&mut self.refused, &other.refused);
        add(&mut self.shadowed, &other.shadowed);
        add(&mut self.accepted, &other.accepted);
        add(&mut self.ops, &other.ops);
        add(&mut self.frames, &other.frames);
        add(&mut self.stored, &other.stored);
    }

    fn meet(&mut self, met: &Met) {
        let is_limit = |limit| u64::from(met.is(3) && met.causes.is_alone(limit));
        add(&mut self.limits, &std::array::from_fn::<u64, { LIMITS.len() }, _>(is_limit));
        add(&mut self.refused, &REFUSED.map(|(_, is)| u64::from(is(met))));
        add(&mut self.accepted, &ACCEPTED.map(|(_, is)| u64::from(is(met))));
        let shadows = |number, later| met.is(number) && met.causes.has(later);
        add(&mut self.shadowed, &SHADOWED.map(|(_, number, later)| shadows(number, later).into()));
        if met.is(5) {
            self.refuse(met);
        }
        if met.is(0) {
            self.accept(met);
        }
    }

    fn each(&self) -> Vec<Counts> {
        let limits = LIMITS.into_iter().zip(self.limits).collect();
        let shadowed = SHADOWED.map(|(name, ..)| name).into_iter().zip(self.shadowed);
        let each = [
            ("refused with 3", limits),
            ("refused", named(&REFUSED, &self.refused)),
            ("refused in number order", shadowed.collect()),
            ("accepted", named(&ACCEPTED, &self.accepted)),
            ("ops written", by_op(&self.ops, |_| true)),
            ("register 15 as d refused", by_op(&self.frames, op::has_result)),
            ("register 15 as d written", by_op(&self.stored, |op| STORES.contains(&op))),
        ];
        each.map(|(what, counts)| (what.to_string(), counts)).into()
    }
}

pub type Sorts = met::Sorts<Tallied>;
