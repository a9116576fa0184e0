//! What has to be met of the limits that document 02's request L5 raised, in counted and in drawn cases: sizes
//! at them and above what they were before, refused for each reason, and all that happens where only large
//! images have rows and bytes.

use super::sorts::{Access, Step, MET_IN};
use super::{add, Counts, CALLS};
use crate::cases::Desk;
use crate::former;
use crate::images::{
    op, sizes_of, word_at, FORMER_DATA, FORMER_MEMORY, FORMER_ROWS, MOST_BYTES, MOST_DATA,
    MOST_MEMORY, MOST_REGIONS, MOST_ROWS,
};
use crate::programs::{LOADS, STORES};
use crate::types::State;

/// The number and index that a call answers, the sizes in the image's header, and its length.
struct Answered {
    number: usize,
    index: u32,
    m: u32,
    n: u32,
    r: u32,
    d: u32,
    length: usize,
}

impl Answered {
    fn of(image: &[u8], number: usize, index: u32) -> Option<Answered> {
        let [m, n, r, d] = sizes_of(image)?;
        Some(Answered { number, index, m, n, r, d, length: image.len() })
    }

    fn accepted(&self) -> bool {
        self.number == 0
    }

    /// Refused with 3, of which there is just one cause.
    fn one_above(&self) -> bool {
        let sizes = [self.m, self.n, self.r, self.d];
        let limits = [MOST_MEMORY, MOST_ROWS, MOST_REGIONS, MOST_DATA];
        let above = sizes.iter().zip(limits).filter(|(&size, limit)| size > *limit).count();
        self.number == 3 && above == 1 && self.m > 0 && self.n > 0
    }

    /// Refused with this number, where 3 was due before.
    fn otherwise(&self, number: usize) -> bool {
        self.number == number && former::are_above(self.m, self.n, self.d)
    }
}

/// A name, and whether a call is so.
type SizeSort = (&'static str, fn(&Answered) -> bool);

const SIZES: [SizeSort; 16] = [
    ("M above 4,096", |met| met.accepted() && met.m > FORMER_MEMORY),
    ("M 8,192", |met| met.accepted() && met.m == MOST_MEMORY),
    ("N above 512", |met| met.accepted() && met.n > FORMER_ROWS),
    ("N 2,048", |met| met.accepted() && met.n == MOST_ROWS),
    ("D above 4,096", |met| met.accepted() && met.d > FORMER_DATA),
    ("D 8,192", |met| met.accepted() && met.d == MOST_DATA),
    ("the largest image", |met| met.accepted() && met.length == MOST_BYTES),
    ("M 8,193 refused with 3", |met| met.one_above() && met.m == MOST_MEMORY + 1),
    ("N 2,049 refused with 3", |met| met.one_above() && met.n == MOST_ROWS + 1),
    ("D 8,193 refused with 3", |met| met.one_above() && met.d == MOST_DATA + 1),
    ("5 at a row above 511", |met| met.number == 5 && met.index >= FORMER_ROWS),
    ("5 at row 2,047", |met| met.number == 5 && met.index == MOST_ROWS - 1),
    ("4 where 3 was due", |met| met.otherwise(4)),
    ("5 where 3 was due", |met| met.otherwise(5)),
    ("6 where 3 was due", |met| met.otherwise(6)),
    ("7 where 3 was due", |met| met.otherwise(7)),
];

/// An accepted run: the state before it, its reason, what it left, and its step, if it took one alone.
pub struct Run<'a> {
    pub before: &'a State,
    pub reason: u32,
    pub after: &'a Desk,
    pub step: Option<&'a Step<'a>>,
}

impl Run<'_> {
    /// Did it end so, at a row that no image had before?
    fn ends_far(&self, reason: u32) -> bool {
        self.reason == reason && self.after.state.index >= FORMER_ROWS
    }

    /// Did it take a step alone, of one of these ops?
    fn steps_by(&self, ops: &[u8]) -> Option<&Step<'_>> {
        self.step.filter(|step| ops.contains(&step.row[0]))
    }

    fn steps_far(&self) -> bool {
        self.step.is_some() && self.before.index >= FORMER_ROWS
    }

    /// The row that a step jumped to.
    fn target(&self) -> Option<u32> {
        let step = self.steps_by(&[op::JNZ])?;
        let jumps = step.before.regs[usize::from(step.row[2])] != 0;
        jumps.then_some(self.after.state.index)
    }

    /// The addressable bytes that a step accessed by one of these ops.
    fn bytes(&self, ops: &[u8]) -> Vec<u32> {
        let Some(step) = self.steps_by(ops) else {
            return Vec::new();
        };
        let access = Access::of(step);
        let ks = (0..op::width(step.row[0])).filter(|&k| access.is_addressable(k));
        ks.map(|k| access.address + k).collect()
    }

    fn accesses(&self, ops: &[u8], byte: u32) -> bool {
        self.bytes(ops).contains(&byte)
    }

    fn accesses_far(&self, ops: &[u8]) -> bool {
        self.bytes(ops).iter().any(|&byte| byte >= FORMER_MEMORY)
    }

    fn accesses_across(&self, ops: &[u8]) -> bool {
        self.accesses(ops, FORMER_MEMORY - 1) && self.accesses(ops, FORMER_MEMORY)
    }

    /// Did it begin in the most memory and go on behind that?
    fn accesses_over_the_end(&self, ops: &[u8]) -> bool {
        let begins = |step: &Step| Access::of(step).address < MOST_MEMORY;
        let ends = |step: &Step| Access::of(step).address + op::width(step.row[0]) > MOST_MEMORY;
        let is_most = self.after.mem.len() == MOST_MEMORY as usize;
        is_most && self.steps_by(ops).is_some_and(|step| begins(step) && ends(step))
    }

    /// The end of the range that a step opened or closed.
    fn range_end(&self, op: u8) -> Option<u32> {
        let step = self.steps_by(&[op])?;
        let imm = word_at(step.row, 4);
        Some((imm & 0xFFFF) + (imm >> 16))
    }
}

/// A name, and whether a run is so.
type RunSort = (&'static str, fn(&Run) -> bool);

const RUNS: [RunSort; 24] = [
    ("step at a row above 511", |run| run.steps_far()),
    ("step at row 2,047", |run| run.steps_far() && run.before.index == MOST_ROWS - 1),
    ("report at a row above 511", |run| {
        run.steps_far() && run.after.state.reports > run.before.reports
    }),
    ("output at a row above 511", |run| {
        run.steps_far() && run.after.state.outputs > run.before.outputs
    }),
    ("jump to a row above 511", |run| run.target().is_some_and(|to| to >= FORMER_ROWS)),
    ("jump to row 2,047", |run| run.target() == Some(MOST_ROWS - 1)),
    ("jump back from a row above 511", |run| {
        run.steps_far() && run.target().is_some_and(|to| to < FORMER_ROWS)
    }),
    ("STOP at a row above 511", |run| run.ends_far(1)),
    ("past the end at 2,048", |run| run.ends_far(2) && run.after.state.index == MOST_ROWS),
    ("no budget at a row above 511", |run| run.ends_far(3)),
    ("no place at a row above 511", |run| run.ends_far(4)),
    ("load from 4,096 on", |run| run.accesses_far(LOADS)),
    ("load across 4,096", |run| run.accesses_across(LOADS)),
    ("load of byte 8,191", |run| run.accesses(LOADS, MOST_MEMORY - 1)),
    ("load over the end of 8,192", |run| run.accesses_over_the_end(LOADS)),
    ("store from 4,096 on", |run| run.accesses_far(STORES)),
    ("store across 4,096", |run| run.accesses_across(STORES)),
    ("store to byte 8,191", |run| run.accesses(STORES, MOST_MEMORY - 1)),
    ("store over the end of 8,192", |run| run.accesses_over_the_end(STORES)),
    ("OPEN to above 4,096", |run| run.range_end(op::OPEN).is_some_and(|end| end > FORMER_MEMORY)),
    ("OPEN to 8,192", |run| run.range_end(op::OPEN) == Some(MOST_MEMORY)),
    ("CLOSE to above 4,096", |run| run.range_end(op::CLOSE).is_some_and(|end| end > FORMER_MEMORY)),
    ("CLOSE to 8,192", |run| run.range_end(op::CLOSE) == Some(MOST_MEMORY)),
    ("many steps to an end above 512", |run| {
        let is_far = run.ends_far(2) && run.after.state.index > FORMER_ROWS;
        is_far && run.step.is_none() && run.after.state.steps > run.before.steps
    }),
];

#[derive(Clone, Default)]
struct Met {
    sizes: [[u64; SIZES.len()]; CALLS.len()],
    runs: [u64; RUNS.len()],
}

/// Counted and drawn.
#[derive(Default)]
pub struct Sizes([Met; MET_IN.len()]);

impl Sizes {
    pub fn add(&mut self, other: &Sizes) {
        for (to, from) in self.0.iter_mut().zip(&other.0) {
            for (to, from) in to.sizes.iter_mut().zip(&from.sizes) {
                add(to, from);
            }
            add(&mut to.runs, &from.runs);
        }
    }

    /// A call, by its place among all, that answers this number and index.
    pub fn call(&mut self, drawn: bool, call: usize, image: &[u8], (number, index): (usize, u32)) {
        if let Some(answered) = Answered::of(image, number, index) {
            let met = &mut self.0[usize::from(drawn)].sizes[call];
            add(met, &SIZES.map(|(_, is)| u64::from(is(&answered))));
        }
    }

    pub fn run(&mut self, drawn: bool, run: &Run) {
        let met = &mut self.0[usize::from(drawn)].runs;
        add(met, &RUNS.map(|(_, is)| u64::from(is(run))));
    }

    pub fn each(&self) -> impl Iterator<Item = Counts> + '_ {
        MET_IN.iter().zip(&self.0).flat_map(|(met_in, met)| {
            let sizes = CALLS.iter().zip(&met.sizes).map(move |((call, _), counts)| {
                let counts = SIZES.iter().zip(counts).map(|((name, _), &count)| (*name, count));
                (format!("sizes, {call}, {met_in}"), counts.collect())
            });
            let runs = RUNS.map(|(name, _)| name).into_iter().zip(met.runs).collect();
            sizes.chain([(format!("large images, {met_in}"), runs)])
        })
    }
}
