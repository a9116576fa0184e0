//! What has to be met of register 15 (document 02, L9), in counted and in drawn cases: refused as d of each
//! op that has a result, where register 14 is taken, and used in each way that is left.

use super::sorts::{Step, MET_IN};
use super::{add, Counts, CALLS};
use crate::images::{op, FRAME, HEADER_BYTES, ROW_BYTES};
use crate::interpreter;
use crate::programs::{LOADS, STORES};

/// A step that a run took alone: its op, the fields that are register 15, and whether bits of that are
/// undefined.
struct Use {
    op: u8,
    d: bool,
    a: bool,
    b: bool,
    undefined: bool,
}

impl Use {
    fn of(step: &Step) -> Use {
        let [d, a, b] = [1, 2, 3].map(|at| step.row[at] == FRAME);
        let undefined = step.before.vregs[usize::from(FRAME)] != 0;
        Use { op: step.row[0], d, a, b, undefined }
    }

    fn loads(&self) -> bool {
        LOADS.contains(&self.op)
    }

    fn stores(&self) -> bool {
        STORES.contains(&self.op)
    }

    fn sums(&self) -> bool {
        op::has_result(self.op) && !self.loads()
    }

    fn jumps(&self) -> bool {
        self.op == op::JNZ
    }

    fn emits(&self) -> bool {
        self.op == op::EMIT
    }
}

/// A name, and whether a step is so.
type Sort = (&'static str, fn(&Use) -> bool);

const USES: [Sort; 16] = [
    ("a of a sum", |used| used.sums() && used.a),
    ("B of a sum", |used| used.sums() && used.b),
    ("a and B of a sum", |used| used.sums() && used.a && used.b),
    ("undefined in a sum", |used| used.sums() && (used.a || used.b) && used.undefined),
    ("address of a load", |used| used.loads() && used.a),
    ("address of a store", |used| used.stores() && used.a),
    ("stored by ST8", |used| used.op == op::ST8 && used.d),
    ("stored by ST16", |used| used.op == op::ST16 && used.d),
    ("stored by ST32", |used| used.op == op::ST32 && used.d),
    ("stored undefined", |used| used.stores() && used.d && !used.a && used.undefined),
    ("stored at itself", |used| used.stores() && used.d && used.a),
    ("condition", |used| used.jumps() && used.a),
    ("output", |used| used.emits() && used.a),
    ("reported address", |used| (used.loads() || used.stores()) && used.a && used.undefined),
    ("reported condition", |used| used.jumps() && used.a && used.undefined),
    ("reported output", |used| used.emits() && used.a && used.undefined),
];

/// Counts by op; those of ops without a result stay at 0.
type Ops = [u64; op::COUNT];

#[derive(Clone, Default)]
struct Met {
    /// Register 15 as d is all that is wrong with the instruction for which a call is refused.
    refused: [Ops; CALLS.len()],
    /// Single steps with register 14 as d.
    beside: Ops,
    uses: [u64; USES.len()],
}

/// Counted and drawn.
#[derive(Default)]
pub struct Frames([Met; MET_IN.len()]);

/// The op of the instruction at an index, if it is refused for register 15 and for nothing else.
fn refused_op(image: &[u8], index: u32) -> Option<u8> {
    let at = HEADER_BYTES + ROW_BYTES * index as usize;
    let &[op, d] = image.get(at..at + 2)? else {
        return None;
    };
    if !op::has_result(op) || d != FRAME {
        return None;
    }
    let mut other = image.to_vec();
    other[at + 1] = FRAME - 1;
    let (header, _) = interpreter::read(&other);
    (header.number != 5 || header.index != index).then_some(op)
}

/// The names and counts of the ops that have a result.
fn by_op(counts: &Ops) -> Vec<(&'static str, u64)> {
    let with_result = (0..op::COUNT).filter(|&op| op::has_result(op as u8));
    with_result.map(|op| (op::NAMES[op], counts[op])).collect()
}

impl Frames {
    pub fn add(&mut self, other: &Frames) {
        for (to, from) in self.0.iter_mut().zip(&other.0) {
            for (to, from) in to.refused.iter_mut().zip(&from.refused) {
                add(to, from);
            }
            add(&mut to.beside, &from.beside);
            add(&mut to.uses, &from.uses);
        }
    }

    /// A call, by its place among all, that is refused with 5 at the index.
    pub fn refuse(&mut self, drawn: bool, call: usize, image: &[u8], index: u32) {
        if let Some(op) = refused_op(image, index) {
            self.0[usize::from(drawn)].refused[call][usize::from(op)] += 1;
        }
    }

    pub fn meet(&mut self, drawn: bool, step: &Step) {
        let met = &mut self.0[usize::from(drawn)];
        let used = Use::of(step);
        if op::has_result(used.op) && step.row[1] == FRAME - 1 {
            met.beside[usize::from(used.op)] += 1;
        }
        add(&mut met.uses, &USES.map(|(_, is)| u64::from(is(&used))));
    }

    pub fn each(&self) -> impl Iterator<Item = Counts> + '_ {
        MET_IN.iter().zip(&self.0).flat_map(|(met_in, met)| {
            let refused = CALLS.iter().zip(&met.refused).map(move |((call, _), counts)| {
                (format!("register 15 as d, refused by {call}, {met_in}"), by_op(counts))
            });
            let uses = USES.map(|(name, _)| name).into_iter().zip(met.uses).collect();
            let taken = [
                (format!("register 14 as d, {met_in}"), by_op(&met.beside)),
                (format!("register 15, {met_in}"), uses),
            ];
            refused.chain(taken)
        })
    }
}
