//! The sorts of ADD, SUB and EQ.

use super::Step;
use crate::images::word_at;

/// ADD and SUB (L13): how far carries or borrows make bits undefined, and whose bits were.
pub const CARRIES: [&str; 12] = [
    "without undefined bits",
    "of one register",
    "stopped at once with bits of a undefined",
    "stopped at once with bits of B undefined",
    "stopped at once with other bits of both undefined",
    "stopped later with bits of a undefined",
    "stopped later with bits of B undefined",
    "stopped later with other bits of both undefined",
    "stopped later with the same bit of both undefined",
    "as far as Left with bits of a undefined",
    "as far as Left with bits of B undefined",
    "as far as Left with bits of both undefined",
];

/// EQ (L4): what settles it.
pub const EQUALITIES: [&str; 7] = [
    "without undefined bits",
    "of one register",
    "unsettled with equal data",
    "unsettled with other data",
    "settled with bits of a undefined",
    "settled with bits of B undefined",
    "settled with bits of both undefined",
];

/// The operands of a step, data and V, whether they are one register, and the V that it made.
struct Operands {
    x: u32,
    v: u32,
    y: u32,
    w: u32,
    one_register: bool,
    made: u32,
}

impl Operands {
    fn of(step: &Step) -> Operands {
        let Step { row, before, after } = step;
        let [d, a, b] = [1, 2, 3].map(|at| usize::from(row[at]));
        let (x, v) = (before.regs[a], before.vregs[a]);
        let register = before.regs.get(b).map(|&y| (y, before.vregs[b]));
        let (y, w) = register.unwrap_or((word_at(row, 4), 0));
        Operands { x, v, y, w, one_register: a == b, made: after.state.vregs[d] }
    }

    /// 0 if bits of a alone are undefined, 1 if bits of B alone, 2 if bits of both.
    fn whose(&self) -> usize {
        match (self.v != 0, self.w != 0) {
            (_, false) => 0,
            (false, _) => 1,
            _ => 2,
        }
    }
}

pub fn carry(step: &Step) -> usize {
    let operands = Operands::of(step);
    let undefined = operands.v | operands.w;
    let lowest_and_above = undefined | undefined.wrapping_neg();
    match operands.made {
        _ if undefined == 0 => 0,
        _ if operands.one_register => 1,
        made if made == lowest_and_above => 9 + operands.whose(),
        made if made == undefined => 2 + operands.whose(),
        _ => 5 + operands.whose() + usize::from(operands.v & operands.w != 0),
    }
}

/// Do two words differ in a bit that is defined in both?
pub fn is_settled(x: u32, v: u32, y: u32, w: u32) -> bool {
    (x ^ y) & !(v | w) != 0
}

pub fn equality(step: &Step) -> usize {
    let operands = Operands::of(step);
    let Operands { x, v, y, w, .. } = operands;
    match v | w {
        0 => 0,
        _ if operands.one_register => 1,
        _ if !is_settled(x, v, y, w) => 2 + usize::from(x != y),
        _ => 4 + operands.whose(),
    }
}
