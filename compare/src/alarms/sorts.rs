//! The sorts of cases that have to be met, op by op, among the counted and among the drawn.

use super::case::is_shift;
use super::{Case, Operands, Seen, OPS};
use crate::coverage::{add, is_settled, MET_IN};
use crate::images::op;
use crate::layout::{cell, name_of, Layout};

/// What a sort looks at.
struct Met<'a> {
    case: &'a Case,
    operands: Operands,
    undefined: u32,
    /// Bits called undefined or varying.
    touched: u32,
    called_and_varies: u32,
}

impl Met<'_> {
    fn is_settled(&self) -> bool {
        let Operands { x, v, y, w } = self.operands;
        is_settled(x, v, y, w)
    }

    fn vacates(&self) -> bool {
        self.operands.y % 32 != 0 && self.undefined > 0
    }

    fn has_undefined_top(&self) -> bool {
        self.operands.v >> 31 == 1
    }

    fn is_unsettled(&self) -> bool {
        self.undefined > 0 && !self.is_settled()
    }
}

/// A name, the ops of which a case can be so, and whether one is.
type Sort = (&'static str, fn(u8) -> bool, fn(&Met) -> bool);

fn any(_: u8) -> bool {
    true
}

fn has_a(op: u8) -> bool {
    op != op::MOV
}

/// B can have undefined bits.
fn has_v_of_b(op: u8) -> bool {
    !is_shift(op)
}

fn has_both(op: u8) -> bool {
    has_a(op) && has_v_of_b(op)
}

/// Undefined bits can be without a trace in the result.
fn can_hide_all(op: u8) -> bool {
    is_shift(op) || [op::AND, op::OR, op::EQ].contains(&op)
}

fn is_sar(op: u8) -> bool {
    op == op::SAR
}

fn is_eq(op: u8) -> bool {
    op == op::EQ
}

const SORTS: [Sort; 24] = [
    ("no bit undefined", any, |met| met.undefined == 0),
    ("all fillings", any, |met| met.undefined > 0 && met.operands.all_are_made()),
    ("more undefined bits", any, |met| !met.operands.all_are_made()),
    ("B a literal", any, |met| met.case.b().is_none()),
    ("d is a", has_a, |met| met.case.a() == Some(met.case.d())),
    ("d is B", any, |met| met.case.b() == Some(met.case.d())),
    ("d is another", any, |met| ![met.case.a(), met.case.b()].contains(&Some(met.case.d()))),
    ("bits of a undefined", has_a, |met| met.operands.v != 0 && met.operands.w == 0),
    ("bits of B undefined", has_v_of_b, |met| met.operands.v == 0 && met.operands.w != 0),
    ("bits of both undefined", has_both, |met| met.operands.v != 0 && met.operands.w != 0),
    ("the same bit of both undefined", has_both, |met| met.operands.v & met.operands.w != 0),
    ("a bit called that varies", any, |met| met.called_and_varies != 0),
    ("a bit defined all the same", any, |met| met.undefined > 0 && met.touched != u32::MAX),
    ("a word defined all the same", can_hide_all, |met| met.undefined > 0 && met.touched == 0),
    ("amount 0", is_shift, |met| met.operands.y == 0),
    ("amount 1", is_shift, |met| met.operands.y == 1),
    ("amount 31", is_shift, |met| met.operands.y == 31),
    ("amount above 31", is_shift, |met| met.operands.y > 31),
    ("places vacated", is_shift, |met| met.vacates()),
    ("an undefined top bit copied", is_sar, |met| met.vacates() && met.has_undefined_top()),
    ("a defined top bit copied", is_sar, |met| met.vacates() && !met.has_undefined_top()),
    ("settled", is_eq, |met| met.undefined > 0 && met.is_settled()),
    ("unsettled, equal data", is_eq, |met| met.is_unsettled() && met.operands.x == met.operands.y),
    ("unsettled, other data", is_eq, |met| met.is_unsettled() && met.operands.x != met.operands.y),
];

type Counts = [u64; SORTS.len()];

/// How often each sort was met, counted and drawn.
#[derive(Default)]
pub struct Sorts([[Counts; OPS.len()]; MET_IN.len()]);

impl Sorts {
    /// A case of the op at this place.
    pub fn meet(&mut self, counted: bool, place: usize, case: &Case, seen: &Seen) {
        let met = Met {
            case,
            operands: case.operands,
            undefined: case.operands.undefined(),
            touched: seen.called | seen.varies,
            called_and_varies: seen.called & seen.varies,
        };
        let counts = SORTS.map(|(_, _, is)| u64::from(is(&met)));
        add(&mut self.0[usize::from(!counted)][place], &counts);
    }

    pub fn add(&mut self, other: &Sorts) {
        for (to, from) in self.0.iter_mut().flatten().zip(other.0.iter().flatten()) {
            add(to, from);
        }
    }

    pub fn missing(&self) -> Vec<String> {
        let mut missing = Vec::new();
        for (met_in, ops) in MET_IN.iter().zip(&self.0) {
            for (&op, counts) in OPS.iter().zip(ops) {
                let lacking = SORTS.iter().zip(counts).filter(|(_, &count)| count == 0);
                let lacking = lacking.filter(|((_, can_be, _), _)| can_be(op));
                let name = name_of(op);
                missing.extend(lacking.map(|((sort, ..), _)| format!("{name}, {met_in}: {sort}")));
            }
        }
        missing
    }

    /// A row for each sort, a column for each op.
    pub fn table(&self) -> String {
        let layout = Layout(32, 8);
        let [counted, drawn] = &self.0;
        let row = |(sort, (name, can_be, _)): (usize, &Sort)| {
            let sum = |place: usize| counted[place][sort] + drawn[place][sort];
            let cells = OPS.iter().enumerate();
            layout.line(name, cells.map(|(place, &op)| cell(can_be(op), sum(place))))
        };
        let rows: String = SORTS.iter().enumerate().map(row).collect();
        layout.line("", OPS.map(name_of)) + &rows
    }
}
