//! The bits that a load or store moves, and the ways in which its cases must have met them.

use compare::images::op;
use compare::programs::ACCESSES;

use crate::cases::{Case, Form};
use crate::machine::M;

/// A way in which a case meets the bits that it moves: by data and V of the top one at an offset, or
/// by the one bit that is undefined, with the top one's data.
#[derive(PartialEq, Eq, PartialOrd, Ord)]
pub enum Way {
    Top { offset: u32, data: bool, v: bool },
    Alone { bit: u32, top: bool },
}

/// The bytes that the operation moves between a register and memory.
fn width(op: u8) -> usize {
    if ACCESSES.contains(&op) {
        op::width(op) as usize
    } else {
        0
    }
}

/// How many ways there are: four at each offset, two for each bit.
pub fn ways_of(op: u8) -> usize {
    match width(op) {
        0 => 0,
        bytes => 4 * (M + 1 - bytes) + 2 * 8 * bytes,
    }
}

impl Case {
    /// The ways that this case meets.
    pub fn ways(&self) -> Vec<Way> {
        let (Form::At(offset), bytes @ 1..) = (self.form, width(self.op)) else {
            return Vec::new();
        };
        let bits = 8 * bytes;
        let from = if self.is_store() { 0 } else { 8 * offset };
        let moved = |low: u32, high: u32| {
            (u64::from(low) | u64::from(high) << 32) >> from & ((1 << bits) - 1)
        };
        let (data, v) = (moved(self.x, self.y), moved(self.v, self.w));
        let top = |word: u64| word >> (bits - 1) == 1;
        let mut ways = vec![Way::Top { offset, data: top(data), v: top(v) }];
        if v.is_power_of_two() {
            ways.push(Way::Alone { bit: v.trailing_zeros(), top: top(data) });
        }
        ways
    }
}
