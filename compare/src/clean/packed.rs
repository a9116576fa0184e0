//! Words of which a field is set and the rest is what was there before.

use super::{Draft, POINTER, SCRATCH, ZONE};
use crate::images::{op, Operand, Row};

use Operand::{Literal, Register};

/// The set part of a word: where it begins, and its bits before they are moved there.
pub struct Field {
    pub shift: u32,
    pub bits: u32,
}

impl Field {
    pub fn mask(&self) -> u32 {
        self.bits << self.shift
    }
}

impl Draft<'_> {
    /// A loose register's bits where `kept` has them, 1 where `set` has them, 0 elsewhere.
    pub fn partly_set(&mut self, d: u8, kept: u32, set: u32) {
        let a = self.loose();
        self.add(op::AND, d, a, Literal(kept));
        self.add(op::OR, d, d, Literal(set));
    }

    /// Bits of a register put into d, where these are 0, by way of the second scratch register.
    pub fn put(&mut self, d: u8, from: u8, bits: u32) {
        self.add(op::AND, SCRATCH[1], from, Literal(bits));
        self.add(op::OR, d, d, Register(SCRATCH[1]));
    }

    /// A byte stored among undefined ones and loaded with them into the first scratch register.
    pub fn byte_among_undefined(&mut self, byte: u8) -> Field {
        let a = self.loose();
        let to = self.zones.loose + self.prng.below(ZONE - 3);
        let k = self.prng.below(4);
        self.rows.push(Row::copy(POINTER, Literal(0)));
        self.rows.push(Row::access(op::ST32, a, POINTER, to));
        self.rows.push(Row::access(op::ST8, byte, POINTER, to + k));
        self.rows.push(Row::access(op::LD32, SCRATCH[0], POINTER, to));
        Field { shift: 8 * k, bits: 0xFF }
    }

    /// What was read out as an output, as a condition, or as a part of an address.
    pub fn spent(&mut self, answer: u8) {
        if !self.prng.one_in(3) {
            return self.told(answer);
        }
        let (op, d) = (self.prng.pick(&[op::LD8, op::ST8]), self.loose());
        self.add(op::AND, POINTER, answer, Literal(ZONE - 1));
        self.rows.push(Row::access(op, d, POINTER, self.zones.loose));
    }

    /// What was read out as an output or as a condition.
    pub fn told(&mut self, answer: u8) {
        if self.prng.one_in(2) {
            self.rows.push(Row::emit(answer, self.prng.below(8)));
        } else {
            self.rows.push(Row::jump(answer, self.rows.len() as u32 + 2));
            self.loose_sum();
        }
    }
}
