//! Loops over signed readings of which some bits are set and the others are what was there before: what is
//! defined of the widened reading, its sign above all, is used (document 02, L1).

use super::{Draft, POINTER, SCRATCH, ZONE};
use crate::edges;
use crate::images::{op, Operand, Row};

use Operand::Literal;

/// How a reading is loaded, and those of its bits that nobody set.
struct Reading {
    load: u8,
    unset: u32,
}

impl Reading {
    /// The place of the top bit.
    fn top(&self) -> u32 {
        8 * op::width(self.load) - 1
    }

    fn has_sign(&self) -> bool {
        self.unset >> self.top() == 0
    }

    /// The defined bits of the loaded word: the sign's copies are as defined as the sign.
    fn defined(&self) -> u32 {
        let below_sign = (1 << self.top()) - 1;
        let widened = if self.has_sign() { u32::MAX } else { below_sign };
        widened & !self.unset
    }
}

impl Draft<'_> {
    pub fn readings(&mut self, counters: &[u8]) {
        if let Some((&counter, _)) = counters.split_first() {
            self.looped(counter, |draft| {
                for load in [op::LDS8, op::LDS16] {
                    let factor = draft.prng.word() | 1;
                    draft.add(op::MUL, SCRATCH[1], counter, Literal(factor));
                    let reading = draft.reading(load);
                    draft.evaluated(&reading);
                }
            });
        }
    }

    /// A reading loaded into the first scratch register: set bits of the second among others, or a byte of
    /// it stored above another.
    fn reading(&mut self, load: u8) -> Reading {
        let [word, number] = SCRATCH;
        let mut reading = Reading { load, unset: 0xFF };
        let at = self.zones.loose + self.prng.below(ZONE - 1);
        self.rows.push(Row::copy(POINTER, Literal(0)));
        if load == op::LDS16 && self.prng.one_in(3) {
            let leftover = self.loose();
            self.rows.push(Row::access(op::ST16, leftover, POINTER, at));
            self.rows.push(Row::access(op::ST8, number, POINTER, at + 1));
        } else {
            let bit = 1 << self.prng.below(reading.top());
            let below_sign = (1 << reading.top()) - 1;
            let sign = if self.prng.one_in(4) { below_sign + 1 } else { 0 };
            reading.unset = edges::shadow(self.prng) & below_sign | bit | sign;
            self.partly_set(word, reading.unset, 0);
            self.put(word, number, !reading.unset);
            let store = if load == op::LDS8 { op::ST8 } else { op::ST16 };
            self.rows.push(Row::access(store, word, POINTER, at));
        }
        self.rows.push(Row::access(load, word, POINTER, at));
        reading
    }

    /// The sign alone is told, or all that is defined is spent.
    fn evaluated(&mut self, reading: &Reading) {
        let answer = self.firm_target();
        let (op, operand) = match self.prng.below(3) {
            0 if reading.has_sign() => (op::SHR, 31),
            1 if reading.has_sign() => (op::SAR, self.prng.between(reading.top(), 31)),
            _ => (op::AND, reading.defined()),
        };
        self.add(op, answer, SCRATCH[0], Literal(operand));
        if op == op::AND {
            self.spent(answer);
        } else {
            self.told(answer);
        }
    }
}
