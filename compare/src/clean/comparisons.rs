//! Comparisons of words with bits that nobody set: such as these bits decide, and loops over a status
//! word, whose set bits settle the answer (document 02, L4).

use super::packed::Field;
use super::{Draft, POINTER, SCRATCH, ZONE};
use crate::edges;
use crate::images::{op, Operand, Row};

use Operand::{Literal, Register};

/// Status words have the number of the round in a field; codes have one that no round has there.
const OTHER_NUMBERS: [u32; 4] = [0, 10, 12, 15];

impl Draft<'_> {
    /// A comparison of words with one undefined bit, which decides it unless the bit below does.
    pub fn compared(&mut self) {
        let [first, second] = SCRATCH;
        let d = self.loose();
        let bit = 1 << self.prng.below(32);
        let set = edges::word(self.prng) & !bit;
        let other = if self.prng.one_in(3) { set ^ (bit >> 1) } else { set };
        let op = self.prng.pick(&[op::EQ, op::EQ, op::LTU, op::XOR, op::SUB]);
        self.partly_set(first, bit, set);
        match self.prng.below(3) {
            0 => {
                let literal = other | self.prng.pick(&[0, bit]);
                self.add(op, d, first, Literal(literal));
            }
            1 => {
                self.rows.push(Row::copy(second, Literal(other | bit)));
                self.add(op, d, second, Register(first));
            }
            _ => {
                self.partly_set(second, bit, other);
                self.add(op, d, first, Register(second));
            }
        }
    }

    /// A loop that sets the round's number in a status word and compares the word with other codes.
    pub fn polled(&mut self, counters: &[u8]) {
        if let Some((&counter, _)) = counters.split_first() {
            self.looped(counter, |draft| {
                let field = draft.status(counter);
                for _ in 0..draft.prng.between(1, 3) {
                    let answer = draft.settled(&field);
                    draft.used(answer);
                }
            });
        }
    }

    /// The status word: a byte stored among others, bits set in a word, or such a byte of its own.
    fn status(&mut self, number: u8) -> Field {
        let [status, moved] = SCRATCH;
        let way = self.prng.below(3);
        if way == 0 {
            return self.byte_among_undefined(number);
        }
        let field = Field { shift: self.prng.below(if way == 1 { 29 } else { 5 }), bits: 0xF };
        let set = edges::shadow(self.prng) & !field.mask();
        self.partly_set(status, !field.mask(), set);
        self.add(op::SHL, moved, number, Literal(field.shift));
        self.add(op::OR, status, status, Register(moved));
        if way == 2 {
            let at = self.zones.loose + self.prng.below(ZONE);
            self.rows.push(Row::copy(POINTER, Literal(at)));
            self.rows.push(Row::access(op::ST8, status, POINTER, 0));
            self.rows.push(Row::access(op::LD8, status, POINTER, 0));
        }
        field
    }

    /// The register that says whether the status word is some code. It isn't, by its field.
    fn settled(&mut self, field: &Field) -> u8 {
        let [status, code] = SCRATCH;
        let answer = self.firm_target();
        let number = self.prng.pick(&OTHER_NUMBERS) << field.shift;
        let word = edges::word(self.prng) & !field.mask() | number;
        match self.prng.below(4) {
            0 => {
                self.rows.push(Row::copy(code, Literal(word)));
                self.add(op::EQ, answer, code, Register(status));
            }
            1 => {
                self.partly_set(code, !field.mask(), number);
                self.add(op::EQ, answer, status, Register(code));
            }
            _ => self.add(op::EQ, answer, status, Literal(word)),
        }
        answer
    }

    /// The answer, 0, as an output, as a condition, or turned round as one that jumps past a report.
    fn used(&mut self, answer: u8) {
        match self.prng.below(3) {
            0 => self.rows.push(Row::emit(answer, self.prng.below(8))),
            1 => self.rows.push(Row::jump(answer, 0)),
            _ => {
                let loose = self.loose();
                self.add(op::XOR, answer, answer, Literal(1));
                self.rows.push(Row::jump(answer, self.rows.len() as u32 + 2));
                self.rows.push(Row::emit(loose, 0));
            }
        }
    }
}
