//! Loops that add to a packed word and subtract from it. Beside its set field lies what was there before,
//! and the bit below the field stops carries and borrows, so that the field can be used (document 02, L13).

use super::packed::Field;
use super::{Draft, SCRATCH};
use crate::edges;
use crate::images::{op, Operand, Row};

use Operand::{Literal, Register};

/// The bit below the field.
fn stop(field: &Field) -> u32 {
    1 << (field.shift - 1)
}

/// All bits but those of the field and the one below it.
fn rest(field: &Field) -> u32 {
    !(field.mask() | stop(field))
}

impl Draft<'_> {
    pub fn packed_sums(&mut self, counters: &[u8]) {
        if let Some((&counter, _)) = counters.split_first() {
            let field = self.packed_word();
            self.looped(counter, |draft| {
                for _ in 0..draft.prng.between(1, 3) {
                    draft.moved(&field);
                    let answer = draft.read_out(&field);
                    draft.spent(answer);
                }
            });
        }
    }

    /// The packed word: bits set in a word, or a byte stored among others.
    fn packed_word(&mut self) -> Field {
        let packed = SCRATCH[0];
        let firm = self.firm();
        if self.prng.one_in(3) {
            let byte = self.byte_among_undefined(firm);
            return Field { shift: byte.shift + 1, bits: byte.bits >> 1 };
        }
        let field = Field { shift: self.prng.between(2, 28), bits: 0xF };
        let set = edges::shadow(self.prng) & rest(&field);
        self.partly_set(packed, rest(&field), set);
        self.put(packed, firm, field.mask());
        field
    }

    /// The packed word and another added, or one taken from the other. The bit below the field takes up a
    /// carry if it is 0 in both, and gives a borrow if it is 1 in the first and 0 in the second.
    fn moved(&mut self, field: &Field) {
        let [packed, other] = SCRATCH;
        let op = self.prng.pick(&[op::ADD, op::SUB]);
        let number = edges::word(self.prng) & field.mask();
        let word = edges::word(self.prng) & rest(field) | number;
        let turned = self.prng.one_in(3);
        if op == op::SUB && !turned {
            self.add(op::OR, packed, packed, Literal(stop(field)));
        } else {
            self.add(op::AND, packed, packed, Literal(!stop(field)));
        }
        let lent = if op == op::SUB && turned { stop(field) } else { 0 };
        match self.prng.below(3) {
            0 if !turned => return self.add(op, packed, packed, Literal(word)),
            1 => self.rows.push(Row::copy(other, Literal(word | lent))),
            _ => self.partly_set(other, rest(field), number | lent),
        }
        let (first, second) = if turned { (other, packed) } else { (packed, other) };
        self.add(op, packed, first, Register(second));
    }

    /// A firm register with the field, in its place or moved down.
    fn read_out(&mut self, field: &Field) -> u8 {
        let answer = self.firm_target();
        if self.prng.one_in(2) {
            self.add(op::AND, answer, SCRATCH[0], Literal(field.mask()));
        } else {
            self.add(op::SHR, answer, SCRATCH[0], Literal(field.shift));
            self.add(op::AND, answer, answer, Literal(field.bits));
        }
        answer
    }
}
