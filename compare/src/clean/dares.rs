//! What must be reported: an undefined condition, output or address, or an unaddressable byte.

use super::{Draft, POINTER, SCRATCH, ZONE};
use crate::edges;
use crate::images::{op, Operand, Row};
use crate::programs::ACCESSES;

use Operand::Literal;

/// Accesses of several bytes.
const WIDE: [u8; 5] = [op::LD16, op::LDS16, op::LD32, op::ST16, op::ST32];

impl Draft<'_> {
    pub fn dare(&mut self) {
        let (loose, firm) = (self.loose(), self.firm());
        match self.prng.below(12) {
            0 => self.rows.push(Row::jump(loose, 0)),
            1 => self.rows.push(Row::emit(loose, 0)),
            2 | 3 => {
                let op = self.load_op();
                self.access_by(loose, op, loose, self.zones.firm);
            }
            4 | 5 => {
                let op = self.store_op();
                self.access_by(loose, op, firm, self.zones.loose);
            }
            6 => {
                let op = self.prng.pick(&ACCESSES);
                self.rows.push(Row::range(op::CLOSE, self.zones.shut, ZONE));
                self.access(op, loose, self.zones.shut);
            }
            7..=10 => self.access_over_closed(loose),
            _ => {
                let kept = edges::shadow(self.prng);
                self.add(op::AND, SCRATCH[0], loose, Literal(kept));
                self.rows.push(Row::jump(SCRATCH[0], 0));
            }
        }
    }

    /// An access in a zone, its address made from a register that may hold anything.
    fn access_by(&mut self, loose: u8, op: u8, d: u8, zone: u32) {
        self.add(op::AND, SCRATCH[0], loose, Literal(ZONE - op::width(op)));
        self.rows.push(Row::access(op, d, SCRATCH[0], zone));
    }

    /// An access of which one byte is unaddressable and no other.
    fn access_over_closed(&mut self, d: u8) {
        let (op, zone) = (self.prng.pick(&WIDE), self.zones.shut);
        let at = zone + self.prng.between(0, ZONE - op::width(op));
        let closed = at + self.prng.below(op::width(op));
        self.rows.push(Row::range(op::OPEN, zone, ZONE));
        self.rows.push(Row::range(op::CLOSE, closed, 1));
        self.rows.push(Row::copy(POINTER, Literal(at)));
        self.rows.push(Row::access(op, d, POINTER, 0));
    }
}
