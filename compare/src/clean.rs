//! Programs that run without a report although undefined data moves all through them.

mod carries;
mod comparisons;
mod dares;
mod large;
mod packed;
mod readings;

use crate::edges;
use crate::images::{op, Image, Operand, Region, Row, FILLED, FRAME, UNDEFINED};
use crate::prng::Prng;
use crate::programs::{legal_row, ARITHMETIC, LOADS, STORES};

use Operand::{Literal, Register};

pub use large::large;

/// Registers that may hold anything: never an address, a condition or an output.
const LOOSE: [u8; 6] = [0, 1, 2, 3, 4, 5];
/// Registers whose V is always 0. Register 15 is so from the start and is left alone.
const FIRM: [u8; 4] = [8, 9, 10, 11];
const SCRATCH: [u8; 2] = [6, 7];
const POINTER: u8 = 12;
const COUNTERS: [u8; 2] = [13, 14];

/// Rounds of a loop.
const MOST_ROUNDS: u32 = 9;

/// Rows of a program behind which no block begins.
const MOST_ROWS: u32 = 256;

/// Bytes of a zone; a power of two, so that a mask keeps an address inside.
const ZONE: u32 = 16;

/// Where the three parts of memory begin.
struct Zones {
    /// Always addressable, always defined.
    firm: u32,
    /// Always addressable.
    loose: u32,
    /// Opened before each use.
    shut: u32,
}

impl Zones {
    /// One behind another, with gaps, from about this byte on.
    fn from(start: u32, prng: &mut Prng) -> Zones {
        let firm = start + prng.below(4);
        let loose = firm + ZONE + prng.below(3);
        let shut = loose + ZONE + prng.below(3);
        Zones { firm, loose, shut }
    }

    fn end(&self) -> u32 {
        self.shut + ZONE
    }
}

struct Draft<'a> {
    prng: &'a mut Prng,
    rows: Vec<Row>,
    zones: Zones,
}

impl Draft<'_> {
    fn add(&mut self, op: u8, d: u8, a: u8, operand: Operand) {
        self.rows.push(Row::sum(op, d, a, operand));
    }

    fn loose(&mut self) -> u8 {
        self.prng.pick(&LOOSE)
    }

    fn firm(&mut self) -> u8 {
        self.prng.pick(&[FIRM[0], FIRM[1], FIRM[2], FIRM[3], FRAME])
    }

    /// One of the registers that must stay firm and may be written.
    fn firm_target(&mut self) -> u8 {
        self.prng.pick(&FIRM)
    }

    /// An access somewhere in a zone, its address made from a firm register or a literal.
    fn access(&mut self, op: u8, d: u8, zone: u32) {
        let last = ZONE - op::width(op);
        if self.prng.one_in(2) {
            let from = self.firm();
            self.add(op::AND, POINTER, from, Literal(last));
            self.rows.push(Row::access(op, d, POINTER, zone));
        } else {
            let to = zone + self.prng.between(0, last);
            let part = edges::word(self.prng);
            self.rows.push(Row::copy(POINTER, Literal(part)));
            self.rows.push(Row::access(op, d, POINTER, to.wrapping_sub(part)));
        }
    }

    fn load_op(&mut self) -> u8 {
        self.prng.pick(LOADS)
    }

    fn store_op(&mut self) -> u8 {
        self.prng.pick(STORES)
    }

    /// Arithmetic into a loose register from anything.
    fn loose_sum(&mut self) {
        let (d, a) = (self.loose(), self.prng.below(16) as u8);
        let operand = match self.prng.below(5) {
            0 => Literal(edges::word(self.prng)),
            1 => Register(a),
            2 => Register(d),
            _ => Register(self.prng.below(16) as u8),
        };
        let op = self.prng.pick(&ARITHMETIC);
        let a = if op == op::MOV { 0 } else { a };
        self.add(op, d, a, operand);
    }

    /// A loose register with some of its bits defined.
    fn partly_defined(&mut self) {
        let (d, a) = (self.loose(), self.prng.below(16) as u8);
        let kept = edges::shadow(self.prng);
        match self.prng.below(4) {
            0 => self.add(op::AND, d, a, Literal(kept)),
            1 => self.add(op::OR, d, a, Literal(!kept)),
            _ => {
                let op = self.prng.pick(&[op::SHL, op::SHR, op::SAR]);
                let amount = self.prng.between(1, 33);
                self.add(op, d, a, Literal(amount));
            }
        }
    }

    /// Arithmetic of firm registers only.
    fn firm_sum(&mut self) {
        let (d, a, b) = (self.firm_target(), self.firm(), self.firm());
        let operand =
            if self.prng.one_in(2) { Register(b) } else { Literal(edges::word(self.prng)) };
        let op = self.prng.pick(&ARITHMETIC);
        let a = if op == op::MOV { 0 } else { a };
        self.add(op, d, a, operand);
    }

    fn loose_memory(&mut self) {
        let zone = self.zones.loose;
        match self.prng.below(4) {
            0 | 1 => {
                let op = self.load_op();
                let d = if self.prng.one_in(4) { POINTER } else { self.loose() };
                self.access(op, d, zone);
            }
            2 => {
                let (op, d) = (self.store_op(), self.loose());
                self.access(op, d, zone);
            }
            _ => {
                let (op, d) = (self.store_op(), self.firm());
                self.access(op, d, zone);
            }
        }
    }

    fn firm_memory(&mut self) {
        let zone = self.zones.firm;
        if self.prng.one_in(2) {
            let (op, d) = (self.load_op(), self.firm_target());
            self.access(op, d, zone);
        } else {
            let (op, d) = (self.store_op(), self.firm());
            self.access(op, d, zone);
        }
    }

    /// A firm register out of a loose one, by an op whose result is defined whatever comes in.
    fn firm_at_once(&mut self) {
        let (d, a) = (self.firm_target(), self.loose());
        match self.prng.below(3) {
            0 => self.add(op::XOR, d, a, Register(a)),
            1 => self.add(op::AND, d, a, Literal(0)),
            _ => self.add(op::OR, d, a, Literal(u32::MAX)),
        }
    }

    /// A firm register out of a loose one, by shifting its undefined bits away.
    fn firm_by_shift(&mut self) {
        let (d, a, other) = (self.firm_target(), self.loose(), self.loose());
        let amount = self.prng.between(1, 31);
        let low = (1 << amount) - 1;
        match self.prng.below(3) {
            0 => {
                let op = self.prng.pick(&[op::EQ, op::LTU]);
                self.add(op, SCRATCH[0], a, Register(other));
                self.add(op::SHR, d, SCRATCH[0], Literal(1));
            }
            1 => {
                self.add(op::SHR, SCRATCH[0], a, Literal(amount));
                self.add(op::AND, d, SCRATCH[0], Literal(!(u32::MAX >> amount)));
            }
            _ => {
                let load = self.prng.pick(&[op::LD8, op::LD16]);
                self.access(load, SCRATCH[0], self.zones.loose);
                let op = self.prng.pick(&[op::SHR, op::SAR]);
                self.add(op, d, SCRATCH[0], Literal(8 * op::width(load)));
                self.add(op::AND, d, d, Literal(low));
            }
        }
    }

    /// A firm register out of the low bits of a sum whose high bits are undefined.
    fn firm_below_undefined(&mut self) {
        let (d, a) = (self.firm_target(), self.loose());
        let (first, second) = (self.firm(), self.firm());
        let amount = self.prng.between(1, 31);
        let low = (1 << amount) - 1;
        self.add(op::SHL, SCRATCH[0], a, Literal(amount));
        self.add(op::AND, SCRATCH[1], first, Literal(low));
        let join = self.prng.pick(&[op::OR, op::ADD, op::XOR]);
        self.add(join, SCRATCH[0], SCRATCH[0], Register(SCRATCH[1]));
        let sum = self.prng.pick(&[op::ADD, op::SUB, op::MUL, op::XOR, op::OR, op::AND]);
        self.add(sum, SCRATCH[0], SCRATCH[0], Register(second));
        self.add(op::AND, d, SCRATCH[0], Literal(low));
    }

    /// A firm byte masked out of undefined ones.
    fn firm_byte_among_undefined(&mut self) {
        let (d, byte) = (self.firm_target(), self.firm());
        let field = self.byte_among_undefined(byte);
        self.add(op::AND, d, SCRATCH[0], Literal(field.mask()));
    }

    /// The third zone opened, used and perhaps closed again.
    fn opened(&mut self) {
        let zone = self.zones.shut;
        self.rows.push(Row::range(op::OPEN, zone, ZONE));
        for _ in 0..self.prng.between(1, 3) {
            let (op, d) = if self.prng.one_in(2) {
                (self.store_op(), self.prng.below(16) as u8)
            } else {
                (self.load_op(), self.loose())
            };
            self.access(op, d, zone);
        }
        if self.prng.one_in(2) {
            let start = self.prng.below(ZONE);
            let length = self.prng.between(1, ZONE - start);
            self.rows.push(Row::range(op::CLOSE, zone + start, length));
        }
    }

    /// Bytes of the loose zone opened again: they lose what they held.
    fn opened_again(&mut self) {
        let start = self.prng.below(ZONE);
        let length = self.prng.between(1, ZONE - start);
        self.rows.push(Row::range(op::OPEN, self.zones.loose + start, length));
    }

    fn emit(&mut self) {
        let a = self.firm();
        let port = self.prng.below(8);
        self.rows.push(Row::emit(a, port));
    }

    fn block(&mut self, counters: &[u8]) {
        match self.prng.below(29) {
            0..=2 => self.loose_sum(),
            3 => self.firm_sum(),
            4 | 5 => self.loose_memory(),
            6 => self.firm_memory(),
            7 => self.firm_at_once(),
            8 => self.firm_by_shift(),
            9 => self.firm_below_undefined(),
            10 => self.firm_byte_among_undefined(),
            11 => self.opened(),
            12 => self.opened_again(),
            13 => self.emit(),
            14 | 15 => self.counted(counters),
            16 => self.skipped(counters),
            17 | 18 => self.compared(),
            19 | 20 => self.polled(counters),
            21 | 22 => self.packed_sums(counters),
            23..=25 => self.readings(counters),
            _ => {
                self.partly_defined();
                self.loose_sum();
            }
        }
    }

    fn blocks(&mut self, most: u32, counters: &[u8]) {
        for _ in 0..self.prng.between(1, most) {
            self.block(counters);
        }
    }

    /// A loop that counts down to 1.
    fn looped(&mut self, counter: u8, body: impl FnOnce(&mut Self)) {
        let rounds = self.prng.between(1, MOST_ROUNDS);
        self.rows.push(Row::copy(counter, Literal(rounds)));
        let top = self.rows.len() as u32;
        body(self);
        self.add(op::SUB, counter, counter, Literal(1));
        self.rows.push(Row::jump(counter, top));
    }

    fn counted(&mut self, counters: &[u8]) {
        if let Some((&counter, inside)) = counters.split_first() {
            self.looped(counter, |draft| draft.blocks(5, inside));
        }
    }

    /// Blocks that a firm register jumps over.
    fn skipped(&mut self, counters: &[u8]) {
        let at = self.rows.len();
        let a = self.firm();
        self.rows.push(Row::stop());
        if self.prng.one_in(3) {
            self.blocks(2, counters);
        } else {
            self.loose_sum();
        }
        self.rows[at] = Row::jump(a, self.rows.len() as u32);
    }

    /// The program with its last row.
    fn ended(mut self, m: u32, regions: Vec<Region>) -> Image {
        let last = if self.prng.one_in(2) { Row::stop() } else { Row::copy(0, Register(1)) };
        self.rows.push(last);
        Image::new(m, self.rows, regions, self.prng)
    }

    /// Each zone as it must be before the first block; the answer is the regions.
    fn prepare(&mut self) -> Vec<Region> {
        let mut regions = Vec::new();
        let (firm, loose, shut) = (self.zones.firm, self.zones.loose, self.zones.shut);
        for (k, &d) in FIRM.iter().enumerate() {
            let literal = if k == 0 { self.prng.word() } else { edges::word(self.prng) };
            self.rows.push(Row::copy(d, Literal(literal)));
        }
        if self.prng.one_in(2) {
            regions.push(Region { start: firm, length: ZONE, kind: FILLED });
        } else {
            self.rows.push(Row::range(op::OPEN, firm, ZONE));
            self.rows.push(Row::copy(POINTER, Literal(firm)));
            for at in (0..ZONE).step_by(4) {
                let d = self.firm();
                self.rows.push(Row::access(op::ST32, d, POINTER, at));
            }
        }
        match self.prng.below(3) {
            0 => regions.push(Region { start: loose, length: ZONE, kind: FILLED }),
            1 => regions.push(Region { start: loose, length: ZONE, kind: UNDEFINED }),
            _ => self.rows.push(Row::range(op::OPEN, loose, ZONE)),
        }
        if self.prng.one_in(3) {
            regions.push(Region { start: shut + 1, length: 3, kind: FILLED });
        }
        regions
    }
}

/// The blocks of a whole program. One time in three a dare stands among them, and one time in
/// sixteen rows of any kind stand between them.
fn body(draft: &mut Draft, first: u32, m: u32) {
    let any_rows = draft.prng.one_in(16);
    let dares = draft.prng.one_in(3);
    let count = draft.prng.between(2, if dares { 12 } else { 24 });
    let dare = if dares { draft.prng.between(1, count) } else { u32::MAX };
    for k in 0..=count {
        if draft.rows.len() as u32 > first + MOST_ROWS {
            break;
        }
        draft.block(&COUNTERS);
        if any_rows && draft.prng.one_in(6) {
            let row = legal_row(draft.prng, m, draft.rows.len() as u32);
            draft.rows.push(row);
        }
        if k == dare {
            draft.dare();
        }
    }
}

pub fn clean(prng: &mut Prng) -> Image {
    let zones = Zones::from(0, prng);
    let m = zones.end() + prng.below(3);
    let mut draft = Draft { prng, rows: Vec::new(), zones };
    let regions = draft.prepare();
    body(&mut draft, 0, m);
    draft.ended(m, regions)
}
