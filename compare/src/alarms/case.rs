//! The cases: one instruction, its operands and where they lie.

use super::counted::FAMILIES;
use super::drawn::drawn;
use super::fillings::{Filling, Operands};
use crate::edges;
use crate::families::Counted;
use crate::images::{op, Image, Row};
use crate::prng::Prng;
use crate::types::State;

const STREAM: u64 = 3;

pub struct Case {
    pub row: Row,
    pub operands: Operands,
    /// The state before the step, the operands in it.
    pub state: State,
    /// One of the grounds where not every filling is made.
    drawn: Filling,
}

pub fn is_shift(op: u8) -> bool {
    [op::SHL, op::SHR, op::SAR].contains(&op)
}

impl Case {
    /// The other registers hold anything.
    pub fn new(row: Row, operands: Operands, prng: &mut Prng) -> Case {
        let state = State {
            regs: std::array::from_fn(|_| prng.word()),
            vregs: std::array::from_fn(|_| edges::shadow(prng)),
            ..State::default()
        };
        let mut case = Case { row, operands, state, drawn: [prng.word(), prng.word()] };
        let Operands { x, v, y, w } = operands;
        case.state.regs = case.with([x, y], state.regs);
        case.state.vregs = case.with([v, w], state.vregs);
        case
    }

    /// Register a, which MOV has not.
    pub fn a(&self) -> Option<usize> {
        (self.row.op != op::MOV).then_some(usize::from(self.row.a))
    }

    /// Register b, unless B is a literal.
    pub fn b(&self) -> Option<usize> {
        Some(usize::from(self.row.b)).filter(|&b| b < self.state.regs.len())
    }

    pub fn d(&self) -> usize {
        usize::from(self.row.d)
    }

    /// The words of all registers with these in a and b, where there are such.
    fn with(&self, operands: [u32; 2], mut words: [u32; 16]) -> [u32; 16] {
        for (register, word) in [self.a(), self.b()].into_iter().zip(operands) {
            if let Some(register) = register {
                words[register] = word;
            }
        }
        words
    }

    pub fn fillings(&self) -> Vec<Filling> {
        self.operands.fillings(self.drawn)
    }

    /// The state before the step with the operands filled and everything defined.
    pub fn filled(&self, filling: Filling) -> State {
        State { regs: self.with(filling, self.state.regs), vregs: [0; 16], ..self.state }
    }

    pub fn image(&self) -> Vec<u8> {
        let rows = vec![self.row];
        Image { m: 1, rows, regions: Vec::new(), data: Vec::new() }.bytes()
    }
}

/// The numbering of the cases: first all the counted ones, mixed, then the drawn ones.
pub struct Cases {
    pub seed: u64,
    counted: Counted<Case>,
}

impl Cases {
    pub fn new(seed: u64) -> Cases {
        Cases { seed, counted: Counted::new(&FAMILIES) }
    }

    /// How many counted cases there are.
    pub fn counted(&self) -> u64 {
        self.counted.count()
    }

    /// Case k with the name of its kind.
    pub fn case(&self, number: u64) -> (&'static str, Case) {
        let mut prng = Prng::of_case(self.seed, STREAM, number);
        if number < self.counted() {
            let (family, case) = self.counted.case(number, &mut prng);
            return (FAMILIES[family].name, case);
        }
        ("drawn", drawn(&mut prng))
    }
}
