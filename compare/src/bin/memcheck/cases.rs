//! One operation that `vbits` ran: its line, and the same operands in the checker.

use std::fmt;

use compare::images::{op, Operand, Row};
use compare::programs::STORES;

use crate::machine::{Machine, ADDRESS, FIRST, RESULT, SECOND};

/// Where the second operand is; for loads and stores, the offset in the window.
#[derive(Clone, Copy, PartialEq, Eq, Debug)]
pub enum Form {
    Pair,
    Same,
    Literal,
    At(u32),
}

/// One line of `vbits`: the operands and what Memcheck made of them.
pub struct Case {
    pub op: u8,
    pub form: Form,
    pub x: u32,
    pub v: u32,
    pub y: u32,
    pub w: u32,
    pub data: u64,
    pub shadow: u64,
}

impl fmt::Display for Case {
    fn fmt(&self, f: &mut fmt::Formatter) -> fmt::Result {
        let Case { op, form, x, v, y, w, .. } = self;
        let name = op::NAMES[*op as usize];
        write!(f, "{name} {form:?} x {x:#x} v {v:#x} y {y:#x} w {w:#x}")
    }
}

impl Case {
    pub fn parse(line: &str) -> Option<Case> {
        let fields: Vec<&str> = line.split(' ').collect();
        let [name, form, words @ ..] = &fields[..] else {
            return None;
        };
        let form = match *form {
            "pair" => Form::Pair,
            "same" => Form::Same,
            "lit" => Form::Literal,
            offset => Form::At(offset.parse().ok()?),
        };
        let words: Option<Vec<u64>> =
            words.iter().map(|word| u64::from_str_radix(word, 16).ok()).collect();
        let [x, v, y, w, data, shadow] = words?[..] else {
            return None;
        };
        let [x, v, y, w] = [x, v, y, w].map(|word| word as u32);
        let op = op::NAMES.iter().position(|known| known == name)? as u8;
        Some(Case { op, form, x, v, y, w, data, shadow })
    }

    pub fn is_store(&self) -> bool {
        STORES.contains(&self.op)
    }

    fn instruction(&self) -> Row {
        let operand = match self.form {
            Form::At(_) => {
                let d = if self.is_store() { FIRST } else { RESULT };
                return Row::access(self.op, d, ADDRESS, 0);
            }
            Form::Literal => Operand::Literal(self.y),
            Form::Same => Operand::Register(FIRST),
            Form::Pair => Operand::Register(SECOND),
        };
        let a = if self.op == op::MOV { 0 } else { FIRST };
        Row::sum(self.op, RESULT, a, operand)
    }

    /// Data and V that the checker makes of the same operands.
    pub fn ours(&self) -> Result<(u64, u64), String> {
        let mut machine = if self.is_store() {
            Machine::new([self.y, self.y], [self.w, self.w])
        } else {
            Machine::new([self.x, self.y], [self.v, self.w])
        };
        machine.set(FIRST, self.x, self.v);
        machine.set(SECOND, self.y, self.w);
        if let Form::At(offset) = self.form {
            machine.set(ADDRESS, offset, 0);
        }
        machine.run(&[self.instruction()])?;
        if machine.reports() != 0 {
            return Err(format!("{self}: the checker reports"));
        }
        Ok(if self.is_store() { machine.memory() } else { machine.register(RESULT) })
    }
}
