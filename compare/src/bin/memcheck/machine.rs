//! The checker's machine for one case: the registers that cases use, and eight bytes of memory.

use std::ops::Range;

pub use compare::checker::ENGINE;
use compare::images::{op, Image, Row};
use compare::types::{Buffers, Lists, State};

/// Registers: the two operands, the result, the address.
pub const FIRST: u8 = 1;
pub const SECOND: u8 = 2;
pub const RESULT: u8 = 3;
pub const ADDRESS: u8 = 4;
/// Bytes of memory: the window of a load or store.
pub const M: usize = 8;

/// A machine before or after a run.
pub struct Machine {
    state: State,
    mem: [u8; M],
    v: [u8; M],
    a: [u8; M],
}

fn bytes_of([low, high]: [u32; 2]) -> [u8; M] {
    (u64::from(low) | u64::from(high) << 32).to_le_bytes()
}

impl Machine {
    /// All registers defined and 0; memory addressable with this data and V.
    pub fn new(mem: [u32; 2], v: [u32; 2]) -> Machine {
        Machine { state: State::default(), mem: bytes_of(mem), v: bytes_of(v), a: [1; M] }
    }

    pub fn set(&mut self, register: u8, data: u32, v: u32) {
        self.state.regs[register as usize] = data;
        self.state.vregs[register as usize] = v;
    }

    /// Makes these bytes of the memory unaddressable.
    pub fn close(&mut self, hole: Range<usize>) {
        self.a[hole.clone()].fill(0);
        self.v[hole].fill(255);
    }

    /// Data and V of a register.
    pub fn register(&self, register: u8) -> (u64, u64) {
        let at = register as usize;
        (self.state.regs[at].into(), self.state.vregs[at].into())
    }

    /// Data and V of the memory; V 0 for unaddressable bytes.
    pub fn memory(&self) -> (u64, u64) {
        let v = std::array::from_fn(|k| self.v[k] * self.a[k]);
        (u64::from_le_bytes(self.mem), u64::from_le_bytes(v))
    }

    pub fn reports(&self) -> u32 {
        self.state.reports
    }

    /// Runs the code to its end, one step for each instruction (but STOP).
    pub fn run(&mut self, code: &[Row]) -> Result<(), String> {
        let rows = code.to_vec();
        let image = Image { m: M as u32, rows, regions: Vec::new(), data: Vec::new() };
        let (mut reports, mut outputs) = ([], [0; 8]);
        let buffers = Buffers { mem: &mut self.mem, v: &mut self.v, a: &mut self.a };
        let lists = Lists { reports: &mut reports, outputs: &mut outputs };
        let steps = code.iter().filter(|row| row.op != op::STOP).count() as u32;
        let ran = (ENGINE.run)(&image.bytes(), &self.state, buffers, lists, steps);
        if ran.number != 0 || ran.state.steps != steps || !(1..=2).contains(&ran.reason) {
            let named = |row: &Row| (op::NAMES[row.op as usize], row.d, row.a, row.b, row.imm);
            let code: Vec<_> = code.iter().map(named).collect();
            return Err(format!("{code:?} not run to its end: {ran:?}"));
        }
        self.state = ran.state;
        Ok(())
    }
}
