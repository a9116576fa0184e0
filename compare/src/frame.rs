//! Register 15 is kept (document 02, L9): over runs of an accepted image its data stay, and its V stays
//! unless a report makes it 0.

use crate::images::FRAME;
use crate::types::State;

/// Data and V of register 15.
#[derive(Clone, Copy)]
pub struct Frame {
    pub data: u32,
    pub v: u32,
}

impl Frame {
    pub fn of(state: &State) -> Frame {
        let at = usize::from(FRAME);
        Frame { data: state.regs[at], v: state.vregs[at] }
    }

    /// As a beginning with these registers leaves it: defined.
    pub fn begun(registers: &[u32; 16]) -> Frame {
        Frame { data: registers[usize::from(FRAME)], v: 0 }
    }

    /// In what it was not kept, if runs left this one.
    pub fn unkept(self, left: Frame) -> Option<String> {
        if left.data != self.data {
            return Some(format!("register 15 was {:#x}, is {:#x}", self.data, left.data));
        }
        let kept = left.v == self.v || left.v == 0;
        (!kept).then(|| format!("register 15's V was {:#x}, is {:#x}", self.v, left.v))
    }
}
