//! An image with the buffers and lists of a run.

use std::fs;

use uviktalik::numbers::{FRAME_REGISTER, MAX_OUTPUT_LIST, MAX_REPORT_LIST, REGISTERS};
use uviktalik::{Buffers, Lists, Refusal, State, StopReason};

/// A stored image; the name says where in the repository.
pub fn image(name: &str) -> Vec<u8> {
    let path = format!("../../{name}.image");
    fs::read(&path).unwrap_or_else(|error| panic!("{path}: {error}"))
}

/// The registers' values at a beginning: zeros, and M in the frame register.
pub fn registers(m: u32) -> [u32; REGISTERS] {
    let mut regs = [0; REGISTERS];
    regs[FRAME_REGISTER] = m;
    regs
}

pub struct Desk {
    pub image: Vec<u8>,
    pub mem: Vec<u8>,
    pub vbits: Vec<u8>,
    pub abits: Vec<u8>,
    pub reports: Vec<u32>,
    pub outputs: Vec<u32>,
    pub state: State,
}

impl Desk {
    /// Buffers of the image's M bytes (none if it is refused), and the longest lists.
    pub fn of(name: &str) -> Desk {
        let image = image(name);
        let m = uviktalik::read(&image).map_or(0, |header| header.m as usize);
        let bytes = || vec![0; m];
        let (reports, outputs) = (vec![0; MAX_REPORT_LIST], vec![0; MAX_OUTPUT_LIST]);
        let (mem, vbits, abits, state) = (bytes(), bytes(), bytes(), State::default());
        Desk { image, mem, vbits, abits, reports, outputs, state }
    }

    pub fn begin(&mut self) -> Result<(), Refusal> {
        let Desk { image, mem, vbits, abits, .. } = self;
        let regs = registers(mem.len() as u32);
        self.state = uviktalik::begin(image, &regs, &mut Buffers { mem, vbits, abits })?;
        Ok(())
    }

    pub fn run(&mut self, budget: u32) -> Result<StopReason, Refusal> {
        let Desk { image, mem, vbits, abits, reports, outputs, state } = self;
        let (mut buffers, mut lists) = (Buffers { mem, vbits, abits }, Lists { reports, outputs });
        uviktalik::run(image, state, &mut buffers, &mut lists, budget)
    }

    /// Begins and runs.
    pub fn check(&mut self, budget: u32) -> Result<StopReason, Refusal> {
        self.begin()?;
        self.run(budget)
    }
}
