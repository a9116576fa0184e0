//! Document 01's bare machine, with the ops of document 02's request L1: the image run on data alone, with
//! no V bits and no reports. It is only ever given an image that the machine accepted.

/// The most outputs a machine has places for.
const MOST_OUTPUTS: usize = 256;

/// The answer of a run that trapped.
pub const TRAPPED: u32 = 6;

pub struct Bare {
    pub regs: [u32; 16],
    pub mem: Vec<u8>,
    pub addressable: Vec<bool>,
    pub index: u32,
    pub steps: u32,
    pub outputs: Vec<(u32, u32)>,
}

/// The little-endian word at a byte offset.
fn number(bytes: &[u8], at: usize) -> usize {
    u32::from_le_bytes([bytes[at], bytes[at + 1], bytes[at + 2], bytes[at + 3]]) as usize
}

/// The little-endian half word at a byte offset.
fn half(bytes: &[u8], at: usize) -> u16 {
    u16::from_le_bytes([bytes[at], bytes[at + 1]])
}

impl Bare {
    /// `mem` is the machine's own M bytes, as handed in.
    pub fn begin(image: &[u8], regs: &[u32; 16], mem: &[u8]) -> Bare {
        let mut bare = Bare {
            regs: *regs,
            mem: mem.to_vec(),
            addressable: vec![false; mem.len()],
            index: 0,
            steps: 0,
            outputs: Vec::with_capacity(MOST_OUTPUTS),
        };
        let (regions, mut data) = (number(image, 20), number(image, 28));
        for entry in image[regions..data].chunks_exact(12) {
            let (start, length, kind) = (number(entry, 0), number(entry, 4), number(entry, 8));
            let end = start + length;
            bare.addressable[start..end].fill(true);
            if kind == 1 {
                bare.mem[start..end].copy_from_slice(&image[data..data + length]);
                data += length;
            }
        }
        bare
    }

    /// The stop reason, or 6 if it traps, with the state before that step.
    pub fn run(&mut self, image: &[u8], places: usize, budget: u32) -> u32 {
        let (code, _) = image[32..number(image, 20)].as_chunks::<8>();
        let mut budget = budget;
        loop {
            let Some(instruction) = code.get(self.index as usize) else {
                return 2;
            };
            match instruction[0] {
                0 => return 1,
                18 if self.outputs.len() >= places => return 4,
                _ if budget == 0 => return 3,
                _ => {}
            }
            if !self.step(instruction) {
                return TRAPPED;
            }
            budget -= 1;
        }
    }

    /// One step; false, with nothing changed, if it traps.
    fn step(&mut self, instruction: &[u8; 8]) -> bool {
        let [op, d, a, b, imm @ ..] = *instruction;
        let (d, a) = (usize::from(d), usize::from(a));
        let imm = u32::from_le_bytes(imm);
        let first = self.regs[a];
        let second = if b == 255 { imm } else { self.regs[usize::from(b)] };
        let mut next = self.index + 1;
        match op {
            1 => self.regs[d] = second,
            2 => self.regs[d] = first.wrapping_add(second),
            3 => self.regs[d] = first.wrapping_sub(second),
            4 => self.regs[d] = first.wrapping_mul(second),
            5 => self.regs[d] = first & second,
            6 => self.regs[d] = first | second,
            7 => self.regs[d] = first ^ second,
            8 => self.regs[d] = first << (second % 32),
            9 => self.regs[d] = first >> (second % 32),
            10 => self.regs[d] = ((first as i32) >> (second % 32)) as u32,
            11 => self.regs[d] = u32::from(first == second),
            12 => self.regs[d] = u32::from(first < second),
            13..=16 | 21..=24 => {
                let size = match op {
                    13 | 15 | 22 => 1,
                    14 | 16 => 4,
                    _ => 2,
                };
                let Some(at) = self.access(first.wrapping_add(imm), size) else {
                    return false;
                };
                let word = self.regs[d];
                match op {
                    13 => self.regs[d] = u32::from(self.mem[at]),
                    14 => self.regs[d] = number(&self.mem, at) as u32,
                    15 => self.mem[at] = word as u8,
                    16 => self.mem[at..at + 4].copy_from_slice(&word.to_le_bytes()),
                    21 => self.regs[d] = u32::from(half(&self.mem, at)),
                    22 => self.regs[d] = self.mem[at] as i8 as u32,
                    23 => self.regs[d] = half(&self.mem, at) as i16 as u32,
                    _ => self.mem[at..at + 2].copy_from_slice(&(word as u16).to_le_bytes()),
                }
            }
            17 => {
                if first != 0 {
                    next = imm;
                }
            }
            18 => self.outputs.push((imm, first)),
            _ => {
                let start = (imm & 0xFFFF) as usize;
                let length = (imm >> 16) as usize;
                self.addressable[start..start + length].fill(op == 19);
            }
        }
        self.index = next;
        self.steps += 1;
        true
    }

    /// Where an access begins, if every byte of it is within memory and addressable.
    fn access(&self, address: u32, size: u64) -> Option<usize> {
        let first = u64::from(address);
        if first + size > self.mem.len() as u64 {
            return None;
        }
        let at = address as usize;
        let every = self.addressable[at..at + size as usize].iter().all(|&addressable| addressable);
        every.then_some(at)
    }
}
