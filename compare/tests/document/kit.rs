//! A machine with its buffers and lists, and images made by hand.

use compare::interpreter::{begin, read, run};
use compare::types::{Began, Buffers, Header, Lists, Ran, State};

pub const LIT: u8 = 255;
pub const ONES: u32 = u32::MAX;
pub const MARK: u32 = 0xDEAD_BEEF;

pub type Ins = (u8, u8, u8, u8, u32);

pub const STOP: Ins = (0, 0, 0, 0, 0);

pub fn image(m: u32, code: &[Ins], regions: &[[u32; 3]], data: &[u8]) -> Vec<u8> {
    let (n, r, d) = (code.len() as u32, regions.len() as u32, data.len() as u32);
    let mut out = vec![0x54, 0x55, 0x4E, 0x31];
    for word in [m, n, 32, r, 32 + 8 * n, d, 32 + 8 * n + 12 * r] {
        out.extend(word.to_le_bytes());
    }
    for &(op, d, a, b, imm) in code {
        out.extend([op, d, a, b]);
        out.extend(imm.to_le_bytes());
    }
    for region in regions {
        for word in region {
            out.extend(word.to_le_bytes());
        }
    }
    out.extend(data);
    out
}

/// An image whose header word at an offset has been replaced.
pub fn with_word(image: &[u8], at: usize, word: u32) -> Vec<u8> {
    let mut out = image.to_vec();
    out[at..at + 4].copy_from_slice(&word.to_le_bytes());
    out
}

pub fn answer(image: &[u8]) -> (u32, u32) {
    let (header, code) = read(image);
    if header.number == 0 {
        assert_eq!(header.index, 0);
        assert_eq!(code, &image[32..32 + 8 * header.n as usize]);
    } else {
        let Header { number, index, .. } = header;
        assert_eq!(header, Header { number, index, ..Header::default() });
        assert!(code.is_empty());
    }
    (header.number, header.index)
}

/// One machine with its buffers and lists.
#[derive(Clone, Debug, PartialEq)]
pub struct Kit {
    pub image: Vec<u8>,
    pub state: State,
    pub mem: Vec<u8>,
    pub v: Vec<u8>,
    pub a: Vec<u8>,
    pub reports: Vec<u32>,
    pub outputs: Vec<u32>,
}

impl Kit {
    /// A begun machine with memory bytes 0x77, 64 report places and 256 output places.
    pub fn new(image: Vec<u8>, regs: [u32; 16]) -> Kit {
        let m = u32::from_le_bytes(image[4..8].try_into().unwrap()) as usize;
        let mut kit = Kit {
            image,
            state: State::default(),
            mem: vec![0x77; m],
            v: vec![0x33; m],
            a: vec![0x44; m],
            reports: vec![MARK; 256],
            outputs: vec![MARK; 512],
        };
        let began = kit.begin(&regs);
        assert_eq!((began.number, began.index), (0, 0));
        kit.state = began.state;
        kit
    }

    pub fn begin(&mut self, regs: &[u32; 16]) -> Began {
        let buffers = Buffers { mem: &mut self.mem, v: &mut self.v, a: &mut self.a };
        begin(&self.image, regs, buffers)
    }

    pub fn try_run(&mut self, budget: u32) -> Ran {
        let buffers = Buffers { mem: &mut self.mem, v: &mut self.v, a: &mut self.a };
        let lists = Lists { reports: &mut self.reports, outputs: &mut self.outputs };
        run(&self.image, &self.state, buffers, lists, budget)
    }

    /// A run that must be accepted; its reason.
    pub fn run(&mut self, budget: u32) -> u32 {
        let ran = self.try_run(budget);
        assert_eq!((ran.number, ran.index), (0, 0));
        self.state = ran.state;
        ran.reason
    }

    /// A run that must be refused, with nothing touched.
    pub fn refused(&mut self, budget: u32) -> u32 {
        let before = self.clone();
        let ran = self.try_run(budget);
        let Ran { number, index, .. } = ran;
        assert_eq!(ran, Ran { number, index: 0, reason: 0, state: before.state });
        assert_ne!(number, 0);
        assert_eq!((index, &*self), (0, &before));
        number
    }

    pub fn report(&self, k: usize) -> [u32; 4] {
        self.reports[4 * k..4 * k + 4].try_into().unwrap()
    }
}

/// One instruction on registers 1 and 2 (data, V), into register 3: its data and V.
pub fn op_on(op: u8, first: (u32, u32), second: (u32, u32)) -> (u32, u32) {
    let mut kit = Kit::new(image(1, &[(op, 3, 1, 2, 0)], &[], &[]), [0; 16]);
    (kit.state.regs[1], kit.state.vregs[1]) = first;
    (kit.state.regs[2], kit.state.vregs[2]) = second;
    let before = kit.state;
    assert_eq!(kit.run(1), 2);
    assert_eq!((kit.state.index, kit.state.steps, kit.state.reports), (1, 1, 0));
    for r in (0..16).filter(|&r| r != 3) {
        assert_eq!(kit.state.regs[r], before.regs[r]);
        assert_eq!(kit.state.vregs[r], before.vregs[r]);
    }
    (kit.state.regs[3], kit.state.vregs[3])
}

pub fn literal_op(op: u8, first: (u32, u32), imm: u32) -> (u32, u32) {
    let mut kit = Kit::new(image(1, &[(op, 3, 1, LIT, imm)], &[], &[]), [0; 16]);
    (kit.state.regs[1], kit.state.vregs[1]) = first;
    assert_eq!(kit.run(1), 2);
    (kit.state.regs[3], kit.state.vregs[3])
}

pub fn from_hex(text: &str) -> Vec<u8> {
    let digits: Vec<char> = text.chars().filter(|c| !c.is_whitespace()).collect();
    digits
        .chunks(2)
        .map(|pair| u8::from_str_radix(&pair.iter().collect::<String>(), 16).unwrap())
        .collect()
}

pub fn worked_example() -> Vec<u8> {
    from_hex(
        "54554E31 10000000 04000000 20000000 01000000 40000000 00000000 4C000000 \
         010000FF08000000 0E01000000000000 1200010002000000 0000000000000000 \
         08000000 04000000 02000000",
    )
}
