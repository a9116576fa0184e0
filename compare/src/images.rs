//! Program images built from their parts, as document 01 lays them out.

use crate::parts::Parts;
use crate::prng::Prng;

pub const MAGIC: [u8; 4] = [0x54, 0x55, 0x4E, 0x31];
pub const HEADER_BYTES: usize = 32;
pub const ROW_BYTES: usize = 8;
pub const REGION_BYTES: usize = 12;

/// The limits of M, N, R and D (document 01; document 02, L5), and the bytes of the largest image.
pub const MOST_MEMORY: u32 = 8192;
pub const MOST_ROWS: u32 = 2048;
pub const MOST_REGIONS: u32 = 32;
pub const MOST_DATA: u32 = 8192;
pub const MOST_BYTES: usize = 24_992;

/// What they were before L5: no edges any more, unless one of them is forgotten somewhere.
pub const FORMER_MEMORY: u32 = 4096;
pub const FORMER_ROWS: u32 = 512;
pub const FORMER_DATA: u32 = 4096;
pub const FORMER_BYTES: usize = 8_608;

/// The frame register, to which no result goes (document 02, L9).
pub const FRAME: u8 = 15;

/// The ops' numbers.
pub mod op {
    pub const STOP: u8 = 0;
    pub const MOV: u8 = 1;
    pub const ADD: u8 = 2;
    pub const SUB: u8 = 3;
    pub const MUL: u8 = 4;
    pub const AND: u8 = 5;
    pub const OR: u8 = 6;
    pub const XOR: u8 = 7;
    pub const SHL: u8 = 8;
    pub const SHR: u8 = 9;
    pub const SAR: u8 = 10;
    pub const EQ: u8 = 11;
    pub const LTU: u8 = 12;
    pub const LD8: u8 = 13;
    pub const LD32: u8 = 14;
    pub const ST8: u8 = 15;
    pub const ST32: u8 = 16;
    pub const JNZ: u8 = 17;
    pub const EMIT: u8 = 18;
    pub const OPEN: u8 = 19;
    pub const CLOSE: u8 = 20;
    pub const LD16: u8 = 21;
    pub const LDS8: u8 = 22;
    pub const LDS16: u8 = 23;
    pub const ST16: u8 = 24;
    pub const COUNT: usize = 25;
    pub const NAMES: [&str; COUNT] = [
        "STOP", "MOV", "ADD", "SUB", "MUL", "AND", "OR", "XOR", "SHL", "SHR", "SAR", "EQ", "LTU",
        "LD8", "LD32", "ST8", "ST32", "JNZ", "EMIT", "OPEN", "CLOSE", "LD16", "LDS8", "LDS16",
        "ST16",
    ];

    /// Does it put a result into register d?
    pub const fn has_result(op: u8) -> bool {
        matches!(op, MOV..=LD32 | LD16..=LDS16)
    }

    /// The bytes of a load or store.
    pub const fn width(op: u8) -> u32 {
        match op {
            LD8 | LDS8 | ST8 => 1,
            LD16 | LDS16 | ST16 => 2,
            _ => 4,
        }
    }
}

/// A second operand.
#[derive(Clone, Copy)]
pub enum Operand {
    Register(u8),
    Literal(u32),
}

impl Operand {
    const LITERAL_FIELD: u8 = 255;

    const fn fields(self) -> (u8, u32) {
        match self {
            Operand::Register(b) => (b, 0),
            Operand::Literal(imm) => (Operand::LITERAL_FIELD, imm),
        }
    }
}

/// One instruction, legal or not.
#[derive(Clone, Copy)]
pub struct Row {
    pub op: u8,
    pub d: u8,
    pub a: u8,
    pub b: u8,
    pub imm: u32,
}

impl Row {
    pub const fn stop() -> Row {
        Row::access(op::STOP, 0, 0, 0)
    }

    pub const fn copy(d: u8, operand: Operand) -> Row {
        Row::sum(op::MOV, d, 0, operand)
    }

    pub const fn sum(op: u8, d: u8, a: u8, operand: Operand) -> Row {
        let (b, imm) = operand.fields();
        Row { op, d, a, b, imm }
    }

    pub const fn access(op: u8, d: u8, a: u8, imm: u32) -> Row {
        Row { op, d, a, b: 0, imm }
    }

    pub const fn jump(a: u8, to: u32) -> Row {
        Row::access(op::JNZ, 0, a, to)
    }

    pub const fn emit(a: u8, port: u32) -> Row {
        Row::access(op::EMIT, 0, a, port)
    }

    pub const fn range(op: u8, start: u32, length: u32) -> Row {
        Row::access(op, 0, 0, start | (length << 16))
    }

    /// Its words as writing takes them: op in the low byte of the first (document 02, L2).
    pub const fn words(self) -> [u32; 2] {
        [u32::from_le_bytes([self.op, self.d, self.a, self.b]), self.imm]
    }
}

pub const FILLED: u32 = 1;
pub const UNDEFINED: u32 = 2;

#[derive(Clone, Copy)]
pub struct Region {
    pub start: u32,
    pub length: u32,
    pub kind: u32,
}

impl Region {
    pub const fn words(self) -> [u32; 3] {
        [self.start, self.length, self.kind]
    }
}

/// An image in parts; the sizes and offsets in its bytes follow from the parts.
#[derive(Clone)]
pub struct Image {
    pub m: u32,
    pub rows: Vec<Row>,
    pub regions: Vec<Region>,
    pub data: Vec<u8>,
}

impl Image {
    pub fn new(m: u32, rows: Vec<Row>, regions: Vec<Region>, prng: &mut Prng) -> Image {
        let filled = regions.iter().filter(|region| region.kind == FILLED);
        let sum = filled.fold(0u64, |sum, region| sum + u64::from(region.length));
        let data = prng.bytes(sum.min(u64::from(MOST_DATA)) as usize);
        Image { m, rows, regions, data }
    }

    pub fn parts(&self) -> Parts {
        Parts {
            m: self.m,
            instructions: self.rows.iter().flat_map(|row| row.words()).collect(),
            regions: self.regions.iter().flat_map(|region| region.words()).collect(),
            data: self.data.clone(),
        }
    }

    pub fn bytes(&self) -> Vec<u8> {
        self.parts().bytes()
    }
}

pub fn set_word(bytes: &mut [u8], at: usize, word: u32) {
    bytes[at..at + 4].copy_from_slice(&word.to_le_bytes());
}

pub fn word_at(bytes: &[u8], at: usize) -> u32 {
    u32::from_le_bytes([bytes[at], bytes[at + 1], bytes[at + 2], bytes[at + 3]])
}

/// M, N, R and D in the header of an image, if it is long enough for one.
pub fn sizes_of(image: &[u8]) -> Option<[u32; 4]> {
    let header = image.get(..HEADER_BYTES)?;
    Some([4, 8, 16, 24].map(|at| word_at(header, at)))
}

pub fn hex(bytes: &[u8]) -> String {
    bytes.iter().map(|byte| format!("{byte:02x}")).collect()
}
