//! Counted images that keep and break the rules of rows, sizes and regions.

use super::{small_image, three_rows, Choices, M};
use crate::edges;
use crate::images::{
    op, Image, Operand, Region, Row, FILLED, FORMER_DATA, FORMER_MEMORY, FORMER_ROWS, FRAME,
    MOST_DATA, MOST_MEMORY, MOST_REGIONS, MOST_ROWS, UNDEFINED,
};
use crate::prng::Prng;
use crate::programs::{ACCESSES, ARITHMETIC, RANGES};

pub fn op_number(choices: &mut Choices, prng: &mut Prng) -> Image {
    let op = choices.below(256) as u8;
    let b = choices.pick(&[0, 255]);
    let imm = choices.pick(&[0, 0x1_0000]);
    let place = choices.below(3);
    let mut rows = vec![Row::stop(); 3];
    rows[place] = Row { op, b, imm, ..Row::stop() };
    small_image(prng, rows)
}

/// imm at the edges of JNZ for three rows, EMIT, and OPEN and CLOSE for M bytes, and of 32 bits.
const IMMS: [u32; 18] = [
    0,
    1,
    2,
    3,
    7,
    8,
    M,
    0xFFFF,
    0x1_0000,
    0x1_0000 | (M - 1),
    0x1_0000 | M,
    0x2_0000 | (M - 1),
    M << 16,
    (M + 1) << 16,
    (M << 16) | 1,
    0xFFFF_0000,
    0x8000_0000,
    0xFFFF_FFFF,
];

pub fn row_fields(choices: &mut Choices, prng: &mut Prng) -> Image {
    let imm = choices.pick(&IMMS);
    let b = choices.pick(&edges::OPERAND_FIELDS);
    let a = choices.pick(&edges::FIELDS);
    let d = choices.pick(&edges::FIELDS);
    let op = choices.below(op::COUNT + 1) as u8;
    let row = Row { op, d, a, b, imm };
    let mut rows = vec![Row::copy(1, Operand::Register(FRAME)); 3];
    rows[usize::from(d ^ a ^ b) % 3] = row;
    small_image(prng, rows)
}

/// OPEN and CLOSE of each range beside the ends of M bytes, and where the most of them ended before.
pub fn range(choices: &mut Choices, prng: &mut Prng) -> Image {
    let former = FORMER_MEMORY;
    let op = choices.pick(&RANGES);
    let m = choices.pick(&[1, 2, M, 255, 256, 257, former, former + 1, MOST_MEMORY]);
    let start = choices.pick(&[0, 1, m / 2, former - 1, m - 1, m, m + 1, 0x7FFF, 0xFFFF]);
    let [to_former, to_end] = [former, m].map(|end| end.saturating_sub(start));
    let few = [0, 1, 2, m - 1, m, m + 1, 0xFFFF];
    let beside = [to_former, to_former + 1, to_end, to_end + 1];
    let length = choices.pick(&[&few[..], &beside].concat());
    Image::new(m, vec![Row::range(op, start, length)], Vec::new(), prng)
}

/// An image with regions and data, with regions only, or with neither.
pub fn shaped(choices: &mut Choices, prng: &mut Prng) -> Image {
    let mut image = small_image(prng, three_rows());
    let shape = choices.below(3);
    if shape > 0 {
        image.regions[0].kind = UNDEFINED;
        image.data.clear();
    }
    if shape == 2 {
        image.regions.clear();
    }
    image
}

/// Sizes at and beside their limits and what these were before, with offsets and length that follow from
/// them.
pub fn sizes(choices: &mut Choices, prng: &mut Prng) -> Image {
    let m = choices.pick(&edges::counts(FORMER_MEMORY, MOST_MEMORY));
    let n = choices.pick(&edges::counts(FORMER_ROWS, MOST_ROWS));
    let r = choices.pick(&[0, 1, MOST_REGIONS - 1, MOST_REGIONS, MOST_REGIONS + 1]);
    let d = choices.pick(&edges::counts(FORMER_DATA, MOST_DATA));
    let rows = vec![Row::copy(1, Operand::Register(FRAME)); n as usize];
    let single = |start| Region { start, length: 1, kind: UNDEFINED };
    let mut regions: Vec<Region> = (0..r).map(single).collect();
    if let (Some(last), 1..) = (regions.last_mut(), d) {
        *last = Region { start: last.start, length: d.min(m.max(r) + 1 - r), kind: FILLED };
    }
    let mut image = Image::new(m, rows, regions, prng);
    image.data = prng.bytes(d as usize);
    image
}

pub fn region(choices: &mut Choices, prng: &mut Prng) -> Image {
    let place = choices.below(3);
    let mut regions = [
        Region { start: 2, length: 3, kind: FILLED },
        Region { start: 6, length: 4, kind: UNDEFINED },
        Region { start: 10, length: 2, kind: FILLED },
    ];
    let end = if place == 0 { 0 } else { regions[place - 1].start + regions[place - 1].length };
    let before = end.wrapping_sub(1);
    let start = choices.pick(&[0, before, end, end + 1, M - 1, M, M + 1, 0x8000_0000, u32::MAX]);
    let to_end = M.wrapping_sub(start);
    let to_wrap = 0u32.wrapping_sub(start);
    let lengths = [0, 1, 2, to_end, to_end.wrapping_add(1), 0x8000_0000, u32::MAX, to_wrap];
    let length = choices.pick(&lengths);
    let kind = choices.pick(&[0, 1, 2, 3, 0x101, 0x0100_0001, u32::MAX]);
    regions[place] = Region { start, length, kind };
    let mut image = Image::new(M, three_rows(), regions.to_vec(), prng);
    spoil_data(choices, prng, &mut image);
    image
}

/// Data that fit, are one too many, or lack one.
fn spoil_data(choices: &mut Choices, prng: &mut Prng, image: &mut Image) {
    match choices.below(3) {
        0 => {}
        1 => image.data.push(prng.byte()),
        _ => image.data.truncate(image.data.len().saturating_sub(1)),
    }
}

/// M, N and D each as it is, above what its limit was before, or above the limit; nothing else is wrong with
/// the first two.
pub fn outgrown(choices: &mut Choices, prng: &mut Prng) -> Image {
    let mut image = shaped(choices, prng);
    let few = image.data.len() as u32;
    image.m = choices.pick(&[M, FORMER_MEMORY + 1, MOST_MEMORY + 1]);
    let n = choices.pick(&[image.rows.len() as u32, FORMER_ROWS + 1, MOST_ROWS + 1]);
    let d = choices.pick(&[few, FORMER_DATA + 1, MOST_DATA + 1]);
    image.rows.resize(n as usize, Row::stop());
    image.data.resize(d as usize, 0);
    image
}

/// A long program with a row that breaks a rule, or names what only long programs and large memories have;
/// alone, or with another fault before it or behind it.
pub fn long(choices: &mut Choices, prng: &mut Prng) -> Image {
    let n = choices.pick(&[FORMER_ROWS + 1, MOST_ROWS]);
    let row = choices.pick(&[
        Row { op: op::COUNT as u8, ..Row::stop() },
        Row::copy(FRAME, Operand::Register(1)),
        Row::sum(op::ADD, FRAME, 1, Operand::Literal(1)),
        Row::access(op::LD32, FRAME, 1, 0),
        Row::access(op::LD16, FRAME, 1, 0),
        Row::access(op::LDS8, FRAME, 1, 0),
        Row::access(op::ST16, FRAME, 1, 0),
        Row::jump(1, FORMER_ROWS - 1),
        Row::jump(1, FORMER_ROWS),
        Row::jump(1, n - 1),
        Row::jump(1, n),
        Row::range(op::OPEN, FORMER_MEMORY, 1),
        Row::range(op::CLOSE, FORMER_MEMORY - 1, 2),
        Row::range(op::OPEN, MOST_MEMORY - 1, 2),
    ]);
    let places = [0, FORMER_ROWS - 1, FORMER_ROWS, n - 2, n - 1].map(|place| place as usize);
    let mut rows = vec![Row::copy(1, Operand::Register(FRAME)); n as usize];
    rows[choices.pick(&places)] = row;
    if let Some(other) = choices.pick(&[None, Some(1), Some(n - 1)]) {
        rows[other as usize].d = FRAME + 1;
    }
    Image { m: MOST_MEMORY, ..small_image(prng, rows) }
}

/// A region that begins and ends beside what M and D could be before and can be now, with data that fit,
/// lack or are one too many.
pub fn large_region(choices: &mut Choices, prng: &mut Prng) -> Image {
    let (former, most) = (FORMER_MEMORY, MOST_MEMORY);
    let m = choices.pick(&[former, former + 1, most - 1, most]);
    let start = choices.pick(&[0, 1, former - 1, former, most - 1, most]);
    let end = choices.pick(&[former - 1, former, former + 1, most - 1, most, most + 1]);
    let kind = choices.pick(&[FILLED, UNDEFINED]);
    let regions = vec![Region { start, length: end.wrapping_sub(start), kind }];
    let mut image = Image::new(m, three_rows(), regions, prng);
    spoil_data(choices, prng, &mut image);
    image
}

/// The image with this many rows, regions and bytes of data, which fill the first regions.
pub fn of_sizes(n: u32, r: u32, d: u32, prng: &mut Prng) -> Image {
    let rows = vec![Row::access(op::ST32, FRAME, FRAME, n); n as usize];
    let share = MOST_DATA / MOST_REGIONS;
    let region = |k| Region { start: share * k, length: share, kind: UNDEFINED };
    let mut regions: Vec<Region> = (0..r).map(region).collect();
    for region in &mut regions {
        if region.start < d {
            *region = Region { kind: FILLED, length: share.min(d - region.start), ..*region };
        }
    }
    Image::new(MOST_MEMORY, rows, regions, prng)
}

/// The fields a, b and imm of a row: as they should be, some with register 15 or with a literal that changes
/// nothing, and the last three of each so that they break the row.
const SUM_FIELDS: [(u8, u8, u32); 8] = [
    (1, 2, 0),
    (1, 255, 0),
    (1, 255, 7),
    (FRAME, FRAME, 0),
    (FRAME, 255, 0),
    (16, 2, 0),
    (1, 16, 0),
    (1, 2, 1),
];
const ACCESS_FIELDS: [(u8, u8, u32); 8] = [
    (1, 0, 0),
    (1, 0, 5),
    (0, 0, u32::MAX),
    (FRAME, 0, 0),
    (FRAME, 0, 1),
    (16, 0, 0),
    (1, 1, 0),
    (1, 255, 5),
];

/// Register 15 or 14 as d of every op that has one, at every place, and with other faults of the same
/// instruction.
pub fn frame_named(choices: &mut Choices, prng: &mut Prng) -> Image {
    let op = choices.pick(&[&ARITHMETIC[..], &ACCESSES].concat());
    let fields = if ACCESSES.contains(&op) { ACCESS_FIELDS } else { SUM_FIELDS };
    let (a, b, imm) = choices.pick(&fields);
    let a = if op == op::MOV && a <= FRAME { 0 } else { a };
    let d = choices.pick(&[FRAME, FRAME - 1]);
    let place = choices.below(3);
    let mut image = small_image(prng, vec![Row::copy(1, Operand::Register(FRAME)); 3]);
    image.rows[place] = Row { op, d, a, b, imm };
    image
}
