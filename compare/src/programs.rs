//! Random images that document 01 accepts, of several shapes.

use crate::edges;
use crate::images::{
    op, Image, Operand, Region, Row, FILLED, FRAME, MOST_DATA, MOST_MEMORY, MOST_REGIONS,
    MOST_ROWS, UNDEFINED,
};
use crate::large;
use crate::prng::Prng;

pub type Maker = fn(&mut Prng) -> Image;

/// Counter registers of the loops: bodies leave them alone.
const COUNTERS: [u8; 2] = [13, 14];

pub const ARITHMETIC: [u8; 12] = [
    op::MOV,
    op::ADD,
    op::SUB,
    op::MUL,
    op::AND,
    op::OR,
    op::XOR,
    op::SHL,
    op::SHR,
    op::SAR,
    op::EQ,
    op::LTU,
];
pub const ACCESSES: [u8; 8] =
    [op::LD8, op::LD16, op::LD32, op::LDS8, op::LDS16, op::ST8, op::ST16, op::ST32];
pub const LOADS: &[u8] = ACCESSES.split_at(5).0;
pub const STORES: &[u8] = ACCESSES.split_at(5).1;
pub const RANGES: [u8; 2] = [op::OPEN, op::CLOSE];

pub fn register(prng: &mut Prng) -> u8 {
    prng.below(16) as u8
}

/// The register as d of an op, or another in place of register 15 where a result would go to it.
pub fn as_d(prng: &mut Prng, op: u8, register: u8) -> u8 {
    if op::has_result(op) && register == FRAME {
        prng.below(FRAME.into()) as u8
    } else {
        register
    }
}

fn operand(prng: &mut Prng, a: u8) -> Operand {
    match prng.below(6) {
        0 => Operand::Register(a),
        1 | 2 => Operand::Register(register(prng)),
        _ => Operand::Literal(edges::word(prng)),
    }
}

fn range(prng: &mut Prng, op: u8, m: u32) -> Row {
    let start = match prng.below(4) {
        0 => 0,
        1 => m - 1,
        _ => prng.below(m),
    };
    let most = m - start;
    let length = match prng.below(3) {
        0 => most,
        1 => 1,
        _ => prng.between(1, most),
    };
    Row::range(op, start, length)
}

/// A legal row of this op, for M bytes and N rows.
pub fn legal_of(prng: &mut Prng, op: u8, m: u32, n: u32) -> Row {
    let (d, a) = (register(prng), register(prng));
    let d = as_d(prng, op, d);
    match op {
        op::STOP => Row::stop(),
        op::MOV => Row::copy(d, operand(prng, d)),
        op::ADD..=op::LTU => Row::sum(op, d, a, operand(prng, a)),
        _ if ACCESSES.contains(&op) => Row::access(op, d, a, edges::address(prng, m)),
        op::JNZ => Row::jump(a, prng.below(n)),
        op::EMIT => Row::emit(a, prng.below(8)),
        _ => range(prng, op, m),
    }
}

/// A legal row of any op.
pub fn legal_row(prng: &mut Prng, m: u32, n: u32) -> Row {
    let op = prng.below(op::COUNT as u32) as u8;
    legal_of(prng, op, m, n)
}

pub fn memory_size(prng: &mut Prng) -> u32 {
    match prng.below(24) {
        0 => prng.between(1, 4),
        1 => large::memory_size(prng),
        2 => prng.between(41, MOST_MEMORY),
        _ => prng.between(4, 40),
    }
}

pub fn regions(prng: &mut Prng, m: u32) -> Vec<Region> {
    let count = prng.pick(&[0, 1, 1, 2, 2, 3, 5, MOST_REGIONS as usize]);
    let mut found: Vec<Region> = Vec::new();
    let mut at = 0;
    while found.len() < count {
        if prng.one_in(2) {
            at += prng.below(5);
        }
        if at >= m {
            break;
        }
        let most = m - at;
        let length = match prng.below(8) {
            0 => most,
            _ => prng.between(1, most.min(8)),
        };
        let kind = prng.pick(&[FILLED, UNDEFINED]);
        found.push(Region { start: at, length, kind });
        at += length;
    }
    found
}

fn with_regions(prng: &mut Prng, m: u32, rows: Vec<Row>) -> Image {
    let regions = regions(prng, m);
    Image::new(m, rows, regions, prng)
}

/// Rows of these ops only.
fn rows_of(prng: &mut Prng, ops: &[u8], m: u32, n: u32) -> Vec<Row> {
    let mut draw = |_| {
        let op = prng.pick(ops);
        legal_of(prng, op, m, n)
    };
    (0..n).map(&mut draw).collect()
}

/// Arithmetic from top to bottom, with a load now and then for partly undefined words.
pub fn straight(prng: &mut Prng) -> Image {
    let m = memory_size(prng);
    let n = prng.between(1, 40);
    let ops = [&ARITHMETIC[..], &ARITHMETIC[..], LOADS].concat();
    let rows = rows_of(prng, &ops, m, n);
    with_regions(prng, m, rows)
}

/// Few rows of these ops, from top to bottom.
fn few_of(prng: &mut Prng, ops: &[u8]) -> Image {
    let m = memory_size(prng);
    let n = prng.between(1, 16);
    let rows = rows_of(prng, ops, m, n);
    with_regions(prng, m, rows)
}

/// The sums with sorts of their own in coverage.
pub fn sums(prng: &mut Prng) -> Image {
    few_of(prng, &[op::ADD, op::SUB, op::EQ])
}

/// The loads and stores with sorts of their own in coverage, one in four with d the same as a.
pub fn half_words(prng: &mut Prng) -> Image {
    let mut image = few_of(prng, &[op::LD16, op::LDS8, op::LDS16, op::ST16]);
    for row in &mut image.rows {
        if prng.one_in(4) {
            row.a = row.d;
        }
    }
    image
}

/// Rows of which half of the fields that may be register 15 are.
pub fn frame_uses(prng: &mut Prng) -> Image {
    let ops = [&ARITHMETIC[..], &ACCESSES, &[op::JNZ, op::EMIT].repeat(4)].concat();
    let mut image = few_of(prng, &ops);
    for row in &mut image.rows {
        if row.op != op::MOV && prng.one_in(2) {
            row.a = FRAME;
        }
        if ARITHMETIC.contains(&row.op) && row.b < FRAME && prng.one_in(2) {
            row.b = FRAME;
        }
        if STORES.contains(&row.op) && prng.one_in(2) {
            row.d = FRAME;
        }
    }
    image
}

/// Loads and stores whose addresses, half of them composed of two parts, lie at the edges.
pub fn accesses(prng: &mut Prng) -> Image {
    let m = memory_size(prng);
    let mut rows = Vec::new();
    for _ in 0..prng.between(1, 16) {
        let (base, other) = (register(prng), register(prng));
        let part = edges::word(prng);
        let d = prng.pick(&[base, FRAME, other]);
        let to = edges::address(prng, m);
        if prng.one_in(2) && base != FRAME {
            rows.push(Row::copy(base, Operand::Literal(part)));
        }
        let op = prng.pick(&ACCESSES);
        let d = as_d(prng, op, d);
        rows.push(Row::access(op, d, base, to.wrapping_sub(part)));
        if prng.one_in(3) {
            rows.push(legal_of(prng, op, m, 1));
        }
    }
    with_regions(prng, m, rows)
}

/// OPEN and CLOSE among loads and stores.
pub fn ranges(prng: &mut Prng) -> Image {
    let m = memory_size(prng);
    let n = prng.between(1, 30);
    let ops = [&RANGES[..], &ACCESSES[..], &[op::MOV]].concat();
    let rows = rows_of(prng, &ops, m, n);
    with_regions(prng, m, rows)
}

/// Jumps from and to every place, with counting down between them; many never end.
pub fn jumps(prng: &mut Prng) -> Image {
    let m = memory_size(prng);
    let n = prng.between(1, 16);
    let ops = [op::JNZ, op::JNZ, op::MOV, op::SUB, op::EQ, op::EMIT];
    let rows = rows_of(prng, &ops, m, n);
    with_regions(prng, m, rows)
}

/// Rows of any op.
pub fn legal(prng: &mut Prng) -> Image {
    let m = memory_size(prng);
    let n = match prng.below(32) {
        0 => large::rows(prng),
        1 => prng.between(41, MOST_ROWS),
        _ => prng.between(1, 40),
    };
    let rows = (0..n).map(|_| legal_row(prng, m, n)).collect();
    with_regions(prng, m, rows)
}

fn add_loop(prng: &mut Prng, rows: &mut Vec<Row>, m: u32, counters: &[u8]) {
    let Some((&counter, inside)) = counters.split_first() else {
        return;
    };
    rows.push(Row::copy(counter, Operand::Literal(prng.between(1, 12))));
    let top = rows.len() as u32;
    let ops = [&ARITHMETIC[..], &ACCESSES[..], &RANGES[..], &[op::EMIT]].concat();
    let count = prng.between(1, 10);
    for mut row in rows_of(prng, &ops, m, count) {
        if op::has_result(row.op) && COUNTERS.contains(&row.d) {
            row.d -= 8;
        }
        rows.push(row);
    }
    if prng.one_in(2) {
        add_loop(prng, rows, m, inside);
    }
    rows.push(Row::sum(op::SUB, counter, counter, Operand::Literal(1)));
    rows.push(Row::jump(counter, top));
}

/// Counted loops, some one inside another.
pub fn loops(prng: &mut Prng) -> Image {
    let m = memory_size(prng);
    let mut rows = Vec::new();
    for _ in 0..prng.between(1, 3) {
        add_loop(prng, &mut rows, m, &COUNTERS);
    }
    if prng.one_in(2) {
        rows.push(Row::stop());
    }
    with_regions(prng, m, rows)
}

/// The most rows, regions and data there can be, or nearly.
pub fn largest(prng: &mut Prng) -> Image {
    let m = MOST_MEMORY - prng.below(2);
    let n = MOST_ROWS - prng.below(2);
    let r = MOST_REGIONS - prng.below(2);
    let rows = (0..n).map(|_| legal_row(prng, m, n)).collect();
    let share = MOST_DATA / MOST_REGIONS - prng.below(2);
    Image::new(m, rows, large::shares(m, r, share), prng)
}
