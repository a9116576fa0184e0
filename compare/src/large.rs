//! Drawn images with many rows, much memory and many data, and all that they name beside the limits and what
//! these were before document 02's request L5.

use crate::edges;
use crate::images::{
    op, Image, Operand, Region, Row, FILLED, FORMER_DATA, FORMER_MEMORY, FORMER_ROWS, MOST_DATA,
    MOST_MEMORY, MOST_REGIONS, MOST_ROWS, UNDEFINED,
};
use crate::prng::Prng;
use crate::programs::{self, ACCESSES, RANGES};

/// What is done at places that only large images have, and with what.
const FAR: [&[u8]; 3] = [&ACCESSES, &RANGES, &[op::JNZ, op::JNZ, op::EMIT, op::MOV, op::STOP]];

/// The register of the first rows, by which they jump to the others.
const LEAPER: u8 = 1;

/// A size about what its limit was before, about the limit, or between.
fn size(prng: &mut Prng, former: u32, most: u32) -> u32 {
    let between = prng.between(former + 1, most);
    prng.pick(&[former - 1, former, former + 1, between, most - 1, most, most, most])
}

pub fn memory_size(prng: &mut Prng) -> u32 {
    size(prng, FORMER_MEMORY, MOST_MEMORY)
}

pub fn rows(prng: &mut Prng) -> u32 {
    size(prng, FORMER_ROWS, MOST_ROWS)
}

/// A row of a large image, so many bytes and rows of it.
fn row(prng: &mut Prng, m: u32, n: u32) -> Row {
    let op = prng.pick(&FAR.concat());
    let row = programs::legal_of(prng, op, m, n);
    match op {
        op::JNZ => Row { imm: edges::below(prng, FORMER_ROWS, n), ..row },
        _ if ACCESSES.contains(&op) => {
            let across = FORMER_MEMORY - 1 - prng.below(3);
            let beside = edges::below(prng, FORMER_MEMORY, m) + prng.below(2);
            Row { imm: prng.pick(&[across, beside, beside]), ..row }
        }
        _ if RANGES.contains(&op) => {
            let last = edges::below(prng, FORMER_MEMORY, m);
            let few = last.saturating_sub(prng.below(9));
            let start = prng.pick(&[0, last, few]);
            Row::range(op, start, last + 1 - start)
        }
        _ => row,
    }
}

/// One region or two that end beside the limits, as many as there can be, or any.
fn regions(prng: &mut Prng, m: u32) -> Vec<Region> {
    let both = (FILLED, UNDEFINED);
    let (kind, other) = prng.pick(&[both, both, (UNDEFINED, FILLED)]);
    let end = edges::below(prng, FORMER_MEMORY, m) + 1;
    match prng.below(4) {
        0 => vec![Region { start: 0, length: m, kind }],
        1 if end < m => vec![
            Region { start: 0, length: end, kind },
            Region { start: end, length: m - end, kind: other },
        ],
        2 => shares(m, MOST_REGIONS, m / MOST_REGIONS),
        _ => programs::regions(prng, m),
    }
}

/// So many filled regions, one behind another, the last one to the end of memory.
pub fn shares(m: u32, r: u32, share: u32) -> Vec<Region> {
    let mut regions: Vec<Region> =
        (0..r).map(|k| Region { start: k * share, length: share, kind: FILLED }).collect();
    if let Some(last) = regions.last_mut() {
        last.length = m - last.start;
    }
    regions
}

/// Rows of which the first two jump to one beside the limits.
pub fn image(prng: &mut Prng) -> Image {
    let (m, n) = (memory_size(prng), rows(prng));
    let mut rows: Vec<Row> = (0..n).map(|_| row(prng, m, n)).collect();
    rows[0] = Row::copy(LEAPER, Operand::Literal(1));
    rows[1] = Row::jump(LEAPER, edges::below(prng, FORMER_ROWS, n));
    let regions = regions(prng, m);
    Image::new(m, rows, regions, prng)
}

/// One size made larger than its limit, or than what that was before.
pub fn outgrow(prng: &mut Prng, image: &mut Image) {
    let above = |prng: &mut Prng, limit: u32| limit + prng.pick(&[1, 1, 2, 64]);
    let former = prng.one_in(3);
    let limit = |before, most| if former { before } else { most };
    match prng.below(3) {
        0 => image.m = above(prng, limit(FORMER_MEMORY, MOST_MEMORY)),
        1 => {
            let n = above(prng, limit(FORMER_ROWS, MOST_ROWS));
            image.rows.resize(n as usize, Row::stop());
        }
        _ => {
            let d = above(prng, limit(FORMER_DATA, MOST_DATA));
            image.data.resize(d as usize, 0);
        }
    }
}
