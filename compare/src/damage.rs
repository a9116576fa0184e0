//! Images broken in one place, or in several at once, so that the order of the refusals shows.

use crate::edges;
use crate::images::{
    op, set_word, word_at, Image, Region, Row, FORMER_DATA, FORMER_MEMORY, FORMER_ROWS, FRAME,
    HEADER_BYTES, MAGIC, MOST_DATA, MOST_MEMORY, MOST_REGIONS, MOST_ROWS,
};
use crate::large;
use crate::prng::Prng;
use crate::programs;

/// What a header word may be instead: beside its value, beside its limit and what that was before, at the
/// ends.
pub fn header_edges(bytes: &[u8], at: usize) -> [u32; 12] {
    let value = word_at(bytes, at);
    let (former, limit) = match at {
        4 => (FORMER_MEMORY, MOST_MEMORY),
        8 => (FORMER_ROWS, MOST_ROWS),
        16 => (MOST_REGIONS, MOST_REGIONS),
        24 => (FORMER_DATA, MOST_DATA),
        _ => (HEADER_BYTES as u32, HEADER_BYTES as u32),
    };
    let [zero, one, two, middle, most] = edges::ANY_HEADER;
    let (below, above) = (value.wrapping_sub(1), value.wrapping_add(1));
    [value, below, above, former, former + 1, limit, limit + 1, zero, one, two, middle, most]
}

/// Images with few rows, so that every part of them is hit.
fn small(prng: &mut Prng) -> Image {
    let m = prng.between(1, 40);
    let n = prng.between(1, 12);
    let rows = (0..n).map(|_| programs::legal_row(prng, m, n)).collect();
    let regions = programs::regions(prng, m);
    Image::new(m, rows, regions, prng)
}

fn damage_row(prng: &mut Prng, row: &mut Row) {
    let other = prng.below(op::COUNT as u32) as u8;
    match prng.below(6) {
        0 => row.op = prng.pick(&[other, op::COUNT as u8, 128, 255]),
        1 => row.d = prng.pick(&edges::FIELDS),
        2 => row.a = prng.pick(&edges::FIELDS),
        3 => row.b = prng.pick(&edges::OPERAND_FIELDS),
        4 => row.imm = edges::word(prng),
        _ => row.imm = row.imm.wrapping_add(prng.pick(&[1, 0xFFFF_FFFF, 0x1_0000])),
    }
}

fn damage_region(prng: &mut Prng, region: &mut Region) {
    let off_by_one = prng.pick(&[1, 0xFFFF_FFFF]);
    match prng.below(6) {
        0 => region.start = region.start.wrapping_add(off_by_one),
        1 => region.length = region.length.wrapping_add(off_by_one),
        2 => region.start = edges::word(prng),
        3 => region.length = prng.pick(&[0, 0xFFFF_FFFF, 0u32.wrapping_sub(region.start)]),
        _ => region.kind = prng.pick(&[0, 1, 2, 3, 0x101, 0x0100_0001, 0xFFFF_FFFF]),
    }
}

/// The index of any row, in a long program most often one beside the limits.
fn any_row(prng: &mut Prng, image: &Image) -> usize {
    let n = image.rows.len();
    if n > FORMER_ROWS as usize {
        edges::below(prng, FORMER_ROWS, n as u32) as usize
    } else {
        prng.place(n)
    }
}

/// Breaks a part from which sizes and offsets still follow.
pub fn damage_parts(prng: &mut Prng, image: &mut Image) {
    match prng.below(8) {
        0..=3 => {
            let place = any_row(prng, image);
            damage_row(prng, &mut image.rows[place]);
        }
        4 | 5 if !image.regions.is_empty() => {
            let place = prng.place(image.regions.len());
            damage_region(prng, &mut image.regions[place]);
        }
        6 => {
            image.data.pop();
        }
        _ => image.data.push(prng.byte()),
    }
}

fn damage_bytes(prng: &mut Prng, bytes: &mut Vec<u8>) {
    if bytes.len() < HEADER_BYTES {
        return;
    }
    let any = prng.place(bytes.len());
    match prng.below(6) {
        0 => bytes.truncate(any),
        1 => bytes.extend(prng.bytes(any % 9 + 1)),
        2 => bytes[any] = prng.byte(),
        3 => bytes[any] ^= 1 << prng.below(8),
        4 => set_word(bytes, any.min(HEADER_BYTES - 4) / 4 * 4, edges::word(prng)),
        _ => {
            let at = 4 * prng.place(HEADER_BYTES / 4);
            let word = prng.pick(&header_edges(bytes, at));
            set_word(bytes, at, word);
        }
    }
}

/// An image with so many damages to its parts.
pub fn damaged_parts(prng: &mut Prng, parts: u32) -> Image {
    let mut image = small(prng);
    for _ in 0..parts {
        damage_parts(prng, &mut image);
    }
    image
}

/// An image's bytes and the M it was made for, with so many damages to its parts and its bytes.
pub fn damaged(prng: &mut Prng, parts: u32, whole: u32) -> (Vec<u8>, u32) {
    let image = damaged_parts(prng, parts);
    let mut bytes = image.bytes();
    for _ in 0..whole {
        damage_bytes(prng, &mut bytes);
    }
    (bytes, image.m)
}

/// The same of a large image, damaged in one place.
pub fn large(prng: &mut Prng) -> (Vec<u8>, u32) {
    let mut image = large::image(prng);
    let way = prng.below(3);
    match way {
        0 => damage_parts(prng, &mut image),
        1 => drop(name_frame(prng, &mut image)),
        _ => {}
    }
    let mut bytes = image.bytes();
    if way == 2 {
        damage_bytes(prng, &mut bytes);
    }
    (bytes, image.m)
}

/// The same of an image with one size above its limit, or above what that was before, half of them damaged
/// besides.
pub fn outgrown(prng: &mut Prng) -> (Vec<u8>, u32) {
    let mut image = small(prng);
    large::outgrow(prng, &mut image);
    let mut bytes = image.bytes();
    if prng.one_in(2) {
        damage_bytes(prng, &mut bytes);
    }
    (bytes, image.m)
}

/// One row made another, all that is wrong with which is that its result goes to register 15; its index.
pub fn name_frame(prng: &mut Prng, image: &mut Image) -> u32 {
    let place = any_row(prng, image);
    let op = prng.pick(&[&programs::ARITHMETIC[..], programs::LOADS].concat());
    let row = programs::legal_of(prng, op, image.m, image.rows.len() as u32);
    image.rows[place] = Row { d: FRAME, ..row };
    place as u32
}

/// An image that names register 15 so, half of them damaged before.
pub fn frame_named_parts(prng: &mut Prng) -> Image {
    let mut image = small(prng);
    if prng.one_in(2) {
        damage_parts(prng, &mut image);
    }
    name_frame(prng, &mut image);
    image
}

/// The bytes and M of such an image.
pub fn frame_named(prng: &mut Prng) -> (Vec<u8>, u32) {
    let image = frame_named_parts(prng);
    (image.bytes(), image.m)
}

/// Bytes that are no image, or begin like one.
pub fn raw(prng: &mut Prng) -> (Vec<u8>, u32) {
    let length = prng.place(101);
    let mut bytes = prng.bytes(length);
    if prng.one_in(2) {
        for (byte, right) in bytes.iter_mut().zip(MAGIC) {
            *byte = right;
        }
    }
    (bytes, prng.between(1, 40))
}
