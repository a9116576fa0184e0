//! Drawn cases: fields of any legal image, fields damaged in one place or in several, buffers of any length.

use super::case::Case;
use super::spoiled::{lengthen, FAR_DATA, FAR_REGIONS, FAR_ROWS};
use crate::damage;
use crate::edges;
use crate::images::{Region, FILLED, MOST_DATA, MOST_MEMORY, MOST_REGIONS, MOST_ROWS, UNDEFINED};
use crate::large;
use crate::numbering::Kind;
use crate::parts::Parts;
use crate::prng::Prng;
use crate::programs::{self, Maker};

const LEGAL: [Maker; 9] = [
    programs::straight,
    programs::sums,
    programs::half_words,
    programs::frame_uses,
    programs::accesses,
    programs::ranges,
    programs::jumps,
    programs::legal,
    programs::loops,
];

pub const KINDS: [Kind<Case>; 13] = [
    Kind { name: "legal fields", share: 34, make: |p| of_parts(p, legal) },
    Kind { name: "largest image", share: 2, make: |p| of_parts(p, largest) },
    Kind { name: "largest image damaged", share: 2, make: |p| of_parts(p, largest_damaged) },
    Kind { name: "large fields", share: 3, make: |p| of_parts(p, large) },
    Kind { name: "large fields damaged", share: 3, make: |p| of_parts(p, large_damaged) },
    Kind { name: "fields outgrown", share: 3, make: |p| of_parts(p, outgrown) },
    Kind { name: "one part damaged", share: 14, make: |p| of_parts(p, one_damaged) },
    Kind { name: "two or three damaged", share: 14, make: |p| of_parts(p, damaged) },
    Kind { name: "d damaged to register 15", share: 8, make: |p| of_parts(p, frame_named) },
    Kind { name: "sizes damaged", share: 14, make: |p| of_parts(p, resized) },
    Kind { name: "sizes and parts damaged", share: 10, make: |p| of_parts(p, resized_damaged) },
    Kind { name: "lists beyond 16 bits", share: 1, make: |p| of_parts(p, far_lists) },
    Kind { name: "any words", share: 4, make: |p| of_parts(p, any_words) },
];

fn legal(prng: &mut Prng) -> Parts {
    prng.pick(&LEGAL)(prng).parts()
}

fn largest(prng: &mut Prng) -> Parts {
    programs::largest(prng).parts()
}

fn largest_damaged(prng: &mut Prng) -> Parts {
    let mut image = programs::largest(prng);
    damage::damage_parts(prng, &mut image);
    image.parts()
}

fn large(prng: &mut Prng) -> Parts {
    large::image(prng).parts()
}

fn large_damaged(prng: &mut Prng) -> Parts {
    let mut image = large::image(prng);
    damage::damage_parts(prng, &mut image);
    image.parts()
}

/// One size above its limit, or above what that was before.
fn outgrown(prng: &mut Prng) -> Parts {
    let mut image = damage::damaged_parts(prng, 0);
    large::outgrow(prng, &mut image);
    image.parts()
}

fn one_damaged(prng: &mut Prng) -> Parts {
    damage::damaged_parts(prng, 1).parts()
}

fn damaged(prng: &mut Prng) -> Parts {
    let count = prng.between(2, 3);
    damage::damaged_parts(prng, count).parts()
}

fn frame_named(prng: &mut Prng) -> Parts {
    damage::frame_named_parts(prng).parts()
}

fn resized(prng: &mut Prng) -> Parts {
    let mut parts = legal(prng);
    resize(prng, &mut parts);
    parts
}

fn resized_damaged(prng: &mut Prng) -> Parts {
    let mut parts = damage::damaged_parts(prng, 1).parts();
    for _ in 0..prng.between(1, 2) {
        resize(prng, &mut parts);
    }
    parts
}

/// One cause of refusal 3; what is added is as legal as it can be.
fn resize(prng: &mut Prng, parts: &mut Parts) {
    match prng.below(9) {
        0 => parts.m = 0,
        1 => {
            let any = prng.between(MOST_MEMORY + 1, u32::MAX);
            parts.m = prng.pick(&[MOST_MEMORY + 1, 0x1_0000 | parts.m, u32::MAX, any]);
        }
        2 => parts.instructions.clear(),
        3 => add_rows(prng, parts),
        4 => add_regions(prng, parts),
        5 => {
            let most = prng.between(MOST_DATA + 1, MOST_DATA + 20);
            parts.data.resize(most as usize, 0);
        }
        6 => parts.instructions.push(prng.word()),
        7 => parts.regions.push(edges::word(prng)),
        _ => parts.regions.extend([edges::word(prng), prng.between(0, 2)]),
    }
}

/// More rows than there may be.
fn add_rows(prng: &mut Prng, parts: &mut Parts) {
    let [n, ..] = parts.sizes();
    for _ in n as u32..MOST_ROWS + prng.between(1, 3) {
        let row = programs::legal_row(prng, parts.m.clamp(1, MOST_MEMORY), MOST_ROWS);
        parts.instructions.extend(row.words());
    }
}

/// More regions than there may be, behind those that are there, with their data.
fn add_regions(prng: &mut Prng, parts: &mut Parts) {
    let [_, r, _] = parts.sizes();
    parts.m = MOST_MEMORY;
    let mut start = parts.regions.chunks(3).last().map_or(0, |last| last[0]);
    for _ in r as u32..MOST_REGIONS + prng.between(1, 3) {
        start = start.wrapping_add(prng.between(8, 40));
        let kind = prng.pick(&[FILLED, UNDEFINED]);
        parts.regions.extend(Region { start, length: 1, kind }.words());
        if kind == FILLED {
            parts.data.push(prng.byte());
        }
    }
}

/// One list far too long.
fn far_lists(prng: &mut Prng) -> Parts {
    let mut parts = damage::damaged_parts(prng, 0).parts();
    match prng.below(3) {
        0 => lengthen(&mut parts, prng.pick(&FAR_ROWS), 0, 0),
        1 => lengthen(&mut parts, 0, prng.pick(&FAR_REGIONS), 0),
        _ => lengthen(&mut parts, 0, 0, prng.pick(&FAR_DATA)),
    }
    parts
}

/// Lists of words that need not be entries of anything.
fn any_words(prng: &mut Prng) -> Parts {
    let [rows, regions, data] = [9, 10, 20].map(|most| prng.place(most));
    Parts {
        m: edges::word(prng),
        instructions: (0..rows).map(|_| edges::word(prng)).collect(),
        regions: (0..regions).map(|_| edges::word(prng)).collect(),
        data: prng.bytes(data),
    }
}

/// As long as the image, or not: any length, about the end of a part of it, or longer.
fn room(prng: &mut Prng, parts: &Parts) -> usize {
    let length = parts.length();
    match prng.below(12) {
        0 => 0,
        1 => length - 1,
        2 => prng.place(length),
        3 => prng.pick(&parts.ends()) + prng.place(3) - 1,
        4 => length + 1,
        5 => length + prng.place(64),
        6 => 2 * length + prng.place(64),
        _ => length,
    }
}

fn of_parts(prng: &mut Prng, maker: fn(&mut Prng) -> Parts) -> Case {
    let parts = maker(prng);
    let room = room(prng, &parts);
    Case::new(parts, room, prng)
}
