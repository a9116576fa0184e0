//! Counted cases of an image: the rules by which its rows, header, sizes and regions are refused.

use super::{begun, begun_from_bytes, rules, small_image, three_rows, Choices, M};
use crate::cases::{self, Budget, Call, Case, Desk};
use crate::damage::header_edges;
use crate::edges;
use crate::images::{op, set_word, Image, FRAME, HEADER_BYTES, MOST_MEMORY, MOST_ROWS};
use crate::prng::Prng;

pub fn op_number(choices: &mut Choices, prng: &mut Prng) -> Case {
    let image = rules::op_number(choices, prng);
    begun(prng, &image, &[3])
}

pub fn row_fields(choices: &mut Choices, prng: &mut Prng) -> Case {
    let image = rules::row_fields(choices, prng);
    begun(prng, &image, &[1, 4])
}

pub fn sizes(choices: &mut Choices, prng: &mut Prng) -> Case {
    let image = rules::sizes(choices, prng);
    begun(prng, &image, &[1, MOST_ROWS])
}

pub fn region(choices: &mut Choices, prng: &mut Prng) -> Case {
    let image = rules::region(choices, prng);
    begun(prng, &image, &[5])
}

/// Two header words, or one when both places are the same.
pub fn header(choices: &mut Choices, prng: &mut Prng) -> Case {
    let mut bytes = rules::shaped(choices, prng).bytes();
    for _ in 0..2 {
        let at = 4 * choices.below(HEADER_BYTES / 4);
        let word = choices.pick(&header_edges(&bytes, at));
        set_word(&mut bytes, at, word);
    }
    begun_from_bytes(prng, bytes, M, &[5])
}

pub fn image_length(choices: &mut Choices, prng: &mut Prng) -> Case {
    let mut bytes = small_image(prng, three_rows()).bytes();
    let length = choices.below(bytes.len() + 10);
    bytes.resize(length, 0);
    begun_from_bytes(prng, bytes, M, &[5])
}

pub fn image_byte(choices: &mut Choices, prng: &mut Prng) -> Case {
    let mut bytes = small_image(prng, three_rows()).bytes();
    let at = choices.below(bytes.len());
    bytes[at] = match choices.below(6) {
        0 => 0,
        1 => 255,
        2 => bytes[at] ^ 1,
        3 => bytes[at] ^ 0x80,
        4 => bytes[at].wrapping_add(1),
        _ => bytes[at].wrapping_sub(1),
    };
    begun_from_bytes(prng, bytes, M, &[5])
}

/// Causes of refusals, from a part of the image to the state: see the three functions below.
const CAUSES: usize = 19;
/// The first cause that is none of the image's.
pub const CAUSES_OF_DESK: usize = 13;

pub fn spoil_part(image: &mut Image, cause: usize) {
    match cause {
        0 => image.m = MOST_MEMORY + 1,
        1 => image.rows[0].op = op::COUNT as u8,
        2 => image.rows[2].d = 16,
        3 => image.rows[0].d = FRAME,
        4 | 5 => {
            if let Some(region) = image.regions.get_mut(cause - 4) {
                region.kind = 3;
            }
        }
        6 => image.data.push(0),
        _ => {}
    }
}

pub fn spoil_bytes(bytes: &mut Vec<u8>, cause: usize) {
    match cause {
        7 => bytes.truncate(HEADER_BYTES - 1),
        8 => bytes[0] ^= 1,
        9 => bytes.push(0),
        10..=12 => {
            if let Some(offset) = bytes.get_mut([12, 20, 28][cause - 10]) {
                *offset = offset.wrapping_add(1);
            }
        }
        _ => {}
    }
}

fn spoil_desk(desk: &mut Desk, cause: usize) {
    match cause {
        CAUSES_OF_DESK => desk.mem.push(0),
        14 => desk.lists.reports.push(0),
        15 => desk.state.steps = edges::MOST_STEPS,
        16 => desk.a[3] = 2,
        17 => desk.state.index = u32::MAX,
        _ => {}
    }
}

/// Two causes, one, or none: the lowest number and the lowest index are due.
pub fn two_refusals(choices: &mut Choices, prng: &mut Prng) -> Case {
    let causes = [choices.below(CAUSES), choices.below(CAUSES)];
    let mut image = rules::shaped(choices, prng);
    causes.iter().for_each(|&cause| spoil_part(&mut image, cause));
    let mut bytes = image.bytes();
    causes.iter().for_each(|&cause| spoil_bytes(&mut bytes, cause));
    let mut desk = cases::desk(prng, bytes, M);
    causes.iter().for_each(|&cause| spoil_desk(&mut desk, cause));
    let run = Call::Run(Budget::Exactly(2));
    let begin = Call::Begin(cases::registers(prng, M));
    Case { desk, calls: vec![Call::Read, run, begin, run] }
}

/// Register 15 or 14 as d of an op, with one of each cause besides.
pub fn frame_named(choices: &mut Choices, prng: &mut Prng) -> Case {
    let mut image = rules::frame_named(choices, prng);
    let cause = choices.below(CAUSES_OF_DESK + 1);
    spoil_part(&mut image, cause);
    let mut bytes = image.bytes();
    spoil_bytes(&mut bytes, cause);
    begun_from_bytes(prng, bytes, M, &[1, 1, 1])
}
