//! Cases that are counted through, not drawn: every combination of the edges of one rule.

mod images;
mod large;
pub mod rules;
mod runs;

use crate::cases::{self, Budget, Call, Case};
use crate::families::{Choices, Family};
use crate::images::{op, Image, Operand, Region, Row, FILLED, FRAME, UNDEFINED};
use crate::prng::Prng;

pub const FAMILIES: [Family<Case>; 30] = [
    Family { name: "every rule, edge words", make: runs::arithmetic },
    Family { name: "every carry in three bits", make: runs::carry },
    Family { name: "every access, edge address", make: runs::access },
    Family { name: "every width, edge bytes", make: runs::width },
    Family { name: "every jump", make: runs::jump },
    Family { name: "every output", make: runs::emit },
    Family { name: "every range, run", make: runs::range },
    Family { name: "every use of register 15", make: runs::frame_used },
    Family { name: "every op number", make: images::op_number },
    Family { name: "every row, edge fields", make: images::row_fields },
    Family { name: "every op with d 15 or 14", make: images::frame_named },
    Family { name: "every two header words", make: images::header },
    Family { name: "sizes at their limits", make: images::sizes },
    Family { name: "every region rule", make: images::region },
    Family { name: "every length of an image", make: images::image_length },
    Family { name: "every byte of an image", make: images::image_byte },
    Family { name: "every two refusals at once", make: images::two_refusals },
    Family { name: "every buffer length", make: runs::buffers },
    Family { name: "every report list length", make: runs::report_lists },
    Family { name: "every output list length", make: runs::output_lists },
    Family { name: "every count at its edges", make: runs::counts },
    Family { name: "large: every access", make: large::access },
    Family { name: "large: every way to the end", make: large::program },
    Family { name: "large: every index", make: large::index },
    Family { name: "large: every row", make: large::row },
    Family { name: "large: every region", make: large::region },
    Family { name: "large: every length", make: large::length },
    Family { name: "large: every buffer length", make: large::buffers },
    Family { name: "large: every A above 1", make: large::marks_above_1 },
    Family { name: "large: every other refusal", make: large::outgrown },
];

pub const M: u32 = 16;

/// Eight filled bytes, four undefined ones, four unaddressable ones.
pub fn small_image(prng: &mut Prng, rows: Vec<Row>) -> Image {
    let regions = vec![
        Region { start: 0, length: 8, kind: FILLED },
        Region { start: 8, length: 4, kind: UNDEFINED },
    ];
    Image::new(M, rows, regions, prng)
}

fn begun(prng: &mut Prng, image: &Image, budgets: &[u32]) -> Case {
    begun_from_bytes(prng, image.bytes(), image.m, budgets)
}

fn begun_from_bytes(prng: &mut Prng, bytes: Vec<u8>, m: u32, budgets: &[u32]) -> Case {
    let mut desk = cases::desk(prng, bytes, m);
    desk.a = prng.bytes(desk.a.len());
    let mut calls = vec![Call::Read, Call::Begin(cases::registers(prng, m))];
    calls.extend(budgets.iter().map(|&budget| Call::Run(Budget::Exactly(budget))));
    Case { desk, calls }
}

pub fn three_rows() -> Vec<Row> {
    let copy = Row::copy(1, Operand::Register(FRAME));
    vec![copy, Row::access(op::ST32, 1, FRAME, 0), Row::emit(FRAME, 7)]
}
