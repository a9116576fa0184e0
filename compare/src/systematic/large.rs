//! Counted cases of large images: what lies beside the limits of document 02's request L5, and beside those
//! that were the limits before it, where a forgotten one shows.

use super::images::{spoil_bytes, spoil_part, CAUSES_OF_DESK};
use super::runs::{access_of, buffers_of, one_step_of};
use super::{begun, begun_from_bytes, rules, small_image, Choices};
use crate::cases::{Budget, Call, Case};
use crate::images::{
    op, Image, Operand, Row, FORMER_BYTES, FORMER_DATA, FORMER_MEMORY, FORMER_ROWS, FRAME,
    MOST_DATA, MOST_MEMORY, MOST_REGIONS, MOST_ROWS,
};
use crate::prng::Prng;

/// Numbers of rows at and beside what N could be before and can be now; the last is too many.
const LENGTHS: [u32; 6] =
    [FORMER_ROWS - 1, FORMER_ROWS, FORMER_ROWS + 1, MOST_ROWS - 1, MOST_ROWS, MOST_ROWS + 1];

/// Numbers of bytes, likewise; all can be.
const MEMORIES: [u32; 4] = [FORMER_MEMORY, FORMER_MEMORY + 1, MOST_MEMORY - 1, MOST_MEMORY];

/// Loads and stores about the end of what memory could be before, and about its end.
pub fn access(choices: &mut Choices, prng: &mut Prng) -> Case {
    let m = choices.pick(&[FORMER_MEMORY, FORMER_MEMORY + 1, MOST_MEMORY]);
    let end = choices.pick(&[FORMER_MEMORY, m]);
    let address = end - 4 + choices.below(6) as u32;
    let base = choices.pick(&[0, address]);
    let v = choices.pick(&[0, 0x8000_0000]);
    let d = choices.pick(&[1, 2]);
    access_of(choices, prng, m, [base, address], d, v)
}

/// A program that jumps ahead, goes on to its last row and ends behind it, in it or never.
pub fn program(choices: &mut Choices, prng: &mut Prng) -> Case {
    let n = choices.pick(&LENGTHS);
    let to = choices.pick(&[3, FORMER_ROWS - 1, FORMER_ROWS, n - 2, n - 1]).min(n - 1);
    let last = choices.pick(&[
        Row::copy(3, Operand::Register(2)),
        Row::stop(),
        Row::emit(2, 7),
        Row::jump(1, 2),
        Row::jump(1, n - 1),
        Row::access(op::ST32, FRAME, 1, MOST_MEMORY - 5),
    ]);
    let mut rows = vec![Row::sum(op::ADD, 2, 2, Operand::Literal(1)); n as usize];
    rows[0] = Row::copy(1, Operand::Literal(1));
    rows[1] = Row::copy(2, Operand::Literal(0));
    rows[2] = Row::jump(1, to);
    rows[n as usize - 1] = last;
    let image = Image { m: MOST_MEMORY, ..small_image(prng, rows) };
    begun(prng, &image, &[3, 1, 1, 2 * MOST_ROWS, 1])
}

/// Runs from every index beside the limits and the end: each stop reason, a report, an output.
pub fn index(choices: &mut Choices, prng: &mut Prng) -> Case {
    let n =
        choices.pick(&[FORMER_ROWS - 1, FORMER_ROWS, FORMER_ROWS + 1, MOST_ROWS - 1, MOST_ROWS]);
    let index = choices.pick(&LENGTHS);
    let row = choices.pick(&[
        Row::copy(2, Operand::Register(1)),
        Row::stop(),
        Row::emit(1, 3),
        Row::access(op::LD32, 2, 1, 0),
        Row::jump(1, 0),
    ]);
    let v = choices.pick(&[0, 0x8000_0000]);
    let places = choices.below(2);
    let image = small_image(prng, vec![row; n as usize]);
    let mut case = one_step_of(prng, &image, &[(1, 5, v)]);
    case.desk.state.index = index;
    case.desk.lists.outputs.resize(2 * places, 0);
    case.calls.insert(1, Call::Run(Budget::Exactly(0)));
    case
}

pub fn row(choices: &mut Choices, prng: &mut Prng) -> Case {
    let image = rules::long(choices, prng);
    begun(prng, &image, &[1])
}

pub fn region(choices: &mut Choices, prng: &mut Prng) -> Case {
    let image = rules::large_region(choices, prng);
    begun(prng, &image, &[1])
}

/// Large images and the largest, with a byte more or less, or of the length that was the most before.
pub fn length(choices: &mut Choices, prng: &mut Prng) -> Case {
    let n = choices.pick(&[FORMER_ROWS, FORMER_ROWS + 1, MOST_ROWS - 1, MOST_ROWS]);
    let r = choices.pick(&[MOST_REGIONS - 1, MOST_REGIONS]);
    let d = choices.pick(&[FORMER_DATA, FORMER_DATA + 1, MOST_DATA - 1, MOST_DATA]);
    let mut bytes = rules::of_sizes(n, r, d, prng).bytes();
    let length = bytes.len();
    let lengths = [length, length - 1, length + 1, FORMER_BYTES, FORMER_BYTES + 1, 2 * length];
    bytes.resize(choices.pick(&lengths), 0);
    begun_from_bytes(prng, bytes, MOST_MEMORY, &[1])
}

pub fn buffers(choices: &mut Choices, prng: &mut Prng) -> Case {
    let m = choices.pick(&MEMORIES);
    let image = Image { m, ..small_image(prng, vec![Row::stop()]) };
    buffers_of(choices, prng, &image, &[m, m - 1, m + 1, FORMER_MEMORY])
}

/// An A byte above 1 at each place beside the ends, or none.
pub fn marks_above_1(choices: &mut Choices, prng: &mut Prng) -> Case {
    let m = choices.pick(&MEMORIES);
    let place = choices.pick(&[None, Some(FORMER_MEMORY - 1), Some(FORMER_MEMORY), Some(m - 1)]);
    let image = Image { m, ..small_image(prng, vec![Row::copy(2, Operand::Register(1))]) };
    let above = choices.pick(&[2, 255]);
    let mut case = one_step_of(prng, &image, &[]);
    if let Some(mark) = place.and_then(|place| case.desk.a.get_mut(place as usize)) {
        *mark = above;
    }
    case
}

/// Sizes that were refused with 3 before, with one cause of each refusal besides: what comes first now.
pub fn outgrown(choices: &mut Choices, prng: &mut Prng) -> Case {
    let mut image = rules::outgrown(choices, prng);
    let cause = choices.below(CAUSES_OF_DESK + 1);
    spoil_part(&mut image, cause);
    let mut bytes = image.bytes();
    spoil_bytes(&mut bytes, cause);
    begun_from_bytes(prng, bytes, image.m, &[1])
}
