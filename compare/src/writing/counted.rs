//! Counted cases: every rule of writing at its edges.

use super::case::Case;
use super::spoiled::{lengthen, set_byte, FAR_DATA, FAR_REGIONS, FAR_ROWS, SPOILS};
use crate::edges;
use crate::families::{Choices, Family};
use crate::images::{
    op, Operand, Region, Row, FILLED, FORMER_DATA, FORMER_MEMORY, FORMER_ROWS, FRAME, MOST_DATA,
    MOST_MEMORY, MOST_REGIONS, MOST_ROWS, UNDEFINED,
};
use crate::parts::{Parts, REGION_WORDS, ROW_WORDS};
use crate::prng::Prng;
use crate::systematic::{rules, small_image, three_rows, M};

pub const FAMILIES: [Family<Case>; 18] = [
    Family { name: "every op number", make: op_number },
    Family { name: "every row, edge fields", make: row_fields },
    Family { name: "every op with d 15 or 14", make: frame_named },
    Family { name: "every jump", make: jump },
    Family { name: "every range", make: range },
    Family { name: "every M", make: memory },
    Family { name: "sizes at their limits", make: sizes },
    Family { name: "every length of the lists", make: list_lengths },
    Family { name: "lists beyond 16 bits", make: far_lists },
    Family { name: "every region rule", make: region },
    Family { name: "every instruction at fault", make: instruction_at_fault },
    Family { name: "every region at fault", make: region_at_fault },
    Family { name: "every three refusals", make: three_refusals },
    Family { name: "every buffer length", make: buffer_length },
    Family { name: "a buffer to each part", make: buffer_to_part },
    Family { name: "large: every row", make: large_row },
    Family { name: "large: every region", make: large_region },
    Family { name: "large: every other refusal", make: outgrown },
];

/// How much longer a buffer is than the image: exactly as long, a byte short, a byte longer, empty.
const ROOMS: [isize; 4] = [0, -1, 1, isize::MIN];
const EXACT_OR_SHORT: [isize; 2] = [0, -1];

fn op_number(choices: &mut Choices, prng: &mut Prng) -> Case {
    let image = rules::op_number(choices, prng);
    Case::beside(image.parts(), choices.pick(&EXACT_OR_SHORT), prng)
}

fn row_fields(choices: &mut Choices, prng: &mut Prng) -> Case {
    let image = rules::row_fields(choices, prng);
    Case::beside(image.parts(), 0, prng)
}

/// With one of each cause besides.
fn frame_named(choices: &mut Choices, prng: &mut Prng) -> Case {
    let mut parts = rules::frame_named(choices, prng).parts();
    choices.pick(&SPOILS)(&mut parts);
    Case::beside(parts, choices.pick(&EXACT_OR_SHORT), prng)
}

/// Where a jump may go: below N, which is the number of entries and not of words.
fn jump(choices: &mut Choices, prng: &mut Prng) -> Case {
    let former = FORMER_ROWS;
    let n = choices.pick(&[1, 2, 3, 256, former, former + 1, MOST_ROWS - 1, MOST_ROWS]);
    let place = choices.pick(&[0, n / 2, n - 1]);
    let beside = [0, n / 2, n.saturating_sub(2), n - 1, n, n + 1, 2 * n - 1, 2 * n, 8 * n];
    let far = [former - 1, former, MOST_ROWS, 0x1_0000, u32::MAX];
    let to = choices.pick(&[&beside[..], &far].concat());
    let mut rows = vec![Row::stop(); n as usize];
    rows[place as usize] = Row::jump(FRAME, to);
    let image = small_image(prng, rows);
    Case::beside(image.parts(), choices.pick(&EXACT_OR_SHORT), prng)
}

fn range(choices: &mut Choices, prng: &mut Prng) -> Case {
    let image = rules::range(choices, prng);
    Case::beside(image.parts(), choices.pick(&EXACT_OR_SHORT), prng)
}

/// M beside the regions' end, beside its limits and what the upper one was before, and where fewer of its bits would do.
fn memory(choices: &mut Choices, prng: &mut Prng) -> Case {
    let mut parts = rules::shaped(choices, prng).parts();
    let most = MOST_MEMORY;
    let ends = [&edges::counts(FORMER_MEMORY, most)[..], &[7, 8, 11, 12, 13, M]].concat();
    let wide = [2 * most, 0x1_0000, 0x1_0000 | M, 0x8000_0000, 0x8000_0000 | M, u32::MAX];
    parts.m = choices.pick(&[&ends[..], &wide].concat());
    Case::beside(parts, choices.pick(&ROOMS), prng)
}

/// All sizes at and beside their limits, with a part of an entry or none.
fn sizes(choices: &mut Choices, prng: &mut Prng) -> Case {
    let mut parts = rules::sizes(choices, prng).parts();
    let (rows, regions, more) =
        choices.pick(&[(0, 0, 0), (0, 0, -1), (1, 0, 0), (0, 1, 0), (0, 2, 0), (1, 2, -1)]);
    parts.instructions.extend(prng.words(rows));
    parts.regions.extend(prng.words(regions));
    Case::beside(parts, more, prng)
}

/// Regions of one byte each, one behind another, every second one filled.
fn single_bytes(count: usize) -> Vec<u32> {
    let kind = |k: u32| if k.is_multiple_of(2) { FILLED } else { UNDEFINED };
    let regions = (0..).map(|start| Region { start, length: 1, kind: kind(start) });
    regions.flat_map(Region::words).take(count).collect()
}

/// The filled lengths of such.
fn filled_bytes(words: usize) -> usize {
    (words / REGION_WORDS).div_ceil(2)
}

/// Every number of words in both lists, few and about the most, with data that fit, lack or are too many.
fn list_lengths(choices: &mut Choices, prng: &mut Prng) -> Case {
    let about =
        |n: u32| [-1, 0, 1, 2].map(|more| (ROW_WORDS * n as usize).saturating_add_signed(more));
    let most_regions = REGION_WORDS * MOST_REGIONS as usize;
    let rows = [&[0, 1, 2, 3, 4, 5], &about(FORMER_ROWS)[..], &about(MOST_ROWS)].concat();
    let rows = choices.pick(&rows);
    let few = [0, 1, 2, 3, 4, 5, 6, 7, 8, 9];
    let many = [-3, -2, -1, 0, 1, 2, 3].map(|more| most_regions.saturating_add_signed(more));
    let regions = choices.pick(&[&few[..], &many].concat());
    let data = filled_bytes(regions).saturating_add_signed(choices.pick(&[0, 1, -1]));
    let row = Row::copy(1, Operand::Literal(prng.word())).words();
    let parts = Parts {
        m: choices.pick(&[MOST_REGIONS, MOST_REGIONS + 1, MOST_MEMORY]),
        instructions: row.into_iter().cycle().take(rows).collect(),
        regions: single_bytes(regions),
        data: prng.bytes(data),
    };
    Case::beside(parts, choices.pick(&EXACT_OR_SHORT), prng)
}

/// Lists so much longer than they may be that the low bits of their length are as they should be.
fn far_lists(choices: &mut Choices, prng: &mut Prng) -> Case {
    let mut parts = rules::shaped(choices, prng).parts();
    let [rows, regions] = [choices.pick(&FAR_ROWS), choices.pick(&FAR_REGIONS)];
    lengthen(&mut parts, rows, regions, choices.pick(&FAR_DATA));
    Case::beside(parts, choices.pick(&EXACT_OR_SHORT), prng)
}

fn region(choices: &mut Choices, prng: &mut Prng) -> Case {
    let image = rules::region(choices, prng);
    Case::beside(image.parts(), choices.pick(&EXACT_OR_SHORT), prng)
}

/// Each place of the longest program: a row that is none, one whose result goes to register 15, or a jump
/// past the end; the first with the last row at fault, too.
fn instruction_at_fault(choices: &mut Choices, prng: &mut Prng) -> Case {
    let place = choices.below(MOST_ROWS as usize);
    let (row, is_alone) = choices.pick(&[
        (Row { op: op::COUNT as u8, ..Row::stop() }, false),
        (Row::copy(FRAME, Operand::Register(1)), true),
        (Row::jump(1, MOST_ROWS), true),
    ]);
    let mut rows = vec![Row::jump(1, MOST_ROWS - 1); MOST_ROWS as usize];
    rows[place] = row;
    let mut parts = small_image(prng, rows).parts();
    if !is_alone {
        set_byte(&mut parts.instructions, MOST_ROWS as usize - 1, 3, 1);
    }
    Case::beside(parts, 0, prng)
}

/// Each place of the most regions: one word of it wrong; alone, or with the last region at fault, too.
fn region_at_fault(choices: &mut Choices, prng: &mut Prng) -> Case {
    let most = MOST_REGIONS as usize;
    let place = choices.below(most);
    let (k, word) = choices.pick(&[
        (0, MOST_REGIONS + 1),
        (0, u32::MAX),
        (1, 0),
        (1, MOST_REGIONS + 1),
        (1, u32::MAX),
        (2, 0),
        (2, 3),
    ]);
    let mut regions = single_bytes(REGION_WORDS * most);
    regions[REGION_WORDS * place + k] = word;
    if choices.below(2) == 1 {
        regions[REGION_WORDS * (most - 1) + 1] = 0;
    }
    let data = prng.bytes(most / 2);
    let instructions = Row::stop().words().to_vec();
    Case::beside(Parts { m: MOST_REGIONS, instructions, regions, data }, 0, prng)
}

/// Three causes, two, one or none, with room or a byte short: the lowest number and index are due.
fn three_refusals(choices: &mut Choices, prng: &mut Prng) -> Case {
    let mut parts = rules::shaped(choices, prng).parts();
    for _ in 0..3 {
        choices.pick(&SPOILS)(&mut parts);
    }
    Case::beside(parts, choices.pick(&EXACT_OR_SHORT), prng)
}

/// Every length up to some more than that of the image.
fn buffer_length(choices: &mut Choices, prng: &mut Prng) -> Case {
    let longest = small_image(prng, three_rows()).parts().length();
    let parts = rules::shaped(choices, prng).parts();
    Case::new(parts, choices.below(longest + 12), prng)
}

/// Buffers that end about the end of each part of small, large and the largest images, or far behind.
fn buffer_to_part(choices: &mut Choices, prng: &mut Prng) -> Case {
    let n = choices.pick(&[1, 2, FORMER_ROWS, FORMER_ROWS + 1, MOST_ROWS - 1, MOST_ROWS]);
    let (r, d) = choices.pick(&[
        (0, 0),
        (1, 0),
        (1, 1),
        (2, 200),
        (MOST_REGIONS, 0),
        (MOST_REGIONS, FORMER_DATA),
        (MOST_REGIONS, FORMER_DATA + 1),
        (MOST_REGIONS, MOST_DATA - 1),
        (MOST_REGIONS, MOST_DATA),
    ]);
    let parts = rules::of_sizes(n, r, d, prng).parts();
    let near = [-5, -4, -3, -2, -1, 0, 1, 2, 3, 4, 5, 64, 5000];
    let end = choices.pick(&[&[0], &parts.ends()[..]].concat());
    let room = end.saturating_add_signed(choices.pick(&near));
    Case::new(parts, room, prng)
}

fn large_row(choices: &mut Choices, prng: &mut Prng) -> Case {
    let image = rules::long(choices, prng);
    Case::beside(image.parts(), choices.pick(&EXACT_OR_SHORT), prng)
}

fn large_region(choices: &mut Choices, prng: &mut Prng) -> Case {
    let image = rules::large_region(choices, prng);
    Case::beside(image.parts(), choices.pick(&EXACT_OR_SHORT), prng)
}

/// Sizes that were refused with 3 before, with one of each cause besides.
fn outgrown(choices: &mut Choices, prng: &mut Prng) -> Case {
    let mut parts = rules::outgrown(choices, prng).parts();
    choices.pick(&SPOILS)(&mut parts);
    Case::beside(parts, choices.pick(&EXACT_OR_SHORT), prng)
}
