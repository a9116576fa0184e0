//! Counted cases: every gate and every cause of refusal 13 at its edges.

use super::case::Case;
use super::causes::{MOST_OUTPUTS, MOST_WORDS};
use super::values::{self, EDGE_WORDS, ENDS, GATES};
use crate::families::{Choices, Family};
use crate::prng::Prng;

pub const FAMILIES: [Family<Case>; 12] = [
    Family { name: "every value at every port", make: value_at_port },
    Family { name: "every value in a list", make: value_in_list },
    Family { name: "every exponent", make: exponent },
    Family { name: "every word about an end", make: about_end },
    Family { name: "every two outputs", make: two_outputs },
    Family { name: "every output of the most", make: output_of_most },
    Family { name: "every length of the list", make: list_length },
    Family { name: "lists beyond 16 bits", make: far_list },
    Family { name: "every number", make: any_number },
    Family { name: "a wrong port, few outputs", make: wrong_port_of_few },
    Family { name: "a wrong port, most outputs", make: wrong_port_of_most },
    Family { name: "every two causes and more", make: causes },
];

/// Port words: all there are, and such as there are not, some of whose low bits would do.
pub const PORTS: [u32; 8] = [0, 1, 2, 3, 4, 5, 6, 7];
pub const WRONG_PORTS: [u32; 14] = [
    8,
    9,
    15,
    16,
    0xFF,
    0x100,
    0x102,
    0x1_0000,
    0x1_0001,
    0x3F80_0000,
    0x8000_0000,
    0x8000_0007,
    0xFFFF_FFF8,
    0xFFFF_FFFF,
];
/// Some of them.
const FEW_WRONG_PORTS: [u32; 6] = [8, 0x100, 0x1_0002, 0x8000_0000, 0xFFFF_FFF8, 0xFFFF_FFFF];

/// So many outputs at any ports with any values.
pub fn outputs(prng: &mut Prng, count: usize) -> Vec<u32> {
    let mut output = || {
        let port = prng.below(8);
        [port, values::drawn(prng, port)]
    };
    (0..count).flat_map(|_| output()).collect()
}

/// So many words of outputs, the last one's value left out if they are odd.
fn words(prng: &mut Prng, count: usize) -> Vec<u32> {
    let mut words = outputs(prng, count.div_ceil(2));
    words.truncate(count);
    words
}

/// Numbers below, at, beside and beyond the end of so many words: about the outputs and about the words, and
/// such that fewer bits of them, or of twice as much, would do.
pub fn numbers(words: usize) -> [usize; 20] {
    let outputs = words / 2;
    let last = outputs.saturating_sub(1);
    let far = |bit: u32| (1_u64 << bit) as usize;
    [
        0,
        outputs / 2,
        last,
        outputs,
        outputs + 1,
        words.saturating_sub(1),
        words,
        words + 1,
        far(8),
        far(8) + last,
        far(16),
        far(16) + last,
        far(31),
        far(32) - 1,
        far(32),
        far(32) + last,
        far(63),
        far(63) + last,
        usize::MAX - last,
        usize::MAX,
    ]
}

fn pick_edge(choices: &mut Choices) -> u32 {
    values::edge(choices.below(EDGE_WORDS))
}

fn value_at_port(choices: &mut Choices, prng: &mut Prng) -> Case {
    let port = choices.pick(&[&PORTS[..], &WRONG_PORTS].concat());
    Case::new(vec![port, pick_edge(choices)], choices.pick(&[0, 1]), prng)
}

/// The first, the middle and the last output of short lists and of the longest.
fn value_in_list(choices: &mut Choices, prng: &mut Prng) -> Case {
    let count = choices.pick(&[2, 3, 5, MOST_OUTPUTS - 1, MOST_OUTPUTS]);
    let number = choices.pick(&[0, count / 2, count - 1]);
    let mut list = outputs(prng, count);
    list[2 * number] = choices.pick(&PORTS);
    list[2 * number + 1] = pick_edge(choices);
    Case::new(list, number, prng)
}

/// Every sign and exponent with a few of the bits below.
fn exponent(choices: &mut Choices, prng: &mut Prng) -> Case {
    let port = choices.pick(&GATES);
    let upper = (choices.below(512) as u32) << 23;
    let lower =
        choices.pick(&[0, 1, 0x1F_FFFF, 0x20_0000, 0x20_0001, 0x40_0000, 0x7A_0000, 0x7F_FFFF]);
    Case::new(vec![port, upper | lower], 0, prng)
}

const ABOUT: usize = 40;

fn about_end(choices: &mut Choices, prng: &mut Prng) -> Case {
    let port = choices.pick(&GATES);
    let end = choices.pick(&ENDS).wrapping_sub(ABOUT as u32);
    let value = end.wrapping_add(choices.below(2 * ABOUT + 1) as u32);
    Case::new(vec![port, value], 0, prng)
}

/// One may pass where the other does not, or at the other's port alone.
fn two_outputs(choices: &mut Choices, prng: &mut Prng) -> Case {
    let [first, second] = [0; 2].map(|_| choices.pick(&[0, 1, 2, 3, 7, 8]));
    let few = [0, 1, 7, 8, 0x3F80_0000, 0x4280_0000, 0xBF80_0000, 0x7FC0_0000];
    let [x, y] = [0; 2].map(|_| choices.pick(&few));
    Case::new(vec![first, x, second, y], choices.pick(&[0, 1, 2, 3, 4]), prng)
}

fn output_of_most(choices: &mut Choices, prng: &mut Prng) -> Case {
    let list = outputs(prng, MOST_OUTPUTS);
    Case::new(list, choices.below(MOST_OUTPUTS + 4), prng)
}

/// Few words, about the most, and some multiples of these.
fn list_length(choices: &mut Choices, prng: &mut Prng) -> Case {
    let most = MOST_WORDS;
    let many = [254, 255, 256, 257, 258, 2 * most - 2, 2 * most, 2 * most + 1, 2 * most + 2];
    let count = match choices.below(20 + 16 + many.len()) {
        few if few < 20 => few,
        about if about < 36 => most - 8 + (about - 20),
        place => many[place - 36],
    };
    let list = words(prng, count);
    Case::new(list, choices.pick(&numbers(count)), prng)
}

/// Words of lists of which the low 16 bits would do.
pub const FAR: [usize; 6] = [0x1_0000, 0x1_0001, 0x1_0002, 0x1_0004, 0x1_0200, 0x2_0002];

fn far_list(choices: &mut Choices, prng: &mut Prng) -> Case {
    let count = choices.pick(&FAR);
    let pair = [choices.pick(&[0, 2, 5]), 0x3F80_0000];
    let list = pair.into_iter().cycle().take(count).collect();
    Case::new(list, choices.pick(&[0, 1, count / 2 - 1, count / 2]), prng)
}

/// Each number beside lists in which every output passes at its own port.
fn any_number(choices: &mut Choices, prng: &mut Prng) -> Case {
    let count = choices.pick(&[0, 1, 2, 3, 4, 127, 128, 255, MOST_OUTPUTS]);
    let port = choices.pick(&[0, 1, 2, 3]);
    let list = (0..count).flat_map(|_| [port, values::inside(prng, port)]).collect();
    Case::new(list, choices.pick(&numbers(2 * count)), prng)
}

/// One port word of so many outputs that is none, whichever output is asked for.
fn wrong_port(choices: &mut Choices, prng: &mut Prng, count: usize, place: usize) -> Case {
    let mut list = outputs(prng, count);
    list[2 * place] = choices.pick(&FEW_WRONG_PORTS);
    Case::new(list, choices.pick(&numbers(2 * count)), prng)
}

fn wrong_port_of_few(choices: &mut Choices, prng: &mut Prng) -> Case {
    let (count, place) = (choices.pick(&[1, 2, 3, 5, 8]), choices.below(8));
    wrong_port(choices, prng, count, place % count)
}

fn wrong_port_of_most(choices: &mut Choices, prng: &mut Prng) -> Case {
    let place = choices.below(MOST_OUTPUTS);
    wrong_port(choices, prng, MOST_OUTPUTS, place)
}

/// Lengths, port words and numbers that are right and wrong, all at once.
fn causes(choices: &mut Choices, prng: &mut Prng) -> Case {
    let most = MOST_WORDS;
    let count = choices.pick(&[1, 2, 3, 6, 7, most - 1, most, most + 1, most + 2, 2 * most + 1]);
    let mut list = words(prng, count);
    let last = (count - 1) / 2;
    let place = choices.pick(&[None, Some(0), Some(last / 2), Some(last)]);
    let wrong = choices.pick(&FEW_WRONG_PORTS);
    if let Some(place) = place {
        list[2 * place] = wrong;
    }
    Case::new(list, choices.pick(&numbers(count)), prng)
}
