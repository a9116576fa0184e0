//! Drawn cases: outputs of any kind, lists damaged in one place or in several, any number.

use super::case::Case;
use super::causes::{HIGHEST_PORT, MOST_OUTPUTS, MOST_WORDS};
use super::counted::{numbers, outputs, FAR, WRONG_PORTS};
use super::values;
use crate::numbering::Kind;
use crate::prng::Prng;

pub const KINDS: [Kind<Case>; 7] = [
    Kind { name: "one at a gate", share: 40, make: one_at_gate },
    Kind { name: "one of the outputs", share: 20, make: one_of_outputs },
    Kind { name: "number beside the list", share: 8, make: number_beside },
    Kind { name: "one cause", share: 16, make: |p| damaged(p, 1) },
    Kind { name: "two or three causes", share: 12, make: several },
    Kind { name: "lists beyond 16 bits", share: 1, make: far_list },
    Kind { name: "any words", share: 3, make: any_words },
];

/// How many outputs there are: few, many, about the most.
fn count(prng: &mut Prng) -> usize {
    match prng.below(6) {
        0 => 1,
        1 => prng.place(MOST_OUTPUTS + 1),
        2 => MOST_OUTPUTS - prng.place(3),
        _ => 1 + prng.place(8),
    }
}

/// One of so many, most often the first or the last.
fn place(prng: &mut Prng, count: usize) -> usize {
    match prng.below(4) {
        0 => 0,
        1 => count.saturating_sub(1),
        _ => prng.place(count.max(1)),
    }
}

/// A value of any class at port 0, 1 or 2.
fn one_at_gate(prng: &mut Prng) -> Case {
    let count = 1 + prng.place(6);
    let (mut list, number) = (outputs(prng, count), place(prng, count));
    let port = prng.below(3);
    list[2 * number] = port;
    list[2 * number + 1] = values::drawn(prng, port);
    Case::new(list, number, prng)
}

fn one_of_outputs(prng: &mut Prng) -> Case {
    let count = count(prng).max(1);
    let (list, number) = (outputs(prng, count), place(prng, count));
    Case::new(list, number, prng)
}

fn number_beside(prng: &mut Prng) -> Case {
    let count = count(prng);
    let list = outputs(prng, count);
    Case::new(list, prng.pick(&numbers(2 * count)), prng)
}

/// A list with so many causes of refusal, some of which may be the same.
fn damaged(prng: &mut Prng, causes: u32) -> Case {
    let count = count(prng).max(1);
    let (mut list, mut number) = (outputs(prng, count), place(prng, count));
    for _ in 0..causes {
        match prng.below(4) {
            0 => list.push(prng.below(8)),
            1 => {
                let most = MOST_OUTPUTS + 1 + prng.pick(&[0, 0, 1, 200]);
                let lacking = most.saturating_sub(list.len() / 2);
                list.extend(outputs(prng, lacking));
            }
            2 => {
                let at = place(prng, list.len().div_ceil(2));
                let any = [prng.between(8, u32::MAX), prng.pick(&WRONG_PORTS), HIGHEST_PORT + 1];
                list[2 * at] = prng.pick(&any);
            }
            _ => number = list.len() / 2 + prng.pick(&[0, 0, 1, list.len(), MOST_WORDS]),
        }
    }
    Case::new(list, number, prng)
}

fn several(prng: &mut Prng) -> Case {
    let causes = prng.between(2, 3);
    damaged(prng, causes)
}

fn far_list(prng: &mut Prng) -> Case {
    let (pair, count) = ([prng.below(8), prng.word()], prng.pick(&FAR));
    let list = pair.into_iter().cycle().take(count).collect();
    Case::new(list, prng.place(count / 2), prng)
}

fn any_words(prng: &mut Prng) -> Case {
    let count = prng.place(9);
    let word = |prng: &mut Prng| if prng.one_in(2) { prng.below(9) } else { prng.word() };
    let list = (0..count).map(|_| word(prng)).collect();
    Case::new(list, prng.place(6), prng)
}
