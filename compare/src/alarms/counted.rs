//! Counted cases: all data and V of three bits, edge words, every shift amount.

use super::case::Case;
use super::fillings::Operands;
use crate::edges;
use crate::families::{Choices, Family};
use crate::images::{op, Operand, Row};
use crate::prng::Prng;

pub const FAMILIES: [Family<Case>; 7] = [
    Family { name: "every three bits", make: three_bits },
    Family { name: "every three bits, literal", make: three_bits_and_literal },
    Family { name: "every two edge words", make: edge_words },
    Family { name: "every copy of three bits", make: copied_bits },
    Family { name: "every copy of an edge word", make: copied_word },
    Family { name: "every copy of a literal", make: copied_literal },
    Family { name: "every shift amount", make: shifts },
];

/// The ops of two operands.
const PAIRED: [u8; 6] = [op::AND, op::OR, op::XOR, op::EQ, op::ADD, op::SUB];

/// V words with few undefined bits and with many.
const SHADOWS: [u32; 8] = [0, 1, 0x81, 0x8000_0000, 0xFF00, 0x8000_0FFF, 0xAAAA_AAAA, 0xFFFF_FFFF];

/// Three bits of data and V, at the bottom, in the middle and at the top.
struct ThreeBits {
    shift: u32,
    /// The data around them.
    around: u32,
}

impl ThreeBits {
    fn of(choices: &mut Choices) -> ThreeBits {
        let shift = choices.pick(&[0, 14, 29]);
        let around = choices.pick(&[0, u32::MAX]) & !(7 << shift);
        ThreeBits { shift, around }
    }

    fn shadow(&self, choices: &mut Choices) -> u32 {
        (choices.below(8) as u32) << self.shift
    }

    fn data(&self, choices: &mut Choices) -> u32 {
        self.shadow(choices) | self.around
    }
}

fn three_bits(choices: &mut Choices, prng: &mut Prng) -> Case {
    let row = Row::sum(choices.pick(&PAIRED), choices.pick(&[3, 1, 2]), 1, Operand::Register(2));
    let bits = ThreeBits::of(choices);
    let [x, y] = [0; 2].map(|_| bits.data(choices));
    let [v, w] = [0; 2].map(|_| bits.shadow(choices));
    Case::new(row, Operands { x, v, y, w }, prng)
}

fn three_bits_and_literal(choices: &mut Choices, prng: &mut Prng) -> Case {
    let (op, d) = (choices.pick(&PAIRED), choices.pick(&[3, 1]));
    let bits = ThreeBits::of(choices);
    let [x, y] = [0; 2].map(|_| bits.data(choices));
    let v = bits.shadow(choices);
    let row = Row::sum(op, d, 1, Operand::Literal(y));
    Case::new(row, Operands { x, v, y, w: 0 }, prng)
}

fn edge_words(choices: &mut Choices, prng: &mut Prng) -> Case {
    let row = Row::sum(choices.pick(&PAIRED), choices.pick(&[3, 1, 2]), 1, Operand::Register(2));
    let [v, w] = [0; 2].map(|_| choices.pick(&SHADOWS));
    let x = choices.pick(&[0, 0xF, 0x80, 0x8000_0001, 0xFFFF_FFFF]);
    let y = choices.pick(&[0, 1, 0xF, 0x80, 0x8000_0001, 0xFFFF_FFFF]);
    Case::new(row, Operands { x, v, y, w }, prng)
}

fn copied(choices: &mut Choices, prng: &mut Prng, y: u32, w: u32) -> Case {
    let row = Row::copy(choices.pick(&[3, 2]), Operand::Register(2));
    Case::new(row, Operands { x: 0, v: 0, y, w }, prng)
}

fn copied_bits(choices: &mut Choices, prng: &mut Prng) -> Case {
    let bits = ThreeBits::of(choices);
    let (y, w) = (bits.data(choices), bits.shadow(choices));
    copied(choices, prng, y, w)
}

fn copied_word(choices: &mut Choices, prng: &mut Prng) -> Case {
    let (y, w) = (choices.pick(&edges::WORDS), choices.pick(&SHADOWS));
    copied(choices, prng, y, w)
}

fn copied_literal(choices: &mut Choices, prng: &mut Prng) -> Case {
    let y = choices.pick(&edges::WORDS);
    Case::new(Row::copy(3, Operand::Literal(y)), Operands { x: 0, v: 0, y, w: 0 }, prng)
}

/// Shift amounts from 64 on.
const FAR: [u32; 6] = [64, 95, 0x100, 0x8000_0001, 0xFFFF_FFE0, 0xFFFF_FFFF];

fn shifts(choices: &mut Choices, prng: &mut Prng) -> Case {
    let op = choices.pick(&[op::SHL, op::SHR, op::SAR]);
    let amount = choices.below(64 + FAR.len());
    let y = *FAR.get(amount.wrapping_sub(64)).unwrap_or(&(amount as u32));
    let v = choices.pick(&SHADOWS);
    let x = choices.pick(&[0, 0x8000_0001, 0x5A5A_A5A5, 0xFFFF_FFFF]);
    let (d, operand) = choices.pick(&[
        (3, Operand::Register(2)),
        (1, Operand::Register(2)),
        (2, Operand::Register(2)),
        (3, Operand::Literal(y)),
        (1, Operand::Literal(y)),
    ]);
    Case::new(Row::sum(op, d, 1, operand), Operands { x, v, y, w: 0 }, prng)
}
