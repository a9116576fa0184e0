//! Drawn cases: any words, with few undefined bits or with many, in any two registers.

use super::case::{is_shift, Case};
use super::fillings::Operands;
use super::OPS;
use crate::edges;
use crate::images::{op, Operand, Row};
use crate::prng::Prng;
use crate::programs::{as_d, register};

/// V words of up to twelve undefined bits together.
fn few_bits(prng: &mut Prng) -> [u32; 2] {
    let mut words = [0; 2];
    for _ in 0..prng.between(0, 12) {
        words[prng.place(2)] |= 1 << prng.below(32);
    }
    words
}

fn many_bits(prng: &mut Prng) -> [u32; 2] {
    [0; 2].map(|_| prng.word() | prng.pick(&[0, 0, 0xFFFF, 0xFFFF_0000, 0xFFFF_FFFF]))
}

/// An amount: small, at an edge or any word.
fn amount(prng: &mut Prng) -> u32 {
    match prng.below(3) {
        0 => prng.below(32),
        1 => prng.pick(&[0, 1, 31, 32, 33]),
        _ => prng.word(),
    }
}

/// Data of B beside x: any, or but for a few bits the same.
fn beside(prng: &mut Prng, x: u32, undefined: u32) -> u32 {
    match prng.below(4) {
        0 => edges::word(prng),
        1 => x,
        2 => x ^ prng.word() & undefined,
        _ => x ^ 1 << prng.below(32),
    }
}

pub fn drawn(prng: &mut Prng) -> Case {
    let op = prng.pick(&OPS);
    let a = register(prng);
    let b = (a + 1 + prng.below(15) as u8) % 16;
    let any = register(prng);
    let d = prng.pick(&[a, b, any]);
    let d = as_d(prng, op, d);
    let [v, w] = if prng.one_in(2) { few_bits(prng) } else { many_bits(prng) };
    let x = if prng.one_in(2) { prng.word() } else { edges::word(prng) };
    let y = if is_shift(op) { amount(prng) } else { beside(prng, x, v | w) };
    let literal = prng.one_in(4);
    let operand = if literal { Operand::Literal(y) } else { Operand::Register(b) };
    let w = if literal || is_shift(op) { 0 } else { w };
    if op == op::MOV {
        return Case::new(Row::copy(d, operand), Operands { x: 0, v: 0, y, w }, prng);
    }
    Case::new(Row::sum(op, d, a, operand), Operands { x, v, y, w }, prng)
}
