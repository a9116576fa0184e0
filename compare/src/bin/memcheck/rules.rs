//! The V rules by which Memcheck may differ from the checker, and the kinds of case they apply to.

use compare::images::op;

use crate::cases::{Case, Form};

fn left(v: u32) -> u32 {
    v | v.wrapping_neg()
}

pub fn document_01(c: &Case) -> u32 {
    match c.op {
        op::EQ => u32::from(c.v | c.w != 0),
        _ => left(c.v | c.w),
    }
}

pub fn shifted(c: &Case) -> u32 {
    match c.op {
        op::SHL => c.v << (c.y % 32),
        op::SHR => c.v >> (c.y % 32),
        _ => (c.v as i32 >> (c.y % 32)) as u32,
    }
}

/// x below 2^n, taken as x >> n equal to 0: by document 01's EQ rule, or by L4's, where a defined 1 bit
/// settles it.
pub fn high_bits_undefined(c: &Case) -> u32 {
    u32::from(c.v >> c.y.trailing_zeros() != 0)
}

pub fn high_bits_equality(c: &Case) -> u32 {
    let n = c.y.trailing_zeros();
    u32::from(c.v >> n != 0 && (c.x & !c.v) >> n == 0)
}

pub fn is_literal_zero(c: &Case) -> bool {
    c.form == Form::Literal && c.y == 0
}

/// Literals in whose blocks mode auto follows carries in SUB too (of those that `vbits` has).
pub fn is_carry_literal(c: &Case) -> bool {
    c.form == Form::Literal && [0x8080_8080, 0xFEFE_FEFF].contains(&c.y)
}

pub fn is_power_literal(c: &Case) -> bool {
    c.form == Form::Literal && c.y.is_power_of_two() && c.y > 1
}
