//! What is expected of the operations: the cases in which Memcheck's V may differ from the
//! checker's, by which rule, and which of the two is then finer.

use std::fmt;

use compare::images::op;

use crate::cases::{Case, Form};
use crate::modes::Mode::{self, Auto, No, Plain, Yes};
use crate::modes::{ALL, OPTIMISED};
use crate::rules::{
    document_01, high_bits_equality, high_bits_undefined, is_carry_literal, is_literal_zero,
    is_power_literal, shifted,
};
use Relation::{Equal, MemcheckFiner, Neither, OursFiner};

#[derive(Clone, Copy, PartialEq, Eq, PartialOrd, Ord)]
pub enum Relation {
    Equal,
    OursFiner,
    MemcheckFiner,
    Neither,
}

pub const RELATIONS: [Relation; 4] = [Equal, OursFiner, MemcheckFiner, Neither];

impl fmt::Display for Relation {
    fn fmt(&self, f: &mut fmt::Formatter) -> fmt::Result {
        f.write_str(match self {
            Equal => "equal",
            OursFiner => "ours finer",
            MemcheckFiner => "Memcheck finer",
            Neither => "neither",
        })
    }
}

impl Relation {
    pub fn of(ours: u64, memcheck: u64) -> Relation {
        match ours & memcheck {
            _ if ours == memcheck => Equal,
            both if both == ours => OursFiner,
            both if both == memcheck => MemcheckFiner,
            _ => Neither,
        }
    }
}

/// Cases in which the V may differ: Memcheck's is what `rule` says, and only `finer` may be finer.
pub struct Difference {
    pub ops: &'static [u8],
    pub modes: &'static [Mode],
    when: fn(&Case) -> bool,
    pub finer: Relation,
    rule: fn(&Case) -> u32,
    pub why: &'static str,
}

/// The first row that fits a case decides; where none fits, both are equal.
#[rustfmt::skip]
pub const ROWS: &[Difference] = &[
    Difference { ops: &[op::ADD], modes: OPTIMISED, when: |c| c.form == Form::Same,
        finer: MemcheckFiner, rule: |c| c.v << 1,
        why: "a register added to itself becomes a shift left by 1" },
    Difference { ops: &[op::SUB], modes: ALL, when: |c| c.form == Form::Same,
        finer: MemcheckFiner, rule: |_| 0,
        why: "a register less itself is 0, as for XOR" },
    Difference { ops: &[op::SHL, op::SHR, op::SAR], modes: ALL,
        when: |c| c.w != 0 && c.w & 31 == 0, finer: MemcheckFiner, rule: shifted,
        why: "the amount is cut to its five low bits before its V bits are looked at" },
    Difference { ops: &[op::LTU], modes: &[No], when: is_power_literal,
        finer: MemcheckFiner, rule: high_bits_undefined,
        why: "below the literal 2^n, n at least 1, becomes: shifted right by n, equal to 0" },
    Difference { ops: &[op::LTU], modes: &[Auto, Yes], when: is_power_literal,
        finer: MemcheckFiner, rule: high_bits_equality,
        why: "below the literal 2^n becomes an equality as in mode no, and that is L4's" },
    Difference { ops: &[op::EQ], modes: &[No, Plain], when: |_| true,
        finer: OursFiner, rule: document_01,
        why: "document 01's rule in every case; the checker has L4's" },
    Difference { ops: &[op::ADD, op::SUB], modes: &[Plain], when: |_| true,
        finer: OursFiner, rule: document_01,
        why: "document 01's rule in every case; the checker has L13's" },
    Difference { ops: &[op::ADD, op::SUB], modes: &[No], when: |c| !is_literal_zero(c),
        finer: OursFiner, rule: document_01,
        why: "document 01's rule but for the literal 0, a copy; the checker has L13's" },
    Difference { ops: &[op::SUB], modes: &[Auto],
        when: |c| !is_literal_zero(c) && !is_carry_literal(c),
        finer: OursFiner, rule: document_01,
        why: "document 01's rule but for 0 and literals as strlen uses; the checker has L13's" },
];

impl Difference {
    pub fn fits(&self, case: &Case, mode: Mode) -> bool {
        self.ops.contains(&case.op) && self.modes.contains(&mode) && (self.when)(case)
    }

    /// Whether a case that fits is as the row says.
    pub fn foresees(&self, case: &Case, found: Relation) -> bool {
        u64::from((self.rule)(case)) == case.shadow && [Equal, self.finer].contains(&found)
    }
}
