//! What is expected of the events: the checker's code for each, and where Memcheck differs.

use std::fmt;

use compare::images::{op, Operand, Row};

use crate::machine::{FIRST, RESULT, SECOND};
use crate::modes::Mode::{self, Auto, No, Plain, Strict, Yes};
use crate::modes::{ALL, EVERY};
use Look::{Memory, Register};

/// Reports, V and data of the word looked at.
#[derive(Clone, Copy, PartialEq, Eq)]
pub struct Answer {
    pub reports: u32,
    pub v: u32,
    pub data: u32,
}

impl fmt::Display for Answer {
    fn fmt(&self, f: &mut fmt::Formatter) -> fmt::Result {
        let Answer { reports, v, data } = self;
        write!(f, "{reports}, {v:#x}, {data:#x}")
    }
}

pub enum Look {
    Register(u8),
    Memory,
}

/// An event of `vbits`: the checker's code for it, what is looked at, and what Memcheck answers in
/// the modes in which it doesn't answer as the checker does.
pub struct Event {
    pub name: &'static str,
    pub code: &'static [Row],
    pub look: Look,
    pub modes: &'static [Mode],
    pub memcheck: Answer,
    pub why: &'static str,
}

/// The value and the first word of memory that `vbits` gives to the events.
const VALUE: u32 = 0x89AB_CDEF;
const MEMORY: u32 = 0x4433_2211;
const IN_POINTER: Look = Register(FIRST);
const IN_VALUE: Look = Register(SECOND);
const IN_RESULT: Look = Register(RESULT);
const LOAD: Row = Row::access(op::LD32, RESULT, FIRST, 0);
const LOAD_BYTE: Row = Row::access(op::LD8, RESULT, FIRST, 0);
const LOAD_SIGNED_BYTE: Row = Row::access(op::LDS8, RESULT, FIRST, 0);
const LOAD_HALF: Row = Row::access(op::LD16, RESULT, FIRST, 0);
const LOAD_SIGNED_HALF: Row = Row::access(op::LDS16, RESULT, FIRST, 0);
const LOAD_SIGNED_BEFORE: Row = Row::access(op::LDS16, RESULT, FIRST, 1u32.wrapping_neg());
const LOAD_PAST: Row = Row::access(op::LD32, RESULT, FIRST, 4);
const STORE: Row = Row::access(op::ST32, SECOND, FIRST, 0);
const STORE_BYTE: Row = Row::access(op::ST8, SECOND, FIRST, 0);
const STORE_HALF: Row = Row::access(op::ST16, SECOND, FIRST, 0);
const EMIT: Row = Row::emit(SECOND, 0);
const ZERO: Row = Row::sum(op::EQ, RESULT, SECOND, Operand::Literal(0));
const ADDED: Row = Row::sum(op::ADD, RESULT, SECOND, Operand::Literal(16));
const LESS: Row = Row::sum(op::SUB, RESULT, SECOND, Operand::Literal(16));
const UPPER: Row = Row::sum(op::SHR, RESULT, RESULT, Operand::Literal(16));
const JUMP: &[Row] = &[Row::jump(SECOND, 1), Row::stop()];
const JUMP_TWICE: &[Row] = &[Row::jump(SECOND, 1), Row::jump(SECOND, 2), Row::stop()];
const COMPARE_JUMP: &[Row] = &[ZERO, Row::jump(RESULT, 2), Row::stop()];
const ADD_JUMP: &[Row] = &[ADDED, UPPER, Row::jump(RESULT, 3), Row::stop()];
const SUB_JUMP: &[Row] = &[LESS, UPPER, Row::jump(RESULT, 3), Row::stop()];
const LOAD_JUMP: &[Row] = &[LOAD, Row::jump(RESULT, 2), Row::stop()];
const SIGNED_HALF_JUMP: &[Row] =
    &[STORE_HALF, LOAD_SIGNED_HALF, UPPER, Row::jump(RESULT, 4), Row::stop()];
const SIGNED_FROM_JUMP: &[Row] =
    &[STORE_BYTE, LOAD_SIGNED_HALF, UPPER, Row::jump(RESULT, 4), Row::stop()];
const SIGNED_FROM: &[Row] = &[STORE_BYTE, LOAD_SIGNED_HALF];
const SIGNED_UP_TO: &[Row] = &[STORE_BYTE, LOAD_SIGNED_BEFORE];
const CLOSE_WORD: Row = Row::range(op::CLOSE, 0, 4);
const OPEN_WORD: Row = Row::range(op::OPEN, 0, 4);
const COPY: Row = Row::copy(RESULT, Operand::Register(SECOND));

const fn same(name: &'static str, code: &'static [Row], look: Look) -> Event {
    other(name, code, look, &[], [0, 0, 0], "equal")
}

/// An event that Memcheck answers with these reports, V and data in these modes.
const fn other(
    name: &'static str,
    code: &'static [Row],
    look: Look,
    modes: &'static [Mode],
    memcheck: [u32; 3],
    why: &'static str,
) -> Event {
    let [reports, v, data] = memcheck;
    Event { name, code, look, modes, memcheck: Answer { reports, v, data }, why }
}

const IN_BLOCK: &str =
    "Memcheck clears the register's copy in the block translated as one, not the register";
const SUM: &str = "Memcheck clears the sum that is the address, not the register";
const NOT_CLEARED: &str = "Memcheck clears the condition, not the register that it came from";
const DECIDED: &str = "a defined 1 bit decides the jump; Memcheck then has nothing to report";
const COARSE: &str = "document 01's rule of EQ, by which a defined 1 bit doesn't settle it";
const LEFT: &str = "document 01's rule of ADD and SUB, by which no defined bit stops a carry";
const OUTPUT: &str = "Memcheck reports the bytes that a system call reads and leaves their V";
const REAL_DATA: &str = "Memcheck lets the real access happen: data of unaddressable bytes";
const PARTIAL: &str =
    "an aligned load of 4 bytes isn't reported if one is addressable; the others load undefined";

#[rustfmt::skip]
pub const EVENTS: &[Event] = &[
    same("copy", &[COPY], IN_RESULT),
    same("address-load", &[LOAD], IN_RESULT),
    same("address-store", &[STORE], Memory),
    same("address-kept", &[LOAD], IN_POINTER),
    other("address-kept-later", &[LOAD], IN_POINTER, EVERY, [1, 0x10, 0], IN_BLOCK),
    other("address-kept-offset", &[LOAD_PAST], IN_POINTER, EVERY, [1, 0x10, 0], SUM),
    same("address-twice", &[LOAD, LOAD], IN_POINTER),
    other("address-twice-later", &[LOAD, LOAD], IN_POINTER, EVERY, [2, 0, 0], IN_BLOCK),
    other("jump", JUMP, IN_VALUE, EVERY, [1, !0, VALUE], NOT_CLEARED),
    other("jump-twice", JUMP_TWICE, IN_VALUE, EVERY, [2, !0, VALUE], NOT_CLEARED),
    other("jump-decided", JUMP, IN_VALUE, &[No, Plain, Strict], [1, 0x10, VALUE], NOT_CLEARED),
    other("jump-decided", JUMP, IN_VALUE, &[Auto, Yes], [0, 0x10, VALUE], DECIDED),
    same("compare-jump-decided", COMPARE_JUMP, IN_RESULT),
    other("compare-jump-decided", COMPARE_JUMP, IN_RESULT, &[No, Plain, Strict], [1, 1, 0], COARSE),
    same("add-jump-stopped", ADD_JUMP, IN_RESULT),
    other("add-jump-stopped", ADD_JUMP, IN_RESULT, &[No, Plain, Strict], [1, 0xFFFF, VALUE >> 16], LEFT),
    same("sub-jump-stopped", SUB_JUMP, IN_RESULT),
    other("sub-jump-stopped", SUB_JUMP, IN_RESULT, &[No, Auto, Plain, Strict], [1, 0xFFFF, VALUE >> 16], LEFT),
    same("signed-jump-low-undefined", SIGNED_HALF_JUMP, IN_RESULT),
    other("signed-jump-sign-undefined", SIGNED_HALF_JUMP, IN_RESULT, EVERY, [1, 0xFFFF, 0xFFFF], NOT_CLEARED),
    other("output", &[EMIT], IN_VALUE, EVERY, [1, 0x10, VALUE], OUTPUT),
    other("output-twice", &[EMIT, EMIT], IN_VALUE, EVERY, [2, 0x10, VALUE], OUTPUT),
    other("unaddressable-load-byte", &[LOAD_BYTE], IN_RESULT, EVERY, [1, 0, 0x11], REAL_DATA),
    other("unaddressable-load-signed-byte", &[LOAD_SIGNED_BYTE], IN_RESULT, EVERY, [1, 0, 0xFFFF_FF88], REAL_DATA),
    other("unaddressable-load-half", &[LOAD_HALF], IN_RESULT, EVERY, [1, 0, 0x2211], REAL_DATA),
    other("unaddressable-load", &[LOAD], IN_RESULT, EVERY, [1, 0, MEMORY], REAL_DATA),
    other("unaddressable-load-jump", LOAD_JUMP, IN_RESULT, EVERY, [1, 0, MEMORY], REAL_DATA),
    other("partly-unaddressable-load", &[LOAD], IN_RESULT, ALL, [0, 0xFFFF_0000, MEMORY], PARTIAL),
    other("partly-unaddressable-load", &[LOAD], IN_RESULT, &[Strict], [1, 0, MEMORY], REAL_DATA),
    other("partly-unaddressable-unaligned", &[LOAD], IN_RESULT, EVERY, [1, 0, 0x6655_4433], REAL_DATA),
    other("partly-unaddressable-half", &[LOAD_HALF], IN_RESULT, EVERY, [1, 0, 0x2211], REAL_DATA),
    other("partly-unaddressable-half-unaligned", &[LOAD_HALF], IN_RESULT, EVERY, [1, 0, 0x5544], REAL_DATA),
    other("signed-top-unaddressable", SIGNED_FROM, IN_RESULT, EVERY, [1, 0x81, 0x22EF], REAL_DATA),
    same("signed-top-unaddressable-jump", SIGNED_FROM_JUMP, IN_RESULT),
    other("signed-low-unaddressable", SIGNED_UP_TO, IN_RESULT, EVERY, [1, 0xFFFF_8100, 0xFFFF_EF11], REAL_DATA),
    other("unaddressable-store-byte", &[STORE_BYTE], Memory, EVERY, [1, 0, 0x4433_22EF], REAL_DATA),
    other("unaddressable-store-half", &[STORE_HALF], Memory, EVERY, [1, 0, 0x4433_CDEF], REAL_DATA),
    other("unaddressable-store", &[STORE], Memory, EVERY, [1, 0, VALUE], REAL_DATA),
    other("partly-unaddressable-store", &[STORE], Memory, EVERY, [1, 0xF01, VALUE], REAL_DATA),
    other("partly-unaddressable-store-half", &[STORE_HALF], Memory, EVERY, [1, 0x01, 0x4433_CDEF], REAL_DATA),
    same("reopened-load", &[CLOSE_WORD, OPEN_WORD, LOAD], IN_RESULT),
];

/// The place of the event's row for this mode, else of one in which both answer alike.
pub fn event_place(name: &str, mode: Mode) -> Option<usize> {
    let named = |event: &Event| event.name == name;
    let special = EVENTS.iter().position(|event| named(event) && event.modes.contains(&mode));
    special.or_else(|| EVENTS.iter().position(named))
}
