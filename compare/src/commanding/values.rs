//! Value words, which are the bits of 32-bit floats: those at which gates change, and the classes that are
//! told apart.

use std::num::FpCategory;

use crate::prng::Prng;

/// The highest rates of the gates: 8000, and 40 for preload.
pub const DAMPING: u32 = 0x45FA_0000;
pub const PRELOAD: u32 = 0x4220_0000;

const SIGN: u32 = 0x8000_0000;
/// Set in a NaN that is quiet.
const QUIET: u32 = 0x0040_0000;
const INFINITY: u32 = 0x7F80_0000;
const LEAST_NORMAL: u32 = 0x0080_0000;

/// The ports that have a gate.
pub const GATES: [u32; 3] = [0, 1, 2];

/// The highest rate of a port's gate. Ports 3 to 7 have none; their values are told apart as those of port 0.
pub fn highest(port: u32) -> u32 {
    if port == 2 {
        PRELOAD
    } else {
        DAMPING
    }
}

/// Words about which something changes.
pub const ENDS: [u32; 12] = [
    0,
    LEAST_NORMAL,
    PRELOAD,
    DAMPING,
    INFINITY,
    INFINITY | QUIET,
    SIGN,
    SIGN | LEAST_NORMAL,
    SIGN | PRELOAD,
    SIGN | DAMPING,
    SIGN | INFINITY,
    SIGN | INFINITY | QUIET,
];

/// Values besides: subnormals, 1 and beside it, a half, one and more above each gate, the largest, NaNs; 40
/// and 8000 as integers, with their bytes backwards and as the upper halves of 64-bit floats; little below 0.
pub const EDGES: [u32; 36] = [
    2,
    0x0040_0000,
    LEAST_NORMAL - 1,
    SIGN | 2,
    SIGN | 0x0040_0000,
    SIGN | (LEAST_NORMAL - 1),
    0x3F7F_FFFF,
    0x3F80_0000,
    0x3F80_0001,
    0xBF80_0000,
    PRELOAD + 0x2_0000,
    PRELOAD + 0x4_0000,
    PRELOAD - 0x4_0000,
    DAMPING + 0x400,
    DAMPING + 0x800,
    DAMPING - 0x800,
    DAMPING + 0x6_0000,
    0x4600_0000,
    0x42C8_0000,
    0x447A_0000,
    INFINITY - 1,
    SIGN | (INFINITY - 1),
    0x7F80_0001,
    0x7FA5_5A5A,
    0x7FBF_FFFF,
    0x7FD5_5AA5,
    0xFFBF_FFFF,
    0xFFA5_5A5A,
    40,
    8000,
    0x0000_2042,
    0x0000_FA45,
    0x4044_0000,
    0x40BF_4000,
    0xB3D6_BF95,
    0x80FF_FFFF,
];

/// How many words `edge` has.
pub const EDGE_WORDS: usize = 3 * ENDS.len() + EDGES.len() + 2 * 32;

/// Each word of the tables, those beside the ends, each single bit and all bits but one.
pub fn edge(place: usize) -> u32 {
    let beside = 3 * ENDS.len();
    if place < beside {
        return ENDS[place / 3].wrapping_add(place as u32 % 3).wrapping_sub(1);
    }
    if let Some(&word) = EDGES.get(place - beside) {
        return word;
    }
    let bit = place - beside - EDGES.len();
    let word = 1 << (bit % 32);
    if bit < 32 {
        word
    } else {
        !word
    }
}

/// A value that passes the gate of the port, or would if it had one.
pub fn inside(prng: &mut Prng, port: u32) -> u32 {
    let highest = highest(port);
    prng.pick(&[0, SIGN, 1, LEAST_NORMAL, highest - 1, highest])
}

/// A value of any class, one time in six beside the highest.
pub fn drawn(prng: &mut Prng, port: u32) -> u32 {
    let (sign, highest) = (prng.pick(&[0, 0, SIGN]), highest(port));
    match prng.below(12) {
        0 => prng.word(),
        1 => edge(prng.place(EDGE_WORDS)),
        2 => sign | prng.below(LEAST_NORMAL),
        3 | 4 => sign | prng.between(LEAST_NORMAL, highest),
        5 | 6 => sign | (highest - 1 + prng.below(3)),
        7 => sign | prng.between(highest, INFINITY - 1),
        8 => sign | INFINITY,
        9 => sign | INFINITY | prng.between(1, QUIET - 1),
        10 => sign | INFINITY | QUIET | prng.below(QUIET),
        _ => sign,
    }
}

/// A value word beside the highest rate of its port.
pub struct Value {
    pub word: u32,
    pub highest: u32,
}

impl Value {
    fn is(&self, category: FpCategory, sign: bool) -> bool {
        let value = f32::from_bits(self.word);
        value.classify() == category && value.is_sign_negative() == sign
    }

    fn is_quiet(&self) -> bool {
        self.word & QUIET != 0
    }

    /// Positive and normal, and so far above the highest, or below it.
    fn is_above(&self, least: i64, most: i64) -> bool {
        let above = i64::from(self.word) - i64::from(self.highest);
        self.is(FpCategory::Normal, false) && (least..=most).contains(&above)
    }
}

/// A name, and whether a value is so; every value is of one class.
type Class = (&'static str, fn(&Value) -> bool);

const FAR: i64 = 1 << 32;

pub const CLASSES: [Class; 16] = [
    ("0", |value| value.is(FpCategory::Zero, false)),
    ("minus 0", |value| value.is(FpCategory::Zero, true)),
    ("subnormal", |value| value.is(FpCategory::Subnormal, false)),
    ("normal, inside", |value| value.is_above(-FAR, -2)),
    ("next below the highest", |value| value.is_above(-1, -1)),
    ("the highest", |value| value.is_above(0, 0)),
    ("next above it", |value| value.is_above(1, 1)),
    ("further above", |value| value.is_above(2, FAR)),
    ("infinity", |value| value.is(FpCategory::Infinite, false)),
    ("negative subnormal", |value| value.is(FpCategory::Subnormal, true)),
    ("negative normal", |value| value.is(FpCategory::Normal, true)),
    ("minus infinity", |value| value.is(FpCategory::Infinite, true)),
    ("quiet NaN", |value| value.is(FpCategory::Nan, false) && value.is_quiet()),
    ("quiet NaN, sign set", |value| value.is(FpCategory::Nan, true) && value.is_quiet()),
    ("signalling NaN", |value| value.is(FpCategory::Nan, false) && !value.is_quiet()),
    ("signalling NaN, sign set", |value| value.is(FpCategory::Nan, true) && !value.is_quiet()),
];
