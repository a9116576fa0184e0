//! The values at which rules change, each table once.

use crate::prng::Prng;

/// Data words.
pub const WORDS: [u32; 20] = [
    0,
    1,
    2,
    3,
    4,
    7,
    8,
    31,
    32,
    33,
    0x7F,
    0x80,
    0xFF,
    0x100,
    0xFFFF,
    0x1_0000,
    0x7FFF_FFFF,
    0x8000_0000,
    0xFFFF_FFFE,
    0xFFFF_FFFF,
];

/// V words; the fully defined one twice, being the commonest.
pub const SHADOWS: [u32; 12] =
    [0, 0xFFFF_FFFF, 0, 1, 0x20, 0x80, 0xFF, 0x100, 0xFF00, 0x00FF_0000, 0xFF00_0000, 0x8000_0000];

/// Header words, whatever they mean, besides those beside their limits.
pub const ANY_HEADER: [u32; 5] = [0, 1, 2, 0x8000_0000, 0xFFFF_FFFF];

/// A row's d and a.
pub const FIELDS: [u8; 6] = [0, 1, 15, 16, 128, 255];

/// A row's b.
pub const OPERAND_FIELDS: [u8; 6] = [0, 1, 15, 16, 254, 255];

/// Lengths of the report list, in words; the last six are refused.
pub const REPORT_WORDS: [usize; 13] = [0, 4, 8, 12, 32, 64, 256, 1, 2, 3, 255, 257, 260];

/// How many of `REPORT_WORDS` are accepted.
pub const REPORT_WORDS_ACCEPTED: usize = 7;

/// Lengths of the output list, in words; the last six are refused.
pub const OUTPUT_WORDS: [usize; 13] = [0, 2, 4, 6, 16, 64, 512, 1, 3, 7, 511, 513, 514];

/// How many of `OUTPUT_WORDS` are accepted.
pub const OUTPUT_WORDS_ACCEPTED: usize = 7;

/// The most steps a run may reach.
pub const MOST_STEPS: u32 = 1_000_000;

/// Counts at and beside a limit and at the other end, and at and beside what the limit was before.
pub const fn counts(former: u32, most: u32) -> [u32; 8] {
    [0, 1, former - 1, former, former + 1, most - 1, most, most + 1]
}

/// A number below a limit, most often at its end or about what the limit was before.
pub fn below(prng: &mut Prng, former: u32, limit: u32) -> u32 {
    match prng.below(4) {
        0 => prng.below(limit),
        1 => (former - 2 + prng.below(4)).min(limit - 1),
        2 => limit - 1,
        _ => limit - 1 - prng.below(4).min(limit - 1),
    }
}

pub fn word(prng: &mut Prng) -> u32 {
    if prng.one_in(4) {
        prng.word()
    } else {
        prng.pick(&WORDS)
    }
}

pub fn shadow(prng: &mut Prng) -> u32 {
    match prng.below(6) {
        0 => prng.word(),
        1 => 1 << prng.below(32),
        _ => prng.pick(&SHADOWS),
    }
}

/// Addresses at both ends of M bytes and of 32 bits.
pub fn addresses(m: u32) -> [u32; 17] {
    let near = |k: u32| m.wrapping_sub(k);
    [
        0,
        1,
        2,
        3,
        near(5),
        near(4),
        near(3),
        near(2),
        near(1),
        m,
        m + 1,
        m + 4,
        0x8000_0000,
        0xFFFF_FFFC,
        0xFFFF_FFFD,
        0xFFFF_FFFE,
        0xFFFF_FFFF,
    ]
}

pub fn address(prng: &mut Prng, m: u32) -> u32 {
    if prng.one_in(2) {
        prng.below(m)
    } else {
        prng.pick(&addresses(m))
    }
}
