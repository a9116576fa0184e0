//! The parts of an image broken in one place, each a cause of a refusal, and lists made far too long.

use crate::images::{op, FRAME, MOST_DATA, MOST_MEMORY, MOST_REGIONS, MOST_ROWS};
use crate::parts::{Parts, REGION_WORDS, ROW_WORDS};

/// What breaks parts, if they have what it breaks.
pub type Spoil = fn(&mut Parts);

/// The first breaks nothing; then causes of 3, 5, 6 and 7 in this order.
pub const SPOILS: [Spoil; 17] = [
    |_| {},
    |parts| parts.m = 0,
    |parts| parts.m = MOST_MEMORY + 1,
    |parts| parts.instructions.clear(),
    |parts| parts.instructions.resize(ROW_WORDS * (MOST_ROWS as usize + 1), 0),
    |parts| parts.regions.resize(REGION_WORDS * (MOST_REGIONS as usize + 1), 0),
    |parts| parts.data.resize(MOST_DATA as usize + 1, 0),
    |parts| parts.instructions.push(0),
    |parts| parts.regions.push(0),
    |parts| parts.regions.extend([0, 0]),
    |parts| set_byte(&mut parts.instructions, 0, 0, op::COUNT as u8),
    |parts| set_byte(&mut parts.instructions, 2, 1, 16),
    |parts| set_byte(&mut parts.instructions, 0, 1, FRAME),
    |parts| set_kind(&mut parts.regions, 0, 3),
    |parts| set_kind(&mut parts.regions, 1, 3),
    |parts| parts.data.push(0),
    |parts| parts.data.truncate(parts.data.len().saturating_sub(1)),
];

/// How much longer lists may be, in words and bytes, so that low bits of the length or of the number of
/// entries stay as they are.
pub const FAR_ROWS: [usize; 3] = [0, 0x1_0000, ROW_WORDS << 16];
pub const FAR_REGIONS: [usize; 4] = [0, REGION_WORDS << 8, 0x1_0000, REGION_WORDS << 16];
pub const FAR_DATA: [usize; 2] = [0, 0x1_0000];

/// So many words and bytes more, all noughts.
pub fn lengthen(parts: &mut Parts, rows: usize, regions: usize, data: usize) {
    parts.instructions.resize(parts.instructions.len() + rows, 0);
    parts.regions.resize(parts.regions.len() + regions, 0);
    parts.data.resize(parts.data.len() + data, 0);
}

/// Byte k of an instruction's first word: op, d, a or b.
pub fn set_byte(instructions: &mut [u32], index: usize, k: usize, byte: u8) {
    if let Some(word) = instructions.get_mut(ROW_WORDS * index) {
        let mut bytes = word.to_le_bytes();
        bytes[k] = byte;
        *word = u32::from_le_bytes(bytes);
    }
}

fn set_kind(regions: &mut [u32], index: usize, kind: u32) {
    if let Some(word) = regions.get_mut(REGION_WORDS * index + 2) {
        *word = kind;
    }
}
