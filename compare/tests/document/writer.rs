//! Request L2 of document 02, with the limits of its request L5: what an image is written from, how it is laid
//! out, and what is refused. Each case is tried on the independent writer and on the checker's.

use compare::checker;
use compare::types::{Fields, Writer, Written};
use compare::writer;

use crate::kit::*;

const WRITERS: [Writer; 2] = [writer::WRITER, checker::WRITER];

/// What lies in the buffer before.
const LEFTOVER: u8 = 0xEE;

/// More bytes than the largest image has.
const ROOM: usize = 30_000;

fn fields<'a>(m: u32, code: &'a [u32], regions: &'a [u32], data: &'a [u8]) -> Fields<'a> {
    Fields { m, instructions: code, regions, data }
}

/// The number, the index and what is written to a buffer of so many bytes, of which all others stay.
fn written(fields: Fields, room: usize) -> (u32, usize, Vec<u8>) {
    let both = WRITERS.map(|writer| {
        let mut out = vec![LEFTOVER; room];
        let Written { number, index, size } = (writer.write)(&fields, &mut out);
        assert!(out[size..].iter().all(|&byte| byte == LEFTOVER), "{}", writer.name);
        out.truncate(size);
        (number, index, out)
    });
    assert_eq!(both[0], both[1]);
    both[0].clone()
}

/// The number and index of a refusal, for which nothing is written.
fn refused(fields: Fields, room: usize) -> (u32, usize) {
    let (number, index, image) = written(fields, room);
    assert_ne!(number, 0);
    assert!(image.is_empty());
    (number, index)
}

/// What is written, byte for byte, with just the room for it and with more.
fn writes(fields: Fields, hex: &str) {
    let image = from_hex(hex);
    for room in [image.len(), image.len() + 1, image.len() + 3, ROOM] {
        assert_eq!(written(fields, room), (0, 0, image.clone()), "room {room}");
    }
    for room in [0, 1, 4, 31, image.len() - 1] {
        assert_eq!(refused(fields, room), (12, 0), "room {room}");
    }
}

/// Refused so, or accepted (0), whatever the room is.
fn answers(fields: Fields, number: u32, index: usize) {
    let (found, at, _) = written(fields, ROOM);
    assert_eq!((found, at), (number, index));
    if number != 0 {
        assert_eq!(refused(fields, 0), (number, index));
        assert_eq!(refused(fields, 100), (number, index));
    }
}

const NOTHING: &[u32] = &[0, 0];

#[test]
fn the_example_is_written_from_its_fields() {
    let code = [0xFF00_0001, 8, 0x010E, 0, 0x0001_0012, 2, 0, 0];
    writes(
        fields(16, &code, &[8, 4, 2], &[]),
        "54554E31 10000000 04000000 20000000 01000000 40000000 00000000 4C000000 \
         010000FF08000000 0E01000000000000 1200010002000000 0000000000000000 \
         08000000 04000000 02000000",
    );
}

/// MOV r2, literal 5: op in the low byte of the first word.
#[test]
fn an_instruction_is_its_fields_from_the_low_byte_on_and_imm() {
    writes(
        fields(1, &[0xFF00_0201, 5], &[], &[]),
        "54554E31 01000000 01000000 20000000 00000000 28000000 00000000 28000000 \
         01 02 00 FF 05000000",
    );
    // ADD r14, r13, r12 and ST32 r15 at r3 plus 0x12345678
    writes(
        fields(0x0FED, &[0x0C0D_0E02, 0, 0x0003_0F10, 0x1234_5678], &[], &[]),
        "54554E31 ED0F0000 02000000 20000000 00000000 30000000 00000000 30000000 \
         02 0E 0D 0C 00000000  10 0F 03 00 78563412",
    );
}

#[test]
fn regions_stand_behind_instructions_and_data_behind_regions() {
    writes(
        fields(8, NOTHING, &[1, 2, 1, 4, 3, 2, 7, 1, 1], &[0xA1, 0xA2, 0xA3]),
        "54554E31 08000000 01000000 20000000 03000000 28000000 03000000 4C000000 \
         0000000000000000 \
         01000000 02000000 01000000  04000000 03000000 02000000  07000000 01000000 01000000 \
         A1 A2 A3",
    );
}

/// 2,048 instructions, 32 regions and 8,192 bytes: 32 + 16,384 + 384 + 8,192 are 24,992.
#[test]
fn the_largest_image() {
    let code = [0x0001_0011, 2047].repeat(2048);
    let regions: Vec<u32> = (0..32).flat_map(|k| [256 * k, 256, 1]).collect();
    let data: Vec<u8> = (0..8192).map(|k| (k % 251) as u8).collect();
    let largest = fields(8192, &code, &regions, &data);
    for room in [24_992, 24_993, 50_000] {
        let (number, index, image) = written(largest, room);
        assert_eq!((number, index, image.len()), (0, 0, 24_992));
        let header = "54554E31 00200000 00080000 20000000 20000000 20400000 00200000 A0410000";
        assert_eq!(image[..32], from_hex(header));
        assert_eq!(image[32..40], [0x11, 0, 1, 0, 0xFF, 7, 0, 0]);
        assert_eq!(image[16_408..16_416], [0x11, 0, 1, 0, 0xFF, 7, 0, 0]);
        assert_eq!(image[16_416..16_428], [0, 0, 0, 0, 0, 1, 0, 0, 1, 0, 0, 0]);
        assert_eq!(image[16_788..16_800], [0, 0x1F, 0, 0, 0, 1, 0, 0, 1, 0, 0, 0]);
        assert_eq!(image[16_800..], data);
    }
    for room in [24_991, 8608, 0] {
        assert_eq!(refused(largest, room), (12, 0));
    }
}

#[test]
fn refusal_3_limits() {
    for m in [1, 4095, 4096, 4097, 8191, 8192] {
        answers(fields(m, NOTHING, &[], &[]), 0, 0);
    }
    for m in [0, 8193, 16_384, 0x1_0001, ONES] {
        answers(fields(m, NOTHING, &[], &[]), 3, 0);
    }
    answers(fields(1, &[], &[], &[]), 3, 0);
    for (n, number) in [(1, 0), (511, 0), (512, 0), (513, 0), (2047, 0), (2048, 0)] {
        answers(fields(1, &[0, 0].repeat(n), &[], &[]), number, 0);
    }
    for (n, number) in [(2049, 3), (4096, 3), (8192, 3), (0x1_0001, 3)] {
        answers(fields(1, &[0, 0].repeat(n), &[], &[]), number, 0);
    }
    for (r, number) in [(31, 0), (32, 0), (33, 3), (257, 3)] {
        let regions: Vec<u32> = (0..r).flat_map(|k| [k, 1, 2]).collect();
        answers(fields(8192, NOTHING, &regions, &[]), number, 0);
    }
    for d in [4095, 4096, 4097, 8191, 8192, 8193, 0x1_0001] {
        let regions = [0, d.min(8192) as u32, 1];
        let number = if d > 8192 { 3 } else { 0 };
        answers(fields(8192, NOTHING, &regions, &vec![7; d]), number, 0);
    }
}

/// Fields that request L5 no longer refuses with 3: written, or refused with what comes later.
#[test]
fn sizes_above_the_former_limits() {
    let rows = [0, 0].repeat(513);
    answers(fields(4097, &rows, &[0, 4097, 1], &[5; 4097]), 0, 0);
    answers(fields(4096, &rows, &[0, 4097, 1], &[5; 4097]), 6, 0);
    answers(fields(4097, &rows, &[0, 4097, 2], &[5; 4097]), 7, 0);
    answers(fields(4097, &rows, &[0, 4097, 1], &[5; 4096]), 7, 0);
    answers(fields(16, NOTHING, &[], &[5; 4097]), 7, 0);
    for (row, to, number) in [(512, 512, 0), (0, 512, 0), (512, 513, 5), (511, 2047, 5)] {
        let mut code = rows.clone();
        (code[2 * row], code[2 * row + 1]) = (0x11, to);
        answers(fields(1, &code, &[], &[]), number, if number == 5 { row } else { 0 });
    }
    // 32 + 8 x 513 + 12 + 4,097 are 8,245
    let large = fields(4097, &rows, &[0, 4097, 1], &[5; 4097]);
    assert_eq!(refused(large, 8244), (12, 0));
    assert_eq!(written(large, 8245).2.len(), 8245);
}

#[test]
fn refusal_3_parts_of_entries() {
    for words in [1, 3, 5, 1023, 1025, 4095, 4097] {
        answers(fields(16, &vec![0; words], &[], &[]), 3, 0);
    }
    let regions = [0, 1, 2, 1, 1, 2, 2];
    for words in 0..=7 {
        let number = if words % 3 == 0 { 0 } else { 3 };
        answers(fields(16, NOTHING, &regions[..words], &[]), number, 0);
    }
    answers(fields(16, &[0, 0, 0], &[0, 1], &[]), 3, 0);
}

/// 4 GiB of data, of which the low 32 bits of the length would do. Nobody touches them.
#[cfg(target_pointer_width = "64")]
#[test]
fn a_list_longer_than_a_word_can_say_is_refused() {
    let data = vec![0; (1 << 32) + 8];
    answers(fields(8, NOTHING, &[0, 8, 1], &data[..8]), 0, 0);
    answers(fields(8, NOTHING, &[0, 8, 1], &data), 3, 0);
}

/// Is an instruction, second of three with M 64, accepted?
fn allowed(op: u8, d: u8, a: u8, b: u8, imm: u32) -> bool {
    let code = [0, 0, u32::from_le_bytes([op, d, a, b]), imm, 0, 0];
    let (number, index, _) = written(fields(64, &code, &[], &[]), 56);
    assert!((number, index) == (0, 0) || (number, index) == (5, 1));
    number == 0
}

#[test]
fn refusal_5_rows() {
    assert!(allowed(0, 0, 0, 0, 0));
    for op in 25..=255 {
        assert!(!allowed(op, 0, 0, 0, 0), "op {op}");
    }
    for op in 1..=12 {
        assert!(allowed(op, 14, 0, 15, 0) && allowed(op, 0, 0, LIT, ONES), "op {op}");
        assert!(!allowed(op, 16, 0, 0, 0) && !allowed(op, 0, 0, 16, 0), "op {op}");
        assert!(!allowed(op, 0, 0, 15, 1) && !allowed(op, 0, 0, 254, 0), "op {op}");
    }
    for op in (13..=16).chain(21..=24) {
        assert!(allowed(op, 14, 15, 0, ONES), "op {op}");
        assert!(!allowed(op, 0, 16, 0, 0) && !allowed(op, 0, 0, 1, 0), "op {op}");
    }
    // below N, which is 3 entries and 6 words
    for (to, is) in [(0, true), (2, true), (3, false), (5, false), (6, false), (ONES, false)] {
        assert_eq!(allowed(17, 0, 15, 0, to), is, "to {to}");
    }
    assert!(allowed(18, 0, 15, 0, 7) && !allowed(18, 0, 15, 0, 8));
    for op in [19, 20] {
        assert!(allowed(op, 0, 0, 0, 64 << 16) && allowed(op, 0, 0, 0, 1 << 16 | 63), "op {op}");
        assert!(!allowed(op, 0, 0, 0, 65 << 16) && !allowed(op, 0, 0, 0, 2 << 16 | 63), "op {op}");
        assert!(!allowed(op, 0, 0, 0, 63), "op {op}");
    }
}

/// Document 02's request L9: writers refuse alike.
#[test]
fn refusal_5_register_15() {
    for op in (1..=14).chain(21..=23) {
        let b = if op <= 12 { LIT } else { 0 };
        assert!(!allowed(op, 15, 0, b, 1), "op {op}");
        assert!(allowed(op, 14, 0, b, 1), "op {op}");
    }
    for op in [15, 16, 24] {
        assert!(allowed(op, 15, 15, 0, 1), "op {op}");
    }
}

#[test]
fn refusal_5_names_the_lowest() {
    let mut code = [0; 4096];
    code[4094] = 0x0F01; // register 15 as d
    answers(fields(16, &code, &[], &[]), 5, 2047);
    code[1024] = 25;
    answers(fields(16, &code, &[], &[]), 5, 512);
    code[1022] = 25;
    answers(fields(16, &code, &[], &[]), 5, 511);
    code[600] = 0x0F01;
    answers(fields(16, &code, &[], &[]), 5, 300);
    code[1] = 1;
    answers(fields(16, &code, &[], &[]), 5, 0);
}

#[test]
fn refusal_6_regions() {
    let with = |regions: &[u32], number, index| {
        answers(fields(16, NOTHING, regions, &[]), number, index);
    };
    with(&[0, 16, 2], 0, 0);
    with(&[0, 17, 2], 6, 0);
    with(&[15, 1, 2], 0, 0);
    with(&[16, 1, 2], 6, 0);
    with(&[3, 0, 2], 6, 0);
    with(&[0, 4, 0], 6, 0);
    with(&[0, 4, 3], 6, 0);
    with(&[0, 4, 0x0100_0002], 6, 0);
    with(&[0, 4, 2, 4, 4, 2], 0, 0);
    with(&[0, 4, 2, 3, 4, 2], 6, 1);
    with(&[8, 4, 2, 0, 4, 2], 6, 1);
    with(&[2, ONES, 2], 6, 0); // the end does not wrap
    with(&[0, 1, 2, 1, 1, 2, 2, 0, 2, 3, 0, 2], 6, 2);
}

#[test]
fn refusal_7_filled_sum() {
    let regions = [0, 4, 1, 4, 3, 2, 9, 2, 1];
    for (d, number) in [(6, 0), (5, 7), (7, 7), (9, 7), (0, 7), (4, 7), (4096, 7), (8192, 7)] {
        answers(fields(16, NOTHING, &regions, &vec![1; d]), number, 0);
    }
    answers(fields(16, NOTHING, &[], &[1]), 7, 0);
}

/// Each before all that come later, and the buffer always last.
#[test]
fn refusals_go_in_number_order() {
    let (bad_op, bad_region, data) = ([0, 0, 99, 0], [0, 1, 2, 1, 1, 9], [1, 2]);
    assert_eq!(refused(fields(0, &bad_op, &bad_region, &data), 0), (3, 0));
    assert_eq!(refused(fields(16, &[0, 0, 99, 0, 0], &bad_region, &data), 0), (3, 0));
    assert_eq!(refused(fields(16, &bad_op, &[0, 1, 9, 0], &data), 0), (3, 0));
    assert_eq!(refused(fields(16, &bad_op, &bad_region, &[0; 8193]), 0), (3, 0));
    assert_eq!(refused(fields(16, &bad_op, &bad_region, &[0; 4097]), 0), (5, 1));
    assert_eq!(refused(fields(16, &[], &bad_region, &data), 0), (3, 0));
    assert_eq!(refused(fields(16, &bad_op, &bad_region, &data), 0), (5, 1));
    assert_eq!(refused(fields(16, NOTHING, &bad_region, &data), 0), (6, 1));
    assert_eq!(refused(fields(16, NOTHING, &bad_region, &data), ROOM), (6, 1));
    assert_eq!(refused(fields(16, NOTHING, &[0, 1, 1], &data), 0), (7, 0));
    assert_eq!(refused(fields(16, NOTHING, &[0, 2, 1], &data), 0), (12, 0));
    assert_eq!(refused(fields(16, NOTHING, &[0, 2, 1], &data), 53), (12, 0));
    assert_eq!(written(fields(16, NOTHING, &[0, 2, 1], &data), 54).0, 0);
}
