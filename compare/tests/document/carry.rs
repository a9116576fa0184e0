//! ADD and SUB by document 02's request L13: where a carry or a borrow stops, how far it runs, and what a
//! use of the bits above it then reports. Each V is v or w or (the lowest result xor the highest): of the
//! operands with undefined bits 0 and 1 for ADD, 0 less 1 and 1 less 0 for SUB.

use compare::bare::Bare;

use crate::kit::*;

const ADD: u8 = 2;
const SUB: u8 = 3;
const MUL: u8 = 4;

/// One ADD of two registers, each data and V: its data and V, the same with the sides exchanged.
fn added(first: (u32, u32), second: (u32, u32)) -> (u32, u32) {
    let answer = op_on(ADD, first, second);
    assert_eq!(op_on(ADD, second, first), answer);
    answer
}

fn less(first: (u32, u32), second: (u32, u32)) -> (u32, u32) {
    op_on(SUB, first, second)
}

#[test]
fn sums_of_defined_words() {
    assert_eq!(added((0, 0), (0, 0)), (0, 0));
    assert_eq!(added((ONES, 0), (1, 0)), (0, 0));
    assert_eq!(added((0x8000_0001, 0), (0x8000_0001, 0)), (2, 0));
    assert_eq!(less((0, 0), (1, 0)), (ONES, 0));
    assert_eq!(less((5, 0), (5, 0)), (0, 0));
    assert_eq!(literal_op(ADD, (7, 0), 0xFFF9), (0x1_0000, 0));
    assert_eq!(literal_op(SUB, (7, 0), 8), (ONES, 0));
}

#[test]
fn a_carry_stops_at_a_defined_nought() {
    // there is none: 0 and 0x100; 0 and 0xF; 0x2F00 and 0x2FFF
    assert_eq!(added((0, 0x100), (0, 0)), (0, 0x100));
    assert_eq!(added((0, 0xF), (0, 0)), (0, 0xF));
    assert_eq!(added((0x1034, 0xFF), (0x1F00, 0)), (0x2F34, 0xFF));
    // into the first defined bit: 1 and 0x10; 0x10 and 0x20
    assert_eq!(added((0, 0xF), (1, 0)), (1, 0x1F));
    assert_eq!(added((0, 0x10), (0x10, 0)), (0x10, 0x30));
    // through a defined 1, bit 5, into bit 6, and bit 8 is not reached: 0x130 and 0x140
    assert_eq!(added((0x120, 0x10), (0x10, 0)), (0x130, 0x70));
    // two carries, each stopped by itself: 0x0010_0010 and 0x0020_0020
    assert_eq!(added((0, 0x10_0010), (0x10_0010, 0)), (0x10_0010, 0x30_0030));
    // bits 5 to 7 take it up whichever operand has the ones: 0xF0 and 0x100
    assert_eq!(added((0xA0, 0x10), (0x50, 0)), (0xF0, 0x1F0));
    assert_eq!(literal_op(ADD, (0x20, 0x10), 0x10), (0x30, 0x70));
    assert_eq!(literal_op(ADD, (0x20, 0x10), 0), (0x20, 0x10));
}

#[test]
fn a_carry_runs_through_defined_ones() {
    // 0xFFFFFF00 and, wrapped, 0
    assert_eq!(added((0xFFFF_FE00, 0x100), (0x100, 0)), (0xFFFF_FF00, 0xFFFF_FF00));
    // over one byte, 0xFF and 0x100; over three bytes and a bit; to the top; and round it
    assert_eq!(added((0, 1), (0xFF, 0)), (0xFF, 0x1FF));
    assert_eq!(added((0, 1), (0xFF_FFFF, 0)), (0xFF_FFFF, 0x1FF_FFFF));
    assert_eq!(added((0, 1), (0x7FFF_FFFF, 0)), (0x7FFF_FFFF, ONES));
    assert_eq!(added((0, 1), (ONES, 0)), (ONES, ONES));
    // no ones from the undefined bit on: 0xFFFFFFFE and 0xFFFFFFFF
    assert_eq!(added((0, 1), (0xFFFF_FFFE, 0)), (0xFFFF_FFFE, 1));
    assert_eq!(literal_op(ADD, (1, 1), 0xFFFF), (0x1_0000, 0x1_FFFF));
}

#[test]
fn a_borrow_stops_at_a_defined_one() {
    // there is none: 0 and 0x100; 0 and 1; 0xFF00 and 0xFFFF
    assert_eq!(less((0, 0x100), (0, 0)), (0, 0x100));
    assert_eq!(less((1, 0), (0, 1)), (1, 1));
    assert_eq!(less((0xFFFF, 0), (0x12, 0xFF)), (0xFFED, 0xFF));
    // from the first defined bit: 1 and 2; 0x100 and 0x200
    assert_eq!(less((2, 1), (1, 0)), (1, 3));
    assert_eq!(less((0x200, 0x100), (0x100, 0)), (0x100, 0x300));
    // through noughts to bit 8, a's undefined bit or B's: 0xFF and 0x100, both times
    assert_eq!(less((0x100, 1), (1, 0)), (0xFF, 0x1FF));
    assert_eq!(less((0x100, 0), (0, 1)), (0x100, 0x1FF));
    // 0x20 and 0x110: bit 8 stops what bits 4 to 7 of B may borrow
    assert_eq!(less((0x110, 0), (0, 0xF0)), (0x110, 0x1F0));
    // bit 8 stops it, or bit 9 where B takes bit 8 away: 0xFF and 0x100, 0x1FF and 0x200
    assert_eq!(less((0x300, 1), (0x201, 0)), (0xFF, 0x1FF));
    assert_eq!(less((0x300, 1), (0x101, 0)), (0x1FF, 0x3FF));
    assert_eq!(literal_op(SUB, (0x20, 0x10), 0x10), (0x10, 0x30));
    assert_eq!(literal_op(SUB, (0x20, 0x10), 0), (0x20, 0x10));
}

#[test]
fn a_borrow_runs_through_defined_noughts() {
    // 0xFFFFFFFF and 0, a's undefined bit or B's
    assert_eq!(less((0, 1), (1, 0)), (ONES, ONES));
    assert_eq!(less((0, 0), (0, 1)), (0, ONES));
    // 0xFFFFFF00 and 0
    assert_eq!(less((0, 0x100), (0x100, 0)), (0xFFFF_FF00, 0xFFFF_FF00));
    // 0xFFFFFF20 and 0x10
    assert_eq!(less((0x10, 0), (0, 0xF0)), (0x10, 0xFFFF_FFF0));
    // through ones that B takes away: 0xFFFFFFFF and 0
    assert_eq!(less((0xFFF0, 1), (0xFFF1, 0)), (ONES, ONES));
    assert_eq!(literal_op(SUB, (0, 1), 1), (ONES, ONES));
}

/// Where both results agree in a bit that is undefined, v or w says that it is.
#[test]
fn the_operands_own_bits_stay_undefined() {
    // the same bit on both sides: 0 and 2; 0 and 0x1E0; 1 and 3; 0x10 and 0x30; 0xFFFFFFFF and 1
    assert_eq!(added((0, 1), (0, 1)), (0, 3));
    assert_eq!(added((0, 0xF0), (0, 0xF0)), (0, 0x1F0));
    assert_eq!(less((2, 1), (0, 1)), (2, 3));
    assert_eq!(less((0x20, 0x10), (0, 0x10)), (0x20, 0x30));
    assert_eq!(less((0, 1), (0, 1)), (0, ONES));
    // bit 1 alone agrees: 1 and 4; 3 and 6; 1 and 4
    assert_eq!(added((0, 3), (1, 0)), (1, 7));
    assert_eq!(less((4, 3), (1, 0)), (3, 7));
    assert_eq!(less((4, 0), (0, 3)), (4, 7));
    // bits 0 and 1 agree: 0 and 4
    assert_eq!(added((0, 3), (0, 1)), (0, 7));
}

#[test]
fn other_bits_of_both_are_undefined() {
    // 0 and 0xFF: no carry between them
    assert_eq!(added((0, 0xF), (0, 0xF0)), (0, 0xFF));
    // 2 and 0x52
    assert_eq!(added((1, 0x40), (1, 0x10)), (2, 0x50));
    // the carry of one goes on through the other: 1 and 4; 0xF and 0x100
    assert_eq!(added((0, 1), (1, 2)), (1, 7));
    assert_eq!(added((0, 1), (0xF, 0xF0)), (0xF, 0x1FF));
    // 0xF1 and 0x1F0; 0xFFFFFFF0 and 0x40
    assert_eq!(less((0x100, 0xF0), (0, 0xF)), (0x100, 0x1FF));
    assert_eq!(less((1, 0x40), (1, 0x10)), (0, 0xFFFF_FFF0));
    // all of both: 0 and 0xFFFFFFFE; 1 and 0xFFFFFFFF
    assert_eq!(added((5, ONES), (6, ONES)), (11, ONES));
    assert_eq!(less((5, ONES), (6, ONES)), (ONES, ONES));
}

/// What leaves bit 31 is gone; results that agree there leave it to v or w.
#[test]
fn the_top_bit() {
    let top = 0x8000_0000;
    assert_eq!(added((0, top), (0, 0)), (0, top));
    assert_eq!(added((0, top), (top, 0)), (top, top)); // 0x80000000 and 0
    assert_eq!(added((0, top), (0, top)), (0, top)); // 0 and 0
    assert_eq!(added((0, 0x4000_0000), (0x4000_0000, 0)), (0x4000_0000, 0xC000_0000));
    assert_eq!(less((0, top), (0, 0)), (0, top));
    assert_eq!(less((0, 0), (0, top)), (0, top)); // 0x80000000 and 0
    assert_eq!(less((0, top), (0, top)), (0, top)); // 0x80000000 twice
    assert_eq!(less((top, 0x4000_0000), (0x4000_0000, 0)), (0x4000_0000, 0xC000_0000));
}

#[test]
fn every_bit_carries_and_borrows() {
    for k in 0..32 {
        let (bit, from) = (1 << k, ONES << k);
        let two = bit | bit << 1; // of bit 31 the second is gone
        assert_eq!(added((0, bit), (0, 0)), (0, bit), "bit {k}");
        assert_eq!(added((0, bit), (bit, 0)), (bit, two), "bit {k}");
        assert_eq!(added((0, bit), (from, 0)), (from, from), "bit {k}");
        assert_eq!(less((0, bit), (0, 0)), (0, bit), "bit {k}");
        assert_eq!(less((bit << 1, bit), (bit, 0)).1, two, "bit {k}");
        assert_eq!(less((0, bit), (bit, 0)), (from, from), "bit {k}");
        assert_eq!(less((0, 0), (0, bit)), (0, from), "bit {k}");
    }
}

/// V has a bit exactly where two fillings of the undefined bits give it different values, and no bit that
/// document 01's rule does not have; every pair of words in the lowest and in the highest three bits.
#[test]
fn a_bit_is_undefined_where_undefined_bits_move_it() {
    let sums: [(u8, fn(u32, u32) -> u32); 2] = [(ADD, u32::wrapping_add), (SUB, u32::wrapping_sub)];
    for case in 0..2 * 8u32.pow(4) {
        let shift = 29 * (case >> 12);
        let [x, v, y, w] = [0, 3, 6, 9].map(|at| (case >> at & 7) << shift);
        for (op, sum) in sums {
            let filled =
                |fill: u32| sum(x & !v | fill << shift & v, y & !w | fill >> 3 << shift & w);
            let moved = (0..64).fold(0, |moved, fill| moved | filled(fill) ^ filled(0));
            assert_eq!(op_on(op, (x, v), (y, w)), (sum(x, y), moved), "{op} {x} {v} {y} {w}");
            let lowest_and_above = (v | w) | (v | w).wrapping_neg();
            assert_eq!(moved & !lowest_and_above, 0, "{op} {x} {v} {y} {w}");
        }
    }
}

/// Of x 0x120 bits 1 and 4 are undefined, of y 0x10 bit 1. ADD: 0x130 and 0x144. SUB: 0x10E and 0x122.
#[test]
fn the_data_in_undefined_bits_does_not_matter() {
    for fill in 0..8 {
        let x = 0x120 | (fill & 1) << 1 | (fill & 2) << 3;
        let y = 0x10 | (fill & 4) >> 1;
        assert_eq!(op_on(ADD, (x, 0x12), (y, 2)), (x + y, 0x76));
        assert_eq!(op_on(SUB, (x, 0x12), (y, 2)), (x - y, 0x3E));
    }
}

/// The operands are taken for two words that have nothing to do with each other.
#[test]
fn a_register_with_itself_has_no_exception() {
    let twice = |op, data, v| {
        let mut kit = Kit::new(image(1, &[(op, 3, 1, 1, 0)], &[], &[]), [0; 16]);
        (kit.state.regs[1], kit.state.vregs[1]) = (data, v);
        assert_eq!(kit.run(1), 2);
        assert_eq!((kit.state.regs[1], kit.state.vregs[1]), (data, v));
        (kit.state.regs[3], kit.state.vregs[3])
    };
    let top = 0x8000_0000;
    // 0 and 2; 0xA and 0x1A; 0 and 0; 0 and 0xFFFFFFFE
    assert_eq!(twice(ADD, 9, 0), (18, 0));
    assert_eq!(twice(ADD, 0, 1), (0, 3));
    assert_eq!(twice(ADD, 5, 8), (10, 0x18));
    assert_eq!(twice(ADD, 0, top), (0, top));
    assert_eq!(twice(ADD, 7, ONES), (14, ONES));
    // 0xFFFFFFFF and 1; 0xFFFFFFF8 and 8; 0x80000000 twice; 1 and 0xFFFFFFFF
    assert_eq!(twice(SUB, 9, 0), (0, 0));
    assert_eq!(twice(SUB, 0, 1), (0, ONES));
    assert_eq!(twice(SUB, 5, 8), (0, 0xFFFF_FFF8));
    assert_eq!(twice(SUB, 0, top), (0, top));
    assert_eq!(twice(SUB, 7, ONES), (0, ONES));
}

#[test]
fn a_sum_into_one_of_its_operands() {
    let code = [(ADD, 1, 1, 2, 0), (SUB, 2, 1, 2, 0)];
    let mut kit = Kit::new(image(1, &code, &[], &[]), [0; 16]);
    (kit.state.regs[1], kit.state.vregs[1]) = (0x20, 0x0F);
    (kit.state.regs[2], kit.state.vregs[2]) = (0x01, 0);
    assert_eq!(kit.run(1), 3);
    assert_eq!((kit.state.regs[1], kit.state.vregs[1]), (0x21, 0x1F)); // 0x21 and 0x30
    assert_eq!(kit.run(1), 2);
    assert_eq!((kit.state.regs[2], kit.state.vregs[2]), (0x20, 0x3F)); // 0x1F and 0x3E
}

#[test]
fn products_keep_left() {
    assert_eq!(op_on(MUL, (0, 0x100), (0, 0)), (0, 0xFFFF_FF00));
    assert_eq!(op_on(MUL, (5, 0), (1, 0x10)), (5, 0xFFFF_FFF0));
    assert_eq!(literal_op(MUL, (5, 0x10), 0), (0, 0xFFFF_FFF0));
    assert_eq!(op_on(MUL, (5, 0), (7, 0)), (35, 0));
}

/// A packed word of which one byte is set, 0x21 at bits 8 to 15; the others are what was there before.
fn packed_image() -> Vec<u8> {
    let code = [
        (1, 1, 0, LIT, 0x21),
        (15, 1, 15, 0, 1),
        (14, 2, 15, 0, 0),
        (ADD, 2, 2, LIT, 0x0201), // 0x2301 and 0xFFFF2400: bits 11 to 15 are settled
        (9, 3, 2, LIT, 11),
        (5, 3, 3, LIT, 0x1F),
        (17, 0, 3, 0, 8), // reported by document 01's rule, with V 0x1F
        STOP,
        (18, 0, 3, 0, 4),
        (SUB, 2, 2, LIT, 0x0101), // 0x1EFF and 0xFFFF26FE: bits 14 and 15 are
        (9, 3, 2, LIT, 14),
        (5, 3, 3, LIT, 3),
        (18, 0, 3, 0, 5),
        (5, 3, 2, LIT, 0x2000),
        (18, 0, 3, 0, 6),
    ];
    image(4, &code, &[[0, 4, 2]], &[])
}

#[test]
fn bits_above_a_stopped_carry_are_used_without_a_report() {
    let mut kit = Kit::new(packed_image(), [0; 16]);
    assert_eq!(kit.run(4), 3);
    assert_eq!((kit.state.regs[2], kit.state.vregs[2]), (0x7777_2378, 0xFFFF_07FF));
    assert_eq!(kit.run(2), 3);
    assert_eq!((kit.state.regs[3], kit.state.vregs[3]), (4, 0));
    assert_eq!(kit.run(6), 3);
    assert_eq!((kit.state.regs[2], kit.state.vregs[2]), (0x7777_2277, 0xFFFF_3FFF));
    assert_eq!((kit.state.index, kit.state.outputs, kit.state.reports), (13, 2, 0));
    assert_eq!(kit.run(100), 2);
    assert_eq!((kit.state.index, kit.state.steps), (15, 14));
    assert_eq!(kit.outputs[..6], [4, 4, 5, 0, 6, 0x2000]);
    assert_eq!((kit.state.reports, kit.report(0)), (1, [13, 14, 5, 0x2000]));
}

/// Whatever lay in the other bytes, the settled bits are the same.
#[test]
fn bits_above_a_stopped_carry_do_not_depend_on_what_was_there_before() {
    let image = packed_image();
    for left in [0x77, 0xFF, 0xFE, 0x00] {
        let mut bare = Bare::begin(&image, &[0; 16], &[left; 4]);
        assert_eq!(bare.run(&image, 9, 12), 3);
        assert_eq!((bare.index, bare.outputs), (13, vec![(4, 4), (5, 0)]));
    }
}
