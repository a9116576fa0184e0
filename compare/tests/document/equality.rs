//! EQ by document 02's request L4: what settles the answer, what does not, and what a use of it then
//! reports.

use compare::bare::Bare;

use crate::kit::*;

const EQ: u8 = 11;
const LTU: u8 = 12;

/// One EQ of two registers, each data and V: its data and V, the same with the sides exchanged.
fn both_ways(first: (u32, u32), second: (u32, u32)) -> (u32, u32) {
    let answer = op_on(EQ, first, second);
    assert_eq!(op_on(EQ, second, first), answer);
    answer
}

#[test]
fn equality_of_defined_words() {
    assert_eq!(both_ways((0, 0), (0, 0)), (1, 0));
    assert_eq!(both_ways((ONES, 0), (ONES, 0)), (1, 0));
    assert_eq!(both_ways((5, 0), (4, 0)), (0, 0));
    assert_eq!(both_ways((0x8000_0005, 0), (5, 0)), (0, 0));
    assert_eq!(literal_op(EQ, (7, 0), 7), (1, 0));
    assert_eq!(literal_op(EQ, (7, 0), 0x107), (0, 0));
}

#[test]
fn equality_settled_by_a_defined_difference() {
    // bits 8 to 15 undefined on one side; the difference above them, below them, above and below, and
    // below with other data in the undefined bits
    assert_eq!(both_ways((0x9234_5678, 0xFF00), (0x1234_5678, 0)), (0, 0));
    assert_eq!(both_ways((0x1234_5679, 0xFF00), (0x1234_5678, 0)), (0, 0));
    assert_eq!(both_ways((0x1235_5678, 0xFF00), (0x1234_56F8, 0)), (0, 0));
    assert_eq!(both_ways((0x1234_5679, 0xFF00), (0x1234_AA78, 0)), (0, 0));
    // between undefined bits
    assert_eq!(both_ways((0x0001_0000, 0x8000_0001), (0, 0)), (0, 0));
    // undefined bits on both sides: the same ones, others
    assert_eq!(both_ways((0x11, 0x10), (0, 0x10)), (0, 0));
    assert_eq!(both_ways((0x8000_0011, 1), (0, 0x10)), (0, 0));
    assert_eq!(literal_op(EQ, (5, 0x80), 4), (0, 0));
    assert_eq!(literal_op(EQ, (5, 0xFFFF_FFFB), 1), (0, 0));
}

#[test]
fn equality_that_undefined_bits_decide() {
    // bits 8 to 15 undefined on one side, all data equal, or other data in these bits only
    assert_eq!(both_ways((0x1234_5678, 0xFF00), (0x1234_5678, 0)), (1, 1));
    assert_eq!(both_ways((0x1234_5678, 0xFF00), (0x1234_0078, 0)), (0, 1));
    // the only differing bit is defined on one side, or on neither
    assert_eq!(op_on(EQ, (0x10, 0), (0, 0x10)), (0, 1));
    assert_eq!(op_on(EQ, (0x10, 0x10), (0, 0)), (0, 1));
    assert_eq!(op_on(EQ, (0, 0), (0x10, 0x10)), (0, 1));
    assert_eq!(op_on(EQ, (0, 0x10), (0x10, 0)), (0, 1));
    assert_eq!(both_ways((0x10, 0x10), (0, 0x10)), (0, 1));
    // two differing bits, one undefined in a, the other in B
    assert_eq!(both_ways((0x11, 1), (0, 0x10)), (0, 1));
    // nothing is defined on both sides
    assert_eq!(both_ways((5, ONES), (5, 0)), (1, 1));
    assert_eq!(both_ways((5, ONES), (6, 0)), (0, 1));
    assert_eq!(both_ways((5, ONES), (6, ONES)), (0, 1));
    assert_eq!(both_ways((0xFFFF, 0xFFFF), (0, 0xFFFF_0000)), (0, 1));
    assert_eq!(literal_op(EQ, (5, 0x80), 5), (1, 1));
    assert_eq!(literal_op(EQ, (5, 0x80), 0x85), (0, 1));
}

/// With one bit defined on both sides that bit settles the answer, and with one bit undefined it does
/// not, wherever it is.
#[test]
fn every_bit_counts_in_equality() {
    for k in 0..32 {
        let bit = 1 << k;
        assert_eq!(both_ways((bit, !bit), (0, !bit)), (0, 0), "bit {k} defined");
        assert_eq!(both_ways((bit, !bit), (bit, 0)), (1, 1), "bit {k} defined");
        assert_eq!(both_ways((ONES, bit), (ONES, 0)), (1, 1), "bit {k} undefined");
        assert_eq!(both_ways((ONES, bit), (!bit, 0)), (0, 1), "bit {k} undefined");
        assert_eq!(both_ways((ONES, bit), (0, 0)), (0, 0), "bit {k} undefined");
    }
}

/// V is 1 exactly where two fillings of the undefined bits give different answers; every pair of words
/// in three places.
#[test]
fn equality_is_undefined_where_undefined_bits_decide() {
    let placed = |bits: u32| bits & 1 | (bits & 2) << 12 | (bits & 4) << 29;
    for case in 0..8u32.pow(4) {
        let [x, v, y, w] = [0, 3, 6, 9].map(|shift| case >> shift & 7);
        let filled = |fill: u32| (x & !v | fill & v) == (y & !w | fill >> 3 & w);
        let decided = (0..64).all(|fill| filled(fill) == filled(0));
        let answer = op_on(EQ, (placed(x), placed(v)), (placed(y), placed(w)));
        assert_eq!(answer, (u32::from(x == y), u32::from(!decided)), "{x} {v} {y} {w}");
    }
}

#[test]
fn equality_of_a_register_with_itself_has_no_exception() {
    for (v, expected) in [(0, (1, 0)), (0x80, (1, 1)), (0x8000_0000, (1, 1)), (ONES, (1, 1))] {
        let mut kit = Kit::new(image(1, &[(EQ, 3, 1, 1, 0)], &[], &[]), [9; 16]);
        kit.state.vregs[1] = v;
        assert_eq!(kit.run(1), 2);
        assert_eq!((kit.state.regs[3], kit.state.vregs[3]), expected);
        assert_eq!((kit.state.regs[1], kit.state.vregs[1]), (9, v));
    }
}

#[test]
fn equality_into_one_of_its_operands() {
    let code = [(EQ, 1, 1, 2, 0), (EQ, 2, 1, 2, 0)];
    let mut kit = Kit::new(image(1, &code, &[], &[]), [0; 16]);
    (kit.state.regs[1], kit.state.vregs[1]) = (0x30, 0x0F);
    (kit.state.regs[2], kit.state.vregs[2]) = (0x20, 0xF000_0000);
    assert_eq!(kit.run(1), 3);
    assert_eq!((kit.state.regs[1], kit.state.vregs[1]), (0, 0)); // bit 4 settles it
    assert_eq!(kit.run(1), 2);
    assert_eq!((kit.state.regs[2], kit.state.vregs[2]), (0, 0)); // bit 5
}

#[test]
fn below_keeps_its_rule() {
    assert_eq!(op_on(LTU, (1, 0x80), (0, 0)), (0, 1));
    assert_eq!(op_on(LTU, (0, 0), (0x8000_0000, 1)), (1, 1));
    assert_eq!(literal_op(LTU, (0x100, 1), 7), (0, 1));
}

/// A status word of which one byte is set, 0x21 at bits 8 to 15; the others are what was there before.
fn status_image() -> Vec<u8> {
    let code = [
        (1, 1, 0, LIT, 0x21),
        (15, 1, 15, 0, 1),
        (14, 2, 15, 0, 0),
        (EQ, 3, 2, LIT, 0x2200), // bits 8 and 9 differ
        (17, 0, 3, 0, 0),
        (18, 0, 3, 0, 4),
        (EQ, 3, 2, LIT, 0x7777_2177), // no defined bit differs
        (18, 0, 3, 0, 5),
        (18, 0, 3, 0, 6),
        (EQ, 4, 2, 2, 0),
        (17, 0, 4, 0, 12),
        STOP,
        (18, 0, 4, 0, 7),
    ];
    image(4, &code, &[[0, 4, 2]], &[])
}

#[test]
fn a_settled_answer_is_used_without_a_report() {
    let mut kit = Kit::new(status_image(), [0; 16]);
    assert_eq!(kit.run(7), 3);
    assert_eq!((kit.state.regs[2], kit.state.vregs[2]), (0x7777_2177, 0xFFFF_00FF));
    assert_eq!((kit.state.index, kit.state.outputs, kit.state.reports), (7, 1, 0));
    assert_eq!((kit.state.regs[3], kit.state.vregs[3]), (1, 1));
    assert_eq!(kit.outputs[..2], [4, 0]);
    assert_eq!(kit.run(100), 2);
    assert_eq!((kit.state.index, kit.state.steps), (13, 12));
    assert_eq!((kit.state.outputs, kit.state.reports), (4, 2));
    assert_eq!(kit.outputs[2..8], [5, 1, 6, 1, 7, 1]);
    assert_eq!((kit.report(0), kit.report(1)), ([7, 7, 5, 1], [10, 10, 2, 1]));
    assert_eq!((kit.state.vregs[3], kit.state.vregs[4]), (0, 0));
}

/// Whatever lay in the other bytes, the settled answer is the same; the one after it is not.
#[test]
fn a_settled_answer_does_not_depend_on_what_was_there_before() {
    let image = status_image();
    for (left, unsettled) in [(0x77, 1), (0x99, 0), (0x00, 0)] {
        let mut bare = Bare::begin(&image, &[0; 16], &[left; 4]);
        assert_eq!(bare.run(&image, 9, 7), 3);
        assert_eq!((bare.index, bare.outputs, bare.regs[3]), (7, vec![(4, 0)], unsettled));
    }
}
