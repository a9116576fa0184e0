//! Request L14 of document 02: the fillings themselves, and by them which bits of a result vary, each
//! case worked out by hand. A bit is called undefined exactly if it varies.

use compare::alarms::{Case, Filling, Operands, Seen, Stepper};
use compare::images::op::{ADD, AND, EQ, MOV, OR, SAR, SHL, SHR, SUB, XOR};
use compare::images::{Operand, Row};
use compare::prng::Prng;
use compare::types::Engine;
use compare::{checker, interpreter};
use faults::planted;

use crate::kit::*;

const DRAWN: Filling = [0x0F0F_0F0F, 0x3333_3333];

fn operands((x, v): (u32, u32), (y, w): (u32, u32)) -> Operands {
    Operands { x, v, y, w }
}

fn look(engine: &Engine, row: Row, operands: Operands) -> Seen {
    let case = Case::new(row, operands, &mut Prng::of_case(0, 0, 0));
    Stepper::new(engine).look(&case).unwrap()
}

/// The bits that vary, which the checker and the interpreter both call undefined.
fn varying_in(row: Row, operands: Operands) -> u32 {
    let [ours, theirs] = [checker::ENGINE, interpreter::ENGINE].map(|e| look(&e, row, operands));
    assert_eq!([ours.called, theirs.called, theirs.varies], [ours.varies; 3]);
    ours.varies
}

/// Of two registers, whichever of them or of the others gets the result.
fn varying(op: u8, first: (u32, u32), second: (u32, u32)) -> u32 {
    let into = |d| varying_in(Row::sum(op, d, 1, Operand::Register(2)), operands(first, second));
    let varies = into(3);
    assert_eq!([into(1), into(2), into(14)], [varies; 3]);
    varies
}

fn varying_beside(op: u8, first: (u32, u32), literal: u32) -> u32 {
    varying_in(Row::sum(op, 3, 1, Operand::Literal(literal)), operands(first, (literal, 0)))
}

#[test]
fn fillings_of_few_bits_are_all_there_are() {
    let given = operands((0b1010, 0b0011), (0b0101, 0b0100));
    let mut fillings = given.fillings(DRAWN);
    fillings.sort();
    let low = [0b0001, 0b0101];
    let expected = [0b1000, 0b1001, 0b1010, 0b1011].map(|x| low.map(|y| [x, y])).concat();
    assert_eq!(fillings, expected);
    assert_eq!(operands((7, 0), (9, 0)).fillings(DRAWN), [[7, 9]]);
}

#[test]
fn up_to_twelve_bits_every_filling_is_made() {
    let twelve = operands((0, 0x8000_003F), (0, 0x8000_000F));
    let mut fillings = twelve.fillings(DRAWN);
    fillings.sort();
    fillings.dedup();
    assert_eq!((twelve.undefined(), fillings.len()), (12, 4096));
    assert!(twelve.all_are_made());
    let thirteen = operands((0, 0x8000_003F), (0, 0x8000_001F));
    assert!(!thirteen.all_are_made());
    assert_eq!(thirteen.fillings(DRAWN).len(), 7 * 14);
}

#[test]
fn fillings_of_more_bits_turn_each_bit_against_each_ground() {
    // the high half of a undefined, and the low bits of its third byte in B
    let given = operands((0x1234_5678, 0xFFFF_0000), (0xABCD_5678, 0x000F_0000));
    let grounds = [
        [0x0000_5678, 0xABC0_5678],
        [0xFFFF_5678, 0xABCF_5678],
        [0x0000_5678, 0xABCF_5678],
        [0xFFFF_5678, 0xABC0_5678],
        [0x1234_5678, 0xABCD_5678],
        [0x0F0F_5678, 0xABC3_5678],
        [0xABC4_5678, 0xABC4_5678], // equal: B's where B is defined, else a's in both
    ];
    let turned = |[x, y]: Filling| {
        let of_a = (16..32).map(move |k| [x ^ (1 << k), y]);
        let of_b = (16..20).map(move |k| [x, y ^ (1 << k)]);
        [vec![[x, y]], of_a.collect(), of_b.collect()].concat()
    };
    assert_eq!(given.fillings(DRAWN), grounds.map(turned).concat());
}

#[test]
fn words_are_made_equal_only_where_a_bit_is_undefined() {
    // bit 31 differs and is defined; bits 0 to 15 are undefined in a alone
    let given = operands((0x8000_AAAA, 0xFFFF), (0x0000_5555, 0));
    assert!(given.fillings(DRAWN).contains(&[0x8000_5555, 0x5555]));
    assert!(given
        .fillings(DRAWN)
        .iter()
        .all(|[x, y]| x & 0xFFFF_0000 == 0x8000_0000 && *y == 0x5555));
}

#[test]
fn copied_bits_vary() {
    let copied =
        |d, (y, w)| varying_in(Row::copy(d, Operand::Register(2)), operands((0, 0), (y, w)));
    assert_eq!([copied(3, (7, 0x10)), copied(2, (7, 0x10))], [0x10; 2]);
    assert_eq!(copied(3, (0x1234_5678, ONES)), ONES);
    assert_eq!(copied(3, (ONES, 0)), 0);
    let literal = Row::copy(3, Operand::Literal(0xFEDC_BA98));
    assert_eq!(varying_in(literal, operands((0, 0), (0xFEDC_BA98, 0))), 0);
}

#[test]
fn a_defined_0_settles_a_bit_of_and() {
    // a has 0 and 1 defined in bits 0 and 1, 0 and 1 undefined in bits 2 and 3; B is undefined
    assert_eq!(varying(AND, (0b1010, 0b1100), (0b0000, 0b1111)), 0b1110);
    assert_eq!(varying(AND, (0b1010, 0b1100), (0b1111, 0b1111)), 0b1110);
    assert_eq!(varying(AND, (0b1010, 0b1100), (0b0101, 0)), 0b0100);
    assert_eq!(varying(AND, (0xF, 0), (0, ONES)), 0xF);
    assert_eq!(varying(AND, (0, ONES), (ONES, ONES)), ONES);
    assert_eq!(varying_beside(AND, (0, ONES), 1), 1);
    assert_eq!(varying_beside(AND, (0xF0, 0xFF), 0), 0);
}

#[test]
fn a_defined_1_settles_a_bit_of_or() {
    assert_eq!(varying(OR, (0b1010, 0b1100), (0b0000, 0b1111)), 0b1101);
    assert_eq!(varying(OR, (0b1010, 0b1100), (0b1111, 0b1111)), 0b1101);
    assert_eq!(varying(OR, (0b1010, 0b1100), (0b0101, 0)), 0b1000);
    assert_eq!(varying(OR, (0xF, 0), (0, ONES)), 0xFFFF_FFF0);
    assert_eq!(varying_beside(OR, (0, ONES), 0xFFFF_0000), 0xFFFF);
}

#[test]
fn nothing_settles_a_bit_of_xor() {
    assert_eq!(varying(XOR, (3, 0x30), (3, 0x03)), 0x33);
    assert_eq!(varying(XOR, (3, 0x30), (3, 0x30)), 0x30);
    assert_eq!(varying(XOR, (5, ONES), (5, 0xFFFF)), ONES);
    assert_eq!(varying_beside(XOR, (0, 0x8000_0001), ONES), 0x8000_0001);
}

#[test]
fn equality_varies_unless_defined_bits_differ() {
    // settled: bit 0, above and below undefined bits, among undefined bits of both
    assert_eq!(varying(EQ, (1, 0x80), (0, 0)), 0);
    assert_eq!(varying(EQ, (0x0001_0000, 0x8000_0001), (0, 0x8000_0000)), 0);
    assert_eq!(varying(EQ, (0x8000_0000, 0x7FFF_FFFF), (0, 0x7FFF_FFFF)), 0);
    // unsettled: equal data; other data in undefined bits alone, of a, of B, of both
    assert_eq!(varying(EQ, (0, 0x80), (0, 0)), 1);
    assert_eq!(varying(EQ, (0x80, 0x80), (0, 0)), 1);
    assert_eq!(varying(EQ, (0x11, 1), (0, 0x10)), 1);
    assert_eq!(varying(EQ, (0x1234_5678, 0xFFFF_0000), (0x8765_5678, 0xFFFF_0000)), 1);
    assert_eq!(varying(EQ, (5, ONES), (6, ONES)), 1);
    assert_eq!(varying(EQ, (5, 0), (5, 0)), 0);
    assert_eq!(varying_beside(EQ, (5, 0x80), 4), 0);
    assert_eq!(varying_beside(EQ, (5, 0x80), 0x85), 1);
    assert_eq!(varying_beside(EQ, (5, ONES), 6), 1);
}

#[test]
fn vacated_places_do_not_vary() {
    assert_eq!(varying(SHL, (0, 0x81), (4, 0)), 0x810);
    assert_eq!(varying(SHL, (0, ONES), (8, 0)), 0xFFFF_FF00);
    assert_eq!(varying(SHR, (0, ONES), (8, 0)), 0x00FF_FFFF);
    assert_eq!(varying(SHR, (ONES, 0x8000_0000), (31, 0)), 1);
    assert_eq!(varying(SHL, (ONES, 0x8000_0000), (1, 0)), 0);
    assert_eq!(varying_beside(SHL, (0, 0x81), 32), 0x81);
    assert_eq!(varying_beside(SHR, (0, 0x100), ONES), 0);
    assert_eq!(varying_beside(SHL, (0, 1), ONES), 0x8000_0000);
}

#[test]
fn an_undefined_top_bit_varies_in_every_place_it_fills() {
    assert_eq!(varying(SAR, (0, 0x8000_0000), (4, 0)), 0xF800_0000);
    assert_eq!(varying(SAR, (0x8000_0000, 0x8000_0000), (31, 0)), ONES);
    assert_eq!(varying(SAR, (0x8000_0000, 0x10), (4, 0)), 1);
    assert_eq!(varying(SAR, (0x8000_0000, 0x7FFF_FFFF), (16, 0)), 0x7FFF);
    assert_eq!(varying_beside(SAR, (0, 0x8000_0001), 33), 0xC000_0000);
}

/// Nothing is claimed of these; but what the rules of L13 call varies here.
#[test]
fn carries_and_borrows_vary() {
    assert_eq!(varying(ADD, (0, 0x100), (0, 0)), 0x100);
    assert_eq!(varying(ADD, (0xFFFF_FE00, 0x100), (0x100, 0)), 0xFFFF_FF00);
    assert_eq!(varying(ADD, (0, ONES), (0, 0x8000_0000)), ONES);
    assert_eq!(varying(SUB, (0, 0), (0, 0x10)), 0xFFFF_FFF0);
    assert_eq!(varying(SUB, (0x20, 0), (0, 0x10)), 0x30);
    // a borrow out of the low half stops at bit 16
    assert_eq!(varying_beside(SUB, (0xFFFF_0000, 0xFFFF), 1), 0x0001_FFFF);
}

/// A planted fault in the checker's place: what it calls, and what varies, with few and with many bits.
#[test]
fn a_wrong_rule_is_seen_in_its_direction() {
    let seen = |fault, op, first, second| {
        let row = Row::sum(op, 3, if op == MOV { 0 } else { 1 }, Operand::Register(2));
        let Seen { called, varies, .. } =
            look(planted(fault).unwrap(), row, operands(first, second));
        (called, varies)
    };
    assert_eq!(seen("eq_of_document_01", EQ, (1, 0x80), (0, 0)), (1, 0));
    assert_eq!(seen("eq_of_document_01", EQ, (1, 0xFFFF_0000), (0, 0)), (1, 0));
    assert_eq!(seen("eq_any_difference", EQ, (2, 2), (0, 0)), (0, 1));
    assert_eq!(seen("eq_any_difference", EQ, (2, ONES), (0, 0)), (0, 1));
    assert_eq!(seen("and_lacks_mirror", AND, (0, 0xFF), (0xF, 0)), (0xFF, 0xF));
    assert_eq!(seen("and_lacks_mirror", AND, (0, ONES), (0xF, 0)), (ONES, 0xF));
    assert_eq!(seen("or_undefined_in_both", OR, (0, ONES), (0, 0xF)), (0xF, ONES));
    assert_eq!(seen("xor_and_of_v", XOR, (0, ONES), (0, 0xF)), (0xF, ONES));
    assert_eq!(seen("shl_v_rotates", SHL, (0, ONES), (4, 0)), (ONES, 0xFFFF_FFF0));
    assert_eq!(seen("mov_whole_byte_undefined", MOV, (0, 0), (0, 0x100)), (0xFF00, 0x100));
    assert_eq!(seen("mov_defined", MOV, (0, 0), (0, ONES)), (0, ONES));
    assert_eq!(seen("shl_vacated_undefined", SHL, (0, 0x80), (4, 0)), (0x80F, 0x800));
    assert_eq!(seen("sar_fills_undefined", SAR, (0, 0x80), (4, 0)), (0xF000_0008, 8));
}
