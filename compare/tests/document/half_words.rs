//! Half words and signed loads, by request L1 of document 02: the bytes that are loaded and stored, what
//! lies above them, unaddressable bytes and the ends of memory.

use crate::kit::*;

const LD8: u8 = 13;
const LD16: u8 = 21;
const LDS8: u8 = 22;
const LDS16: u8 = 23;
const ST16: u8 = 24;

/// Data, V and A of a byte.
type Byte = (u8, u8, u8);

/// A machine of one instruction whose memory is these bytes. Register 15 is 0 and defined.
fn machine(instruction: Ins, bytes: &[Byte]) -> Kit {
    let mut kit = Kit::new(image(bytes.len() as u32, &[instruction], &[], &[]), [0; 16]);
    kit.mem = bytes.iter().map(|byte| byte.0).collect();
    kit.v = bytes.iter().map(|byte| byte.1).collect();
    kit.a = bytes.iter().map(|byte| byte.2).collect();
    kit
}

/// One load into register 3: its data and V, and how many reports it makes, at most one and of kind 3.
fn load(op: u8, address: u32, bytes: &[Byte]) -> (u32, u32, u32) {
    let mut kit = machine((op, 3, 15, 0, address), bytes);
    let before = kit.clone();
    assert_eq!(kit.run(1), 2);
    assert_eq!((&kit.mem, &kit.v, &kit.a), (&before.mem, &before.v, &before.a));
    assert!(kit.state.reports <= 1);
    if kit.state.reports == 1 {
        assert_eq!(kit.report(0), [0, 0, 3, address]);
    }
    (kit.state.regs[3], kit.state.vregs[3], kit.state.reports)
}

/// Of two addressable bytes at 1, between others whose top bits are the opposite: data and V of the load.
fn loaded(op: u8, low: (u8, u8), high: (u8, u8)) -> (u32, u32) {
    let beside = |(data, v): (u8, u8)| (!data, !v, 1);
    let [low_byte, high_byte] = [low, high].map(|(data, v)| (data, v, 1));
    let bytes = [beside(low), low_byte, high_byte, beside(high)];
    let (data, v, reports) = load(op, 1, &bytes);
    assert_eq!(reports, 0);
    (data, v)
}

/// Of one addressable byte, with the opposite above it.
fn loaded_byte(op: u8, data: u8, v: u8) -> (u32, u32) {
    loaded(op, (data, v), (!data, !v))
}

#[test]
fn a_signed_byte_copies_its_top_data_bit_upwards() {
    assert_eq!(loaded_byte(LDS8, 0x80, 0), (0xFFFF_FF80, 0));
    assert_eq!(loaded_byte(LDS8, 0x7F, 0), (0x7F, 0));
    assert_eq!(loaded_byte(LDS8, 0xFF, 0), (ONES, 0));
    assert_eq!(loaded_byte(LDS8, 0x40, 0), (0x40, 0));
    assert_eq!(loaded_byte(LDS8, 0, 0), (0, 0));
    assert_eq!(loaded_byte(LD8, 0x80, 0), (0x80, 0));
}

#[test]
fn a_signed_byte_copies_its_top_v_bit_upwards() {
    assert_eq!(loaded_byte(LDS8, 0, 0x80), (0, 0xFFFF_FF80));
    assert_eq!(loaded_byte(LDS8, 0, 0x7F), (0, 0x7F));
    assert_eq!(loaded_byte(LDS8, 0, 0xFF), (0, ONES));
    assert_eq!(loaded_byte(LDS8, 0, 1), (0, 1));
    // the data bit is copied whatever its V, and the V bit whatever the data bit
    assert_eq!(loaded_byte(LDS8, 0x80, 0x80), (0xFFFF_FF80, 0xFFFF_FF80));
    assert_eq!(loaded_byte(LDS8, 0x80, 0x7F), (0xFFFF_FF80, 0x7F));
    assert_eq!(loaded_byte(LDS8, 0x7F, 0x80), (0x7F, 0xFFFF_FF80));
    assert_eq!(loaded_byte(LD8, 0x80, 0x80), (0x80, 0x80));
}

#[test]
fn a_signed_half_word_copies_bit_15_upwards() {
    assert_eq!(loaded(LDS16, (0, 0), (0x80, 0)), (0xFFFF_8000, 0));
    assert_eq!(loaded(LDS16, (0xFF, 0), (0x7F, 0)), (0x7FFF, 0));
    assert_eq!(loaded(LDS16, (0xFE, 0), (0xFF, 0)), (0xFFFF_FFFE, 0));
    // bit 7 is no sign
    assert_eq!(loaded(LDS16, (0x80, 0), (0, 0)), (0x80, 0));
    assert_eq!(loaded(LDS16, (0x7F, 0), (0x80, 0)), (0xFFFF_807F, 0));
}

#[test]
fn a_signed_half_word_copies_v_bit_15_upwards() {
    // data 0x8000 with V 0x8000, and with V 0x00FF
    assert_eq!(loaded(LDS16, (0, 0), (0x80, 0x80)), (0xFFFF_8000, 0xFFFF_8000));
    assert_eq!(loaded(LDS16, (0, 0xFF), (0x80, 0)), (0xFFFF_8000, 0x00FF));
    assert_eq!(loaded(LDS16, (0, 0xFF), (0, 0x7F)), (0, 0x7FFF));
    assert_eq!(loaded(LDS16, (0, 0x80), (0, 0)), (0, 0x80));
    assert_eq!(loaded(LDS16, (0, 0x7F), (0x7F, 0x80)), (0x7F00, 0xFFFF_807F));
    assert_eq!(loaded(LDS16, (0x34, 0xFF), (0x92, 0xFF)), (0xFFFF_9234, ONES));
}

#[test]
fn an_unsigned_half_word_has_noughts_above() {
    assert_eq!(loaded(LD16, (0x34, 0x01), (0x12, 0x20)), (0x1234, 0x2001));
    assert_eq!(loaded(LD16, (0, 0), (0x80, 0x80)), (0x8000, 0x8000));
    assert_eq!(loaded(LD16, (0xFF, 0xFF), (0xFF, 0xFF)), (0xFFFF, 0xFFFF));
    assert_eq!(loaded(LD16, (0x80, 0xFF), (0, 0)), (0x80, 0xFF));
}

/// An unaddressable byte is data 0 and V 0 before widening, whatever lies there: no sign, and one report.
#[test]
fn an_unaddressable_byte_has_no_sign() {
    for stored in [(0xFF, 0xFF, 0), (0x80, 0, 0), (0, 0x80, 0)] {
        assert_eq!(load(LDS8, 0, &[stored]), (0, 0, 1));
        for op in [LD16, LDS16] {
            assert_eq!(load(op, 0, &[(0x80, 0, 1), stored]), (0x80, 0, 1));
            assert_eq!(load(op, 0, &[(0xFF, 0x80, 1), stored]), (0xFF, 0x80, 1));
            assert_eq!(load(op, 0, &[stored, stored]), (0, 0, 1));
        }
    }
}

#[test]
fn an_addressable_high_byte_has_its_sign() {
    let low = (0xFF, 0xFF, 0);
    assert_eq!(load(LDS16, 0, &[low, (0x80, 0, 1)]), (0xFFFF_8000, 0, 1));
    assert_eq!(load(LDS16, 0, &[low, (0x80, 0x80, 1)]), (0xFFFF_8000, 0xFFFF_8000, 1));
    assert_eq!(load(LDS16, 0, &[low, (0x7F, 0x7F, 1)]), (0x7F00, 0x7F00, 1));
    assert_eq!(load(LD16, 0, &[low, (0x80, 0x80, 1)]), (0x8000, 0x8000, 1));
}

#[test]
fn half_words_are_loaded_to_the_end_and_not_round_it() {
    let bytes = [(0x91, 0, 1), (0x92, 0, 1), (0x93, 0, 1), (0x94, 0, 1)];
    assert_eq!(load(LD16, 2, &bytes), (0x9493, 0, 0));
    assert_eq!(load(LDS16, 2, &bytes), (0xFFFF_9493, 0, 0));
    assert_eq!(load(LDS8, 3, &bytes), (0xFFFF_FF94, 0, 0));
    for op in [LD16, LDS16] {
        assert_eq!(load(op, 1, &bytes).2, 0);
        assert_eq!(load(op, 3, &bytes), (0x94, 0, 1));
        for address in [4, ONES - 1, ONES] {
            assert_eq!(load(op, address, &bytes), (0, 0, 1));
        }
    }
    for address in [4, ONES] {
        assert_eq!(load(LDS8, address, &bytes), (0, 0, 1));
    }
    // one byte of memory: the high byte is at M
    assert_eq!(load(LDS16, 0, &[(0x80, 0x80, 1)]), (0x80, 0x80, 1));
}

/// The address is register a plus imm, wrapped before the bytes are counted.
#[test]
fn the_address_of_a_half_word_is_kept_modulo() {
    let mut kit = machine((LDS16, 3, 1, 0, 3), &[(0, 0, 1), (0x01, 0, 1), (0x80, 0, 1)]);
    (kit.state.regs[1], kit.state.vregs[1]) = (ONES - 1, 0);
    assert_eq!(kit.run(1), 2);
    assert_eq!((kit.state.regs[3], kit.state.vregs[3], kit.state.reports), (0xFFFF_8001, 0, 0));
}

/// The address register is reported and cleared first, then it gets what is loaded.
#[test]
fn signed_load_into_its_own_address_register() {
    let bytes = [(0, 0, 1), (0x05, 0x01, 1), (0x81, 0x80, 1)];
    for (op, address, data, v) in
        [(LDS8, 2, 0xFFFF_FF81, 0xFFFF_FF80), (LDS16, 1, 0xFFFF_8105, 0xFFFF_8001)]
    {
        let mut kit = machine((op, 1, 1, 0, 0), &bytes);
        (kit.state.regs[1], kit.state.vregs[1]) = (address, 0x40);
        assert_eq!(kit.run(1), 2);
        assert_eq!((kit.state.regs[1], kit.state.vregs[1]), (data, v));
        assert_eq!((kit.state.reports, kit.report(0)), (1, [0, 0, 1, 0x40]));
    }
    let mut kit = machine((LDS16, 1, 1, 0, 0), &bytes);
    (kit.state.regs[1], kit.state.vregs[1]) = (3, 0x40);
    assert_eq!(kit.run(1), 2);
    assert_eq!((kit.state.regs[1], kit.state.vregs[1]), (0, 0));
    assert_eq!((kit.state.reports, kit.report(0)), (2, [0, 0, 1, 0x40]));
    assert_eq!(kit.report(1), [0, 0, 3, 3]);
}

/// ST16 of 0xAABBCCDD with V 0x11223344 over bytes 1 to 4 that are undefined: memory, V and reports made.
fn stored(address: u32, a: [u8; 4]) -> (Vec<u8>, Vec<u8>, u32) {
    let bytes: [Byte; 4] = std::array::from_fn(|k| (k as u8 + 1, 255, a[k]));
    let mut kit = machine((ST16, 3, 15, 0, address), &bytes);
    (kit.state.regs[3], kit.state.vregs[3]) = (0xAABB_CCDD, 0x1122_3344);
    let before = kit.state;
    assert_eq!(kit.run(1), 2);
    assert_eq!((kit.state.regs, kit.state.vregs), (before.regs, before.vregs));
    assert_eq!(kit.a, a);
    assert!(kit.state.reports <= 1);
    if kit.state.reports == 1 {
        assert_eq!(kit.report(0), [0, 0, 4, address]);
    }
    (kit.mem, kit.v, kit.state.reports)
}

#[test]
fn the_low_two_bytes_are_stored() {
    assert_eq!(stored(0, [1; 4]), (vec![0xDD, 0xCC, 3, 4], vec![0x44, 0x33, 255, 255], 0));
    assert_eq!(stored(1, [1; 4]), (vec![1, 0xDD, 0xCC, 4], vec![255, 0x44, 0x33, 255], 0));
    assert_eq!(stored(2, [1; 4]), (vec![1, 2, 0xDD, 0xCC], vec![255, 255, 0x44, 0x33], 0));
}

#[test]
fn half_words_are_stored_to_the_end_and_not_round_it() {
    assert_eq!(stored(3, [1; 4]), (vec![1, 2, 3, 0xDD], vec![255, 255, 255, 0x44], 1));
    for address in [4, ONES - 1, ONES] {
        assert_eq!(stored(address, [1; 4]), (vec![1, 2, 3, 4], vec![255; 4], 1));
    }
}

#[test]
fn the_addressable_byte_of_two_is_stored() {
    assert_eq!(stored(1, [1, 1, 0, 1]), (vec![1, 0xDD, 3, 4], vec![255, 0x44, 255, 255], 1));
    assert_eq!(stored(1, [1, 0, 1, 1]), (vec![1, 2, 0xCC, 4], vec![255, 255, 0x33, 255], 1));
    assert_eq!(stored(1, [1, 0, 0, 1]), (vec![1, 2, 3, 4], vec![255; 4], 1));
    assert_eq!(stored(1, [0, 1, 1, 0]), (vec![1, 0xDD, 0xCC, 4], vec![255, 0x44, 0x33, 255], 0));
}

#[test]
fn half_word_store_of_the_address_register_uses_the_cleared_v() {
    let mut kit = machine((ST16, 1, 1, 0, ONES), &[(7, 9, 1); 0x103]);
    (kit.state.regs[1], kit.state.vregs[1]) = (0x102, ONES);
    assert_eq!(kit.run(1), 2);
    assert_eq!((&kit.mem[0x100..], &kit.v[0x100..]), (&[7, 2, 1][..], &[9, 0, 0][..]));
    assert_eq!((kit.state.regs[1], kit.state.vregs[1]), (0x102, 0));
    assert_eq!((kit.state.reports, kit.report(0)), (1, [0, 0, 1, ONES]));
    // then the unaddressable byte is reported, too
    let mut kit = machine((ST16, 1, 1, 0, 0), &[(7, 9, 1); 3]);
    (kit.state.regs[1], kit.state.vregs[1]) = (2, 0x8000);
    assert_eq!(kit.run(1), 2);
    assert_eq!((kit.mem, kit.v), (vec![7, 7, 2], vec![9, 9, 0]));
    assert_eq!(kit.state.reports, 2);
    assert_eq!(
        (&kit.reports[..4], &kit.reports[4..8]),
        (&[0, 0, 1, 0x8000][..], &[0, 0, 4, 2][..])
    );
}

/// A reading of 0x8000 is stored, loaded by sign, and its sign decides a jump: whether this is reported
/// depends on the sign's V alone.
#[test]
fn a_jump_by_the_sign_of_a_reading() {
    let code = [
        (ST16, 1, 15, 0, 2),
        (LDS16, 2, 15, 0, 2),
        (9, 2, 2, LIT, 31),
        (17, 0, 2, 0, 5),
        STOP,
        STOP,
    ];
    for (v, widened, reports) in [(0x7FFF, 0x7FFF, 0), (0xFFFF_8000, 0xFFFF_8000, 1)] {
        let mut kit = Kit::new(image(4, &code, &[[2, 2, 2]], &[]), [0; 16]);
        (kit.state.regs[1], kit.state.vregs[1]) = (0x8000, v);
        assert_eq!(kit.run(2), 3);
        assert_eq!((kit.state.regs[2], kit.state.vregs[2]), (0xFFFF_8000, widened));
        assert_eq!(kit.run(2), 1);
        assert_eq!((kit.state.regs[2], kit.state.vregs[2], kit.state.index), (1, 0, 5));
        assert_eq!(kit.state.reports, reports);
    }
}
