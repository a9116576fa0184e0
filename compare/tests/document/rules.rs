//! Beginning, actions on data and shadow rules.

use compare::types::State;

use crate::kit::*;

#[test]
fn beginning_sets_out_memory_and_registers() {
    let regions = [[1, 2, 1], [4, 1, 2], [5, 1, 1]];
    let regs: [u32; 16] = std::array::from_fn(|k| 100 + k as u32);
    let kit = Kit::new(image(8, &[STOP], &regions, &[0xA1, 0xA2, 0xA3]), regs);
    assert_eq!(kit.mem, [0x77, 0xA1, 0xA2, 0x77, 0x77, 0xA3, 0x77, 0x77]);
    assert_eq!(kit.v, [255, 0, 0, 255, 255, 0, 255, 255]);
    assert_eq!(kit.a, [0, 1, 1, 0, 1, 1, 0, 0]);
    let mut vregs = [ONES; 16];
    vregs[15] = 0;
    assert_eq!(kit.state, State { regs, vregs, ..State::default() });
}

#[test]
fn actions_on_data() {
    let on = |op, x, y| op_on(op, (x, 0), (y, 0));
    assert_eq!(on(2, ONES, 2), (1, 0));
    assert_eq!(on(3, 1, 2), (ONES, 0));
    assert_eq!(on(4, 0x1_0001, 0x1_0001), (0x2_0001, 0));
    assert_eq!(on(5, 0b1100, 0b1010), (0b1000, 0));
    assert_eq!(on(6, 0b1100, 0b1010), (0b1110, 0));
    assert_eq!(on(7, 0b1100, 0b1010), (0b0110, 0));
    assert_eq!(on(8, 0x8000_0001, 33), (2, 0));
    assert_eq!(on(9, 0x8000_0001, 31), (1, 0));
    assert_eq!(on(10, 0x8000_0000, 31), (ONES, 0));
    assert_eq!(on(10, 0x4000_0000, ONES), (0, 0));
    assert_eq!(on(11, 5, 5), (1, 0));
    assert_eq!(on(11, 5, 6), (0, 0));
    assert_eq!(on(12, 5, ONES), (1, 0));
    assert_eq!(on(12, ONES, 5), (0, 0));
    assert_eq!(on(12, 5, 5), (0, 0));
}

#[test]
fn mov_copies_data_and_v() {
    let code = [(1, 3, 0, 2, 0), (1, 4, 0, LIT, 0xFEDC_BA98)];
    let mut kit = Kit::new(image(1, &code, &[], &[]), [9; 16]);
    (kit.state.regs[2], kit.state.vregs[2]) = (7, 0x10);
    assert_eq!(kit.run(2), 2);
    assert_eq!((kit.state.regs[3], kit.state.vregs[3]), (7, 0x10));
    assert_eq!((kit.state.regs[4], kit.state.vregs[4]), (0xFEDC_BA98, 0));
    assert_eq!(kit.state.reports, 0);
}

#[test]
fn shadow_rules() {
    assert_eq!(op_on(4, (1, 0x40), (1, 0x10)).1, 0xFFFF_FFF0);
    assert_eq!(op_on(5, (0b0011, 0b0101), (0b0101, 0b0011)).1, 0b0111);
    assert_eq!(op_on(5, (ONES, 0), (ONES, 0xF0)), (ONES, 0xF0));
    assert_eq!(op_on(5, (0, 0), (ONES, 0xF0)), (0, 0));
    assert_eq!(op_on(6, (0, 0), (0, 0xF0)), (0, 0xF0));
    assert_eq!(op_on(6, (ONES, 0), (0, 0xF0)), (ONES, 0));
    assert_eq!(op_on(6, (0, 0xF0), (ONES, 0)), (ONES, 0));
    assert_eq!(op_on(7, (3, 0x30), (3, 0x03)), (0, 0x33)); // equal data, other registers
    assert_eq!(literal_op(7, (3, 0x30), 3), (0, 0x30));
    assert_eq!(op_on(9, (0xF0, 0xF0), (4, 0)), (0xF, 0xF));
    assert_eq!(op_on(12, (0, 0x8000_0000), (0, 0)), (0, 1));
    assert_eq!(op_on(12, (0, 0), (0, 0x100)), (0, 1));
    assert_eq!(literal_op(11, (0, 0), 0), (1, 0));
    // SUB, AND and OR of a register with itself have no exception
    for (op, v) in [(3, 0xFFFF_FFF8), (5, 8), (6, 8)] {
        let mut kit = Kit::new(image(1, &[(op, 3, 1, 1, 0)], &[], &[]), [5; 16]);
        kit.state.vregs[1] = 8;
        kit.run(1);
        assert_eq!(kit.state.vregs[3], v);
    }
}

#[test]
fn result_may_be_an_operand() {
    let code = [(7, 1, 1, 1, 0), (2, 1, 1, LIT, 7), (8, 1, 1, 1, 0)];
    let mut kit = Kit::new(image(1, &code, &[], &[]), [9; 16]);
    assert_eq!(kit.run(9), 2);
    assert_eq!((kit.state.regs[1], kit.state.vregs[1]), (7 << 7, 0));
    assert_eq!((kit.state.steps, kit.state.index), (3, 3));
}
