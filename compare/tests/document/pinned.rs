//! The pinned test vectors.

use crate::kit::*;

/// ADD's vector as request L13 of document 02 amends it, with x and y fixed as 0. Left is MUL's alone.
#[test]
fn pinned_add_and_left() {
    assert_eq!(op_on(2, (0, 0x100), (0, 0)), (0, 0x100));
    assert_eq!(op_on(4, (5, 0), (6, 0)), (30, 0));
    assert_eq!(op_on(4, (5, 0x8000_0000), (6, 0)), (30, 0x8000_0000));
}

#[test]
fn pinned_and_or_xor() {
    assert_eq!(op_on(5, (0xF, 0), (0, ONES)).1, 0xF);
    assert_eq!(literal_op(5, (0, ONES), 1).1, 1);
    assert_eq!(op_on(6, (0xF, 0), (0, ONES)).1, 0xFFFF_FFF0);
    let mut kit = Kit::new(image(1, &[(7, 3, 1, 1, 0)], &[], &[]), [0x1234; 16]);
    assert_eq!(kit.run(1), 2);
    assert_eq!((kit.state.regs[3], kit.state.vregs[3]), (0, 0));
    assert_eq!((kit.state.regs[1], kit.state.vregs[1]), (0x1234, ONES));
}

#[test]
fn pinned_shifts() {
    assert_eq!(literal_op(8, (0, 0x81), 4).1, 0x810);
    assert_eq!(literal_op(8, (0, 0x81), 32).1, 0x81);
    assert_eq!(literal_op(10, (0, 0x8000_0000), 4).1, 0xF800_0000);
    assert_eq!(literal_op(9, (0, 0x8000_0000), 4).1, 0x0800_0000);
    for op in 8..=10 {
        assert_eq!(op_on(op, (1, 0), (0, 0x20)).1, ONES);
    }
}

/// EQ's vector as request L4 of document 02 amends it: V 1 only if no defined bits differ.
#[test]
fn pinned_comparison_and_product() {
    assert_eq!(op_on(11, (0, 0x80), (0, 0)), (1, 1));
    assert_eq!(op_on(11, (0x81, 0x80), (1, 0)), (0, 1));
    assert_eq!(op_on(11, (1, 0x80), (0, 0)), (0, 0));
    assert_eq!(op_on(4, (ONES, 0), (ONES, 0)), (1, 0));
}

#[test]
fn pinned_load_over_the_end() {
    let code = [(14, 1, 0, 0, 62), (14, 2, 0, 0, 60)];
    let mut kit = Kit::new(image(64, &code, &[[60, 4, 1]], &[1, 2, 0xAA, 0xBB]), [0; 16]);
    kit.state.vregs[0] = 0;
    assert_eq!(kit.run(2), 2);
    assert_eq!((kit.state.regs[1], kit.state.vregs[1]), (0xBBAA, 0));
    assert_eq!((kit.state.regs[2], kit.state.vregs[2]), (0xBBAA_0201, 0));
    assert_eq!(kit.state.reports, 1);
    assert_eq!(kit.report(0), [0, 0, 3, 62]);
    assert!(kit.reports[4..].iter().all(|&word| word == MARK));
}

#[test]
fn pinned_address_is_kept_modulo() {
    let mut kit = Kit::new(image(4, &[(13, 1, 0, 0, 1)], &[[0, 1, 1]], &[0x5A]), [ONES; 16]);
    kit.state.vregs[0] = 0;
    assert_eq!(kit.run(1), 2);
    assert_eq!((kit.state.regs[1], kit.state.vregs[1], kit.state.reports), (0x5A, 0, 0));
}

#[test]
fn pinned_budget_nought() {
    let mut kit = Kit::new(image(1, &[(18, 0, 0, 0, 1), STOP], &[], &[]), [0; 16]);
    assert_eq!(kit.run(0), 3);
    assert_eq!(kit.state.steps, 0);
    kit.state.index = 1;
    assert_eq!(kit.run(0), 1);
    kit.state.index = 2;
    assert_eq!(kit.run(0), 2);
    kit.state.index = 0;
    kit.outputs.clear();
    assert_eq!(kit.run(0), 4);
    assert_eq!((kit.state.index, kit.state.steps, kit.state.outputs), (0, 0, 0));
}

/// N's vector as request L5 of document 02 moves it.
#[test]
fn pinned_limits() {
    assert_eq!(answer(&image(1, &[STOP; 2048], &[], &[])), (0, 0));
    assert_eq!(answer(&image(1, &[STOP; 2049], &[], &[])), (3, 0));
    for op in [19, 20] {
        assert_eq!(answer(&image(64, &[STOP, (op, 0, 0, 0, 60 | 4 << 16)], &[], &[])), (0, 0));
        assert_eq!(answer(&image(64, &[STOP, (op, 0, 0, 0, 60 | 5 << 16)], &[], &[])), (5, 1));
    }
}
