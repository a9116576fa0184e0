//! Loads, stores and marks.

use crate::kit::*;

#[test]
fn unaddressable_load_is_nought_and_defined() {
    let mut kit = Kit::new(image(8, &[(14, 1, 15, 0, 0), (13, 2, 15, 0, 8)], &[], &[]), [0; 16]);
    assert_eq!(kit.run(2), 2);
    assert_eq!((kit.state.regs[1], kit.state.vregs[1]), (0, 0));
    assert_eq!((kit.state.regs[2], kit.state.vregs[2]), (0, 0));
    assert_eq!(kit.state.reports, 2);
    assert_eq!(kit.report(0), [0, 0, 3, 0]);
    assert_eq!(kit.report(1), [1, 1, 3, 8]);
}

#[test]
fn load_of_undefined_bits_is_no_error() {
    let code = [(14, 1, 15, 0, 0), (13, 2, 15, 0, 1)];
    let mut kit = Kit::new(image(4, &code, &[[0, 4, 2]], &[]), [0; 16]);
    kit.v = vec![1, 2, 4, 8];
    assert_eq!(kit.run(2), 2);
    assert_eq!((kit.state.regs[1], kit.state.vregs[1]), (0x7777_7777, 0x0804_0201));
    assert_eq!((kit.state.regs[2], kit.state.vregs[2]), (0x77, 2));
    assert_eq!(kit.state.reports, 0);
}

#[test]
fn partly_unaddressable_load_and_store() {
    // bytes 1 and 3 of the access are unaddressable
    let regions = [[0, 1, 1], [2, 1, 2]];
    let code = [(14, 1, 15, 0, 0), (16, 2, 15, 0, 0)];
    let mut kit = Kit::new(image(4, &code, &regions, &[0x11]), [0; 16]);
    (kit.state.regs[2], kit.state.vregs[2]) = (0xD3D2_D1D0, 0xE3E2_E1E0);
    assert_eq!(kit.run(2), 2);
    assert_eq!((kit.state.regs[1], kit.state.vregs[1]), (0x0077_0011, 0x00FF_0000));
    assert_eq!(kit.mem, [0xD0, 0x77, 0xD2, 0x77]);
    assert_eq!(kit.v, [0xE0, 255, 0xE2, 255]);
    assert_eq!(kit.state.reports, 2);
    assert_eq!((kit.report(0), kit.report(1)), ([0, 0, 3, 0], [1, 1, 4, 0]));
}

#[test]
fn undefined_address_is_reported_first_and_cleared() {
    let code = [(14, 2, 1, 0, 3), (15, 2, 1, 0, 3)];
    let mut kit = Kit::new(image(8, &code, &[], &[]), [5; 16]);
    kit.state.vregs[1] = 0x80;
    assert_eq!(kit.run(2), 2);
    assert_eq!(kit.state.vregs[1], 0);
    assert_eq!(kit.state.reports, 3);
    assert_eq!(kit.report(0), [0, 0, 1, 0x80]);
    assert_eq!(kit.report(1), [0, 0, 3, 8]);
    assert_eq!(kit.report(2), [1, 1, 4, 8]);
}

#[test]
fn load_into_its_own_address_register() {
    let mut kit = Kit::new(image(4, &[(14, 1, 1, 0, 0)], &[[0, 4, 2]], &[]), [0; 16]);
    assert_eq!(kit.run(1), 2);
    assert_eq!((kit.state.regs[1], kit.state.vregs[1]), (0x7777_7777, ONES));
    assert_eq!(kit.report(0), [0, 0, 1, ONES]);
}

#[test]
fn store_of_the_address_register_uses_the_cleared_v() {
    for (op, mem, v) in
        [(16, [4, 0, 0, 0], [0; 4]), (15, [4, 0x77, 0x77, 0x77], [0, 255, 255, 255])]
    {
        let mut kit = Kit::new(image(8, &[(op, 1, 1, 0, 0)], &[[4, 4, 2]], &[]), [4; 16]);
        assert_eq!(kit.run(1), 2);
        assert_eq!(kit.mem[4..], mem);
        assert_eq!(kit.v[4..], v);
        assert_eq!((kit.state.reports, kit.report(0)), (1, [0, 0, 1, ONES]));
    }
}

#[test]
fn byte_three_does_not_wrap() {
    for address in [ONES - 2, ONES] {
        let code = [(14, 1, 15, 0, address), (16, 2, 15, 0, address)];
        let mut kit = Kit::new(image(4, &code, &[[0, 4, 1]], &[1, 2, 3, 4]), [0; 16]);
        assert_eq!(kit.run(2), 2);
        assert_eq!((kit.state.regs[1], kit.state.vregs[1]), (0, 0));
        assert_eq!((&kit.mem[..], &kit.v[..]), (&[1, 2, 3, 4][..], &[0; 4][..]));
        assert_eq!((kit.report(0), kit.report(1)), ([0, 0, 3, address], [1, 1, 4, address]));
    }
}

#[test]
fn store_low_byte_only() {
    let code = [(15, 1, 15, 0, 1)];
    let mut kit = Kit::new(image(4, &code, &[[0, 4, 1]], &[1, 2, 3, 4]), [0; 16]);
    (kit.state.regs[1], kit.state.vregs[1]) = (0xAABB_CCDD, 0x1122_3344);
    assert_eq!(kit.run(1), 2);
    assert_eq!((kit.mem, kit.v), (vec![1, 0xDD, 3, 4], vec![0, 0x44, 0, 0]));
}

#[test]
fn open_and_close() {
    let code = [(19, 0, 0, 0, 1 | 2 << 16), (20, 0, 0, 0, 2 | 2 << 16)];
    let mut kit = Kit::new(image(4, &code, &[[0, 2, 1]], &[5, 6]), [0; 16]);
    assert_eq!(kit.run(1), 3);
    assert_eq!((&kit.a[..], &kit.v[..]), (&[1, 1, 1, 0][..], &[0, 255, 255, 255][..]));
    kit.v = vec![0; 4];
    assert_eq!(kit.run(1), 2);
    assert_eq!((&kit.a[..], &kit.v[..]), (&[1, 1, 0, 0][..], &[0, 0, 255, 255][..]));
    assert_eq!(kit.mem, [5, 6, 0x77, 0x77]);
    assert_eq!(kit.state.reports, 0);
}
