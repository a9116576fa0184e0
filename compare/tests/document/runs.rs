//! Jumps, outputs, lists and stop reasons.

use compare::interpreter::{read, ENGINE};

use crate::kit::*;

#[test]
fn jump_reports_clears_and_goes_by_the_data() {
    let code = [(17, 0, 1, 0, 2), STOP, (17, 0, 2, 0, 0), (17, 0, 1, 0, 3)];
    let mut kit = Kit::new(image(1, &code, &[], &[]), [0; 16]);
    kit.state.regs[1] = 0x100;
    kit.state.vregs[1] = 0x4000_0000;
    assert_eq!(kit.run(10), 3);
    assert_eq!((kit.state.index, kit.state.steps, kit.state.reports), (3, 10, 2));
    assert_eq!((kit.report(0), kit.report(1)), ([0, 0, 2, 0x4000_0000], [1, 2, 2, ONES]));
    assert_eq!((kit.state.vregs[1], kit.state.vregs[2]), (0, 0));
}

#[test]
fn outputs_until_no_place_is_left() {
    let code = [(18, 0, 1, 0, 7), (17, 0, 1, 0, 0)];
    let mut kit = Kit::new(image(1, &code, &[], &[]), [0xABCD; 16]);
    kit.outputs.truncate(4);
    assert_eq!(kit.run(100), 4);
    assert_eq!((kit.state.index, kit.state.steps, kit.state.outputs), (0, 4, 2));
    assert_eq!(kit.outputs, [7, 0xABCD, 7, 0xABCD]);
    assert_eq!((kit.state.reports, kit.report(0)), (1, [0, 0, 5, ONES]));
    assert_eq!(kit.run(0), 4); // 4 comes before 3
    kit.outputs.extend([MARK; 2]);
    assert_eq!(kit.run(0), 3);
    assert_eq!(kit.run(1), 3);
    assert_eq!(kit.outputs, [7, 0xABCD, 7, 0xABCD, 7, 0xABCD]);
}

#[test]
fn reports_past_the_places_are_counted() {
    let code = [(14, 2, 1, 0, 0), (13, 2, 1, 0, 1), (13, 2, 1, 0, 2)];
    let mut kit = Kit::new(image(1, &code, &[], &[]), [6; 16]);
    kit.reports.truncate(8);
    assert_eq!(kit.run(9), 2);
    assert_eq!(kit.state.reports, 4);
    assert_eq!(kit.reports, [0, 0, 1, ONES, 0, 0, 3, 6]);
    let mut kit = Kit::new(image(1, &code, &[], &[]), [6; 16]);
    kit.reports.clear();
    assert_eq!((kit.run(9), kit.state.reports), (2, 4));
}

#[test]
fn continued_run_is_the_same_as_one() {
    let code = [
        (18, 0, 1, 0, 3),
        (2, 1, 1, LIT, 1),
        (14, 2, 1, 0, 60),
        (16, 1, 1, 0, 0),
        (12, 3, 1, LIT, 9),
        (17, 0, 3, 0, 0),
        STOP,
    ];
    let start = Kit::new(image(64, &code, &[[0, 20, 2]], &[]), [0; 16]);
    let mut whole = start.clone();
    assert_eq!(whole.run(1000), 1);
    let mut parts = start.clone();
    while parts.run(1) == 3 {}
    assert_eq!(parts, whole);
    assert_eq!((whole.state.steps, whole.state.outputs, whole.state.index), (54, 9, 6));
    assert!(whole.outputs[18..].iter().all(|&word| word == MARK));
}

#[test]
fn reasons_take_no_step() {
    let mut kit = Kit::new(image(1, &[(1, 1, 0, LIT, 5), STOP], &[], &[]), [0; 16]);
    assert_eq!((kit.run(1), kit.state.index, kit.state.steps), (1, 1, 1));
    let before = kit.clone();
    assert_eq!(kit.run(50), 1);
    assert_eq!(kit, before);
}

#[test]
fn engine_is_these_functions() {
    assert_eq!(ENGINE.name, "interpreter");
    let image = worked_example();
    assert_eq!((ENGINE.read)(&image), read(&image));
}
