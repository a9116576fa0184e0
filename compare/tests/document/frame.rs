//! Register 15 by document 02's request L9: which instructions may not name it, where that is refused, and
//! what is left: it is read, stored, and cleared by a report, and its data never change.

use compare::bare::Bare;
use compare::types::{Began, Ran, State};

use crate::kit::*;

/// One instruction of each op that has a result, with this d; a load's address is register 1.
fn results_in(d: u8) -> Vec<Ins> {
    let sums = (2..=12).map(|op| (op, d, 1, 2, 0));
    let loads = [13, 14, 21, 22, 23].map(|op| (op, d, 1, 0, 4));
    [(1, d, 0, 2, 0)].into_iter().chain(sums).chain(loads).collect()
}

/// What is read of three instructions, M 64.
fn of_three(code: [Ins; 3]) -> (u32, u32) {
    answer(&image(64, &code, &[], &[]))
}

/// Is an instruction accepted at each of three places, or refused at each? Refusal 5 names its index.
fn allowed(instruction: Ins) -> bool {
    let places = [0, 1, 2].map(|place| {
        let mut code = [STOP; 3];
        code[place] = instruction;
        let answer = of_three(code);
        assert!(answer == (0, 0) || answer == (5, place as u32), "{instruction:?} {answer:?}");
        answer.0 == 0
    });
    assert_eq!(places, [places[0]; 3]);
    places[0]
}

#[test]
fn a_result_in_register_15_is_refused() {
    assert_eq!(results_in(15).len(), 17);
    for instruction in results_in(15) {
        assert!(!allowed(instruction), "{instruction:?}");
    }
    for instruction in [results_in(14), results_in(0)].concat() {
        assert!(allowed(instruction), "{instruction:?}");
    }
}

#[test]
fn the_first_and_a_later_index_are_named() {
    let [mov, add, ld8, lds16] =
        [(1, 15, 0, LIT, 64), (2, 15, 15, LIT, 4), (13, 15, 0, 0, 0), (23, 15, 15, 0, 2)];
    for instruction in [mov, add, ld8, lds16] {
        assert_eq!(of_three([instruction, STOP, STOP]), (5, 0));
        assert_eq!(of_three([STOP, STOP, instruction]), (5, 2));
    }
    let mut longest = [STOP; 2048];
    longest[2047] = mov;
    assert_eq!(answer(&image(1, &longest, &[], &[])), (5, 2047));
    longest[512] = lds16;
    assert_eq!(answer(&image(1, &longest, &[], &[])), (5, 512));
}

/// The register would keep its value, but the instruction names it all the same.
#[test]
fn a_result_that_changes_nothing_is_refused() {
    assert!(!allowed((1, 15, 0, 15, 0)));
    for (op, literal) in
        [(2, 0), (3, 0), (4, 1), (5, ONES), (6, 0), (7, 0), (8, 0), (9, 32), (10, 0)]
    {
        assert!(!allowed((op, 15, 15, LIT, literal)), "op {op}");
        assert!(allowed((op, 14, 15, LIT, literal)), "op {op}");
    }
    assert!(!allowed((5, 15, 15, 15, 0)));
    assert!(!allowed((6, 15, 15, 15, 0)));
}

#[test]
fn register_15_may_be_read() {
    for op in [15, 16, 24] {
        assert!(allowed((op, 15, 1, 0, 0)), "op {op}");
        assert!(allowed((op, 15, 15, 0, 0)), "op {op}");
        assert!(allowed((op, 1, 15, 0, 0)), "op {op}");
        assert!(!allowed((op, 16, 1, 0, 0)), "op {op}");
    }
    for op in [13, 14, 21, 22, 23] {
        assert!(allowed((op, 1, 15, 0, 0)), "op {op}");
    }
    for op in 2..=12 {
        assert!(allowed((op, 1, 15, 2, 0)), "op {op}");
        assert!(allowed((op, 1, 2, 15, 0)), "op {op}");
        assert!(allowed((op, 1, 15, 15, 0)), "op {op}");
    }
    assert!(allowed((1, 1, 0, 15, 0)));
    assert!(allowed((17, 0, 15, 0, 2)));
    assert!(allowed((18, 0, 15, 0, 7)));
}

/// Op 25 has no row, whatever its d; d 15 is no register of the ops that have none.
#[test]
fn rows_without_a_result_keep_their_rules() {
    for op in [0, 17, 18, 25] {
        assert!(!allowed((op, 15, 0, 0, 0)), "op {op}");
    }
    for op in [19, 20] {
        assert!(!allowed((op, 15, 0, 0, 1 << 16)), "op {op}");
    }
}

#[test]
fn of_two_faults_the_lower_index_is_named() {
    let [mov, load] = [(1, 15, 0, LIT, 0), (23, 15, 1, 0, 0)];
    let other = [(25, 0, 0, 0, 0), (2, 16, 0, 0, 0), (17, 0, 0, 0, 3), (14, 0, 0, 1, 0)];
    assert_eq!(of_three([STOP, load, mov]), (5, 1));
    assert_eq!(of_three([mov, load, mov]), (5, 0));
    for other in other {
        assert_eq!(of_three([mov, other, STOP]), (5, 0));
        assert_eq!(of_three([other, mov, STOP]), (5, 0));
        assert_eq!(of_three([STOP, load, other]), (5, 1));
        assert_eq!(of_three([STOP, other, load]), (5, 1));
    }
}

/// One number and index, whatever else the instruction breaks.
#[test]
fn another_fault_of_the_same_instruction_is_no_second_refusal() {
    let sums = [(2, 15, 16, 0, 0), (11, 15, 0, 16, 0), (12, 15, 0, 254, 0), (8, 15, 0, 2, 1)];
    let movs = [(1, 15, 1, 0, 0), (1, 15, 0, 16, 0), (1, 15, 0, 15, 1)];
    let loads = [(13, 15, 16, 0, 0), (14, 15, 0, 1, 0), (21, 15, 0, LIT, 0), (22, 15, 16, 1, 0)];
    for instruction in [&sums[..], &movs, &loads].concat() {
        assert!(!allowed(instruction), "{instruction:?}");
    }
    // the same faults are refused of a store, for which d 15 is none
    assert!(!allowed((15, 15, 16, 0, 0)));
    assert!(!allowed((24, 15, 0, 1, 0)));
}

#[test]
fn the_refusal_has_its_place_in_the_order() {
    let code = [STOP, (1, 15, 0, LIT, 0)];
    let bad = image(8, &code, &[[0, 2, 1]], &[1, 2]);
    assert_eq!(answer(&bad), (5, 1));
    let mut other = bad.clone();
    other[3] ^= 1;
    assert_eq!(answer(&other), (2, 0));
    assert_eq!(answer(&with_word(&bad, 4, 8193)), (3, 0));
    assert_eq!(answer(&with_word(&bad, 28, 0)), (4, 0));
    assert_eq!(answer(&bad[..bad.len() - 1]), (4, 0));
    // before 6 and 7
    assert_eq!(answer(&image(8, &code, &[[0, 2, 3]], &[1, 2])), (5, 1));
    assert_eq!(answer(&image(8, &code, &[[0, 2, 1]], &[1, 2, 3])), (5, 1));
}

#[test]
fn beginning_and_running_refuse_it_and_touch_nothing() {
    let mut kit = Kit::new(image(4, &[STOP, STOP], &[], &[]), [3; 16]);
    kit.image = image(4, &[STOP, (14, 15, 0, 0, 0)], &[[0, 4, 1]], &[1, 2, 3, 4]);
    let before = kit.clone();
    let ran = kit.try_run(0);
    assert_eq!(ran, Ran { number: 5, index: 1, reason: 0, state: before.state });
    assert_eq!(kit, before);
    let began = kit.begin(&[9; 16]);
    assert_eq!(began, Began { number: 5, index: 1, state: State::default() });
    assert_eq!(kit, before);
}

/// Its bytes, and their V, in each width. Register 15 is 0xD3D2D1D0 and defined, memory was undefined.
#[test]
fn stores_of_register_15() {
    let widths = [
        (15, [0xD0, 0x77, 0x77, 0x77], [0, 255, 255, 255]),
        (24, [0xD0, 0xD1, 0x77, 0x77], [0, 0, 255, 255]),
        (16, [0xD0, 0xD1, 0xD2, 0xD3], [0; 4]),
    ];
    for (op, mem, v) in widths {
        let mut regs = [2; 16];
        regs[15] = 0xD3D2_D1D0;
        let mut kit = Kit::new(image(8, &[(op, 15, 1, 0, 1)], &[[3, 4, 2]], &[]), regs);
        kit.state.vregs[1] = 0;
        assert_eq!(kit.run(1), 2);
        assert_eq!((&kit.mem[3..7], &kit.v[3..7]), (&mem[..], &v[..]));
        assert_eq!((kit.state.regs[15], kit.state.vregs[15]), (0xD3D2_D1D0, 0));
        assert_eq!(kit.state.reports, 0);
    }
}

/// A given start has V 0x00F00080 in register 15, 5: each use of it as an address, a condition or an output
/// reports that and clears V, and leaves the data.
#[test]
fn a_report_clears_v_of_register_15() {
    let uses: [(Ins, u32); 6] = [
        ((13, 1, 15, 0, 0), 1),
        ((23, 1, 15, 0, ONES), 1),
        ((16, 1, 15, 0, 0), 1),
        ((24, 15, 15, 0, 0), 1),
        ((17, 0, 15, 0, 1), 2),
        ((18, 0, 15, 0, 6), 5),
    ];
    for (instruction, kind) in uses {
        let code = [instruction, instruction];
        let mut kit = Kit::new(image(16, &code, &[[0, 16, 2]], &[]), [5; 16]);
        kit.state.vregs[15] = 0x00F0_0080;
        assert_eq!(kit.run(1), 3);
        assert_eq!((kit.state.reports, kit.report(0)), (1, [0, 0, kind, 0x00F0_0080]));
        assert_eq!((kit.state.regs[15], kit.state.vregs[15]), (5, 0));
        kit.run(1);
        assert_eq!((kit.state.reports, kit.state.steps), (1, 2));
        assert_eq!((kit.state.regs[15], kit.state.vregs[15]), (5, 0));
    }
}

/// Where nothing is reported, V of register 15 stays as it was given: copied, added, stored.
#[test]
fn undefined_bits_of_register_15_are_carried() {
    let code = [(1, 1, 0, 15, 0), (2, 2, 15, LIT, 0x10), (6, 14, 15, 15, 0), (24, 15, 3, 0, 0)];
    let mut kit = Kit::new(image(4, &code, &[[0, 4, 1]], &[9; 4]), [0; 16]);
    (kit.state.regs[15], kit.state.vregs[15]) = (0x2345, 0x0110);
    kit.state.vregs[3] = 0;
    assert_eq!(kit.run(4), 2);
    assert_eq!((kit.state.regs[1], kit.state.vregs[1]), (0x2345, 0x0110));
    // 0x2245 + 0x10 and 0x2355 + 0x10: 0x2255 and 0x2365
    assert_eq!((kit.state.regs[2], kit.state.vregs[2]), (0x2355, 0x0130));
    assert_eq!((kit.state.regs[14], kit.state.vregs[14]), (0x2345, 0x0110));
    assert_eq!((kit.mem, kit.v), (vec![0x45, 0x23, 9, 9], vec![0x10, 0x01, 0, 0]));
    assert_eq!((kit.state.regs[15], kit.state.vregs[15]), (0x2345, 0x0110));
    assert_eq!(kit.state.reports, 0);
}

/// From a beginning register 15 stays what it was handed in as, and defined, on both machines, whatever is
/// done with it and whatever is reported.
#[test]
fn register_15_is_kept_from_a_beginning() {
    let code = [
        (16, 15, 15, 0, ONES - 7), // at 0
        (14, 14, 15, 0, ONES - 7),
        (7, 1, 15, 15, 0),
        (3, 2, 15, 14, 0),
        (18, 0, 2, 0, 3),
        (15, 3, 15, 0, ONES - 3), // an undefined byte at 4
        (18, 0, 15, 0, 4),
        (17, 0, 15, 0, 9),
        STOP,
        (18, 0, 3, 0, 5),  // reported
        (13, 3, 15, 0, 0), // reported: 8 is M
        (4, 3, 15, LIT, 3),
    ];
    let image = image(8, &code, &[[0, 8, 2]], &[]);
    let mut kit = Kit::new(image.clone(), [8; 16]);
    for step in 1..=11 {
        kit.run(1);
        assert_eq!((kit.state.regs[15], kit.state.vregs[15]), (8, 0));
        assert_eq!(kit.state.steps, step);
    }
    assert_eq!((kit.state.index, kit.state.regs[3], kit.state.vregs[3]), (12, 24, 0));
    assert_eq!((kit.state.regs[14], kit.state.regs[2], kit.state.vregs[2]), (8, 0, 0));
    assert_eq!(kit.outputs[..6], [3, 0, 4, 8, 5, 8]);
    assert_eq!((kit.state.reports, kit.report(0)), (2, [8, 9, 5, ONES]));
    assert_eq!(kit.report(1), [9, 10, 3, 8]);
    let mut bare = Bare::begin(&image, &[8; 16], &[0x77; 8]);
    assert_eq!(bare.run(&image, 9, 100), 6);
    assert_eq!((bare.steps, bare.index, bare.regs[15]), (9, 10, 8));
    assert_eq!(bare.outputs, [(3, 0), (4, 8), (5, 8)]);
}
