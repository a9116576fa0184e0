//! Each refusal, its limits and its place in the order.

use compare::interpreter::{begin, read};
use compare::types::{Began, Buffers, Header, Ran, State};

use crate::kit::*;

#[test]
fn refusal_1_and_2() {
    let good = worked_example();
    for length in 0..32 {
        assert_eq!(answer(&good[..length]), (1, 0));
    }
    assert_eq!(answer(&[0; 31]), (1, 0));
    assert_eq!(answer(&[0; 32]), (2, 0));
    for at in 0..4 {
        let mut bad = good.clone();
        bad[at] ^= 1;
        assert_eq!(answer(&bad), (2, 0));
    }
    // 2 comes before 3
    let mut bad = with_word(&good, 4, 0);
    bad[0] = 0;
    assert_eq!(answer(&bad), (2, 0));
}

#[test]
fn refusal_3_limits() {
    let good = image(1, &[STOP], &[], &[]);
    assert_eq!(answer(&good), (0, 0));
    assert_eq!(answer(&with_word(&good, 4, 8192)), (0, 0));
    for m in [0, 8193, ONES] {
        assert_eq!(answer(&with_word(&good, 4, m)), (3, 0));
    }
    for n in [0, 2049, 0x2000_0001, ONES] {
        assert_eq!(answer(&with_word(&good, 8, n)), (3, 0));
    }
    for r in [33, 0x1000_0000, ONES] {
        assert_eq!(answer(&with_word(&good, 16, r)), (3, 0));
    }
    for d in [8193, ONES] {
        assert_eq!(answer(&with_word(&good, 24, d)), (3, 0));
    }
    let all: Vec<[u32; 3]> = (0..32).map(|k| [256 * k, 256, 1]).collect();
    let largest = image(8192, &[STOP; 2048], &all, &[9; 8192]);
    assert_eq!(largest.len(), 24_992);
    assert_eq!(answer(&largest), (0, 0));
    assert_eq!(read(&largest).0, Header { number: 0, index: 0, m: 8192, n: 2048, r: 32, d: 8192 });
    let more: Vec<[u32; 3]> = (0..33).map(|k| [k, 1, 2]).collect();
    assert_eq!(answer(&image(8192, &[STOP], &more, &[])), (3, 0));
    // within limits but not as long as that: 4
    assert_eq!(answer(&with_word(&good, 16, 32)), (4, 0));
    assert_eq!(answer(&with_word(&good, 24, 8192)), (4, 0));
    // 3 comes before 4
    assert_eq!(answer(&with_word(&with_word(&good, 12, 0), 24, 8193)), (3, 0));
}

#[test]
fn refusal_4_offsets_and_length() {
    let good = image(8, &[STOP, STOP], &[[0, 2, 1]], &[1, 2]);
    assert_eq!(answer(&good), (0, 0));
    for (at, right) in [(12, 32), (20, 48), (28, 60)] {
        for wrong in [0, right - 1, right + 1, ONES] {
            assert_eq!(answer(&with_word(&good, at, wrong)), (4, 0));
        }
    }
    assert_eq!(answer(&good[..good.len() - 1]), (4, 0));
    let mut long = good.clone();
    long.push(0);
    assert_eq!(answer(&long), (4, 0));
    // 4 comes before 5
    let bad = image(8, &[(99, 0, 0, 0, 0)], &[], &[]);
    assert_eq!(answer(&bad), (5, 0));
    assert_eq!(answer(&with_word(&bad, 12, 33)), (4, 0));
}

/// Is an instruction, second of three on an image with M 64, accepted?
fn allowed(instruction: Ins) -> bool {
    let answer = answer(&image(64, &[STOP, instruction, STOP], &[], &[]));
    assert!(answer == (0, 0) || answer == (5, 1));
    answer == (0, 0)
}

#[test]
fn refusal_5_rows() {
    for field in [(0, 1, 0, 0, 0), (0, 0, 1, 0, 0), (0, 0, 0, 1, 0), (0, 0, 0, 0, 1)] {
        assert!(!allowed(field));
    }
    for op in 25..=255 {
        assert!(!allowed((op, 0, 0, 0, 0)));
    }
    for op in 1..=12 {
        assert!(allowed((op, 14, 0, 15, 0)));
        assert!(allowed((op, 14, 0, LIT, ONES)));
        assert!(allowed((op, 0, 0, LIT, 0)));
        assert!(!allowed((op, 16, 0, 0, 0)));
        assert!(!allowed((op, 0, 0, 16, 0)));
        assert!(!allowed((op, 0, 0, 254, 0)));
        assert!(!allowed((op, 0, 0, 15, 1)));
        assert_eq!(allowed((op, 0, 15, 0, 0)), op != 1);
        assert!(!allowed((op, 0, 16, 0, 0)));
    }
    for op in (13..=16).chain(21..=24) {
        assert!(allowed((op, 0, 0, 0, 0)));
        assert!(allowed((op, 14, 15, 0, ONES)));
        for wrong in [16, 128, 255] {
            assert!(!allowed((op, wrong, 0, 0, 0)));
            assert!(!allowed((op, 0, wrong, 0, 0)));
        }
        for wrong in [1, 15, 16, LIT] {
            assert!(!allowed((op, 0, 0, wrong, 0)));
        }
    }
    for (op, most) in [(17, 2), (18, 7)] {
        assert!(allowed((op, 0, 15, 0, most)));
        assert!(!allowed((op, 0, 15, 0, most + 1)));
        assert!(!allowed((op, 0, 16, 0, 0)));
        assert!(!allowed((op, 1, 0, 0, 0)));
        assert!(!allowed((op, 0, 0, 1, 0)));
    }
    for op in [19, 20] {
        assert!(allowed((op, 0, 0, 0, 1 << 16 | 63)));
        assert!(allowed((op, 0, 0, 0, 64 << 16)));
        assert!(!allowed((op, 0, 0, 0, 0)));
        assert!(!allowed((op, 0, 0, 0, 64)));
        assert!(!allowed((op, 0, 0, 0, 1 << 16 | 64)));
        assert!(!allowed((op, 0, 0, 0, 65 << 16)));
        assert!(!allowed((op, 0, 0, 0, ONES)));
        assert!(!allowed((op, 1, 0, 0, 1 << 16)));
        assert!(!allowed((op, 0, 1, 0, 1 << 16)));
        assert!(!allowed((op, 0, 0, 1, 1 << 16)));
    }
}

#[test]
fn refusal_5_names_the_lowest_and_comes_before_6() {
    let bad = (25, 0, 0, 0, 0);
    assert_eq!(answer(&image(8, &[STOP, STOP, bad, bad], &[], &[])), (5, 2));
    assert_eq!(answer(&image(8, &[STOP, bad], &[[0, 0, 1]], &[])), (5, 1));
}

#[test]
fn refusal_6_regions() {
    let with =
        |regions: &[[u32; 3]], data: usize| answer(&image(16, &[STOP], regions, &vec![1; data]));
    assert_eq!(with(&[[0, 16, 2]], 0), (0, 0));
    assert_eq!(with(&[[0, 17, 2]], 0), (6, 0));
    assert_eq!(with(&[[15, 1, 2]], 0), (0, 0));
    assert_eq!(with(&[[16, 1, 2]], 0), (6, 0));
    assert_eq!(with(&[[3, 0, 2]], 0), (6, 0));
    assert_eq!(with(&[[0, 1, 2], [1, 0, 2]], 0), (6, 1));
    assert_eq!(with(&[[0, 4, 2], [4, 4, 1]], 4), (0, 0));
    assert_eq!(with(&[[0, 4, 2], [3, 4, 1]], 4), (6, 1));
    assert_eq!(with(&[[8, 4, 2], [0, 4, 2]], 0), (6, 1));
    assert_eq!(with(&[[0, 4, 0]], 0), (6, 0));
    assert_eq!(with(&[[0, 4, 3]], 0), (6, 0));
    // an end above 2^32 does not wrap
    assert_eq!(with(&[[2, ONES, 2]], 0), (6, 0));
    assert_eq!(with(&[[0, 2, 2], [ONES, 4, 2]], 0), (6, 1));
    assert_eq!(with(&[[0, 2, 2], [2, 1, 9], [0, 0, 0]], 0), (6, 1));
    // 6 comes before 7
    assert_eq!(with(&[[0, 4, 1], [0, 1, 2]], 3), (6, 1));
}

#[test]
fn refusal_7_filled_sum() {
    let with = |data: usize| {
        answer(&image(16, &[STOP], &[[0, 4, 1], [4, 3, 2], [9, 2, 1]], &vec![1; data]))
    };
    assert_eq!(with(6), (0, 0));
    assert_eq!(with(5), (7, 0));
    assert_eq!(with(7), (7, 0));
    assert_eq!(with(9), (7, 0));
    assert_eq!(with(0), (7, 0));
}

#[test]
fn refused_beginning_leaves_buffers_and_answers_zeros() {
    let good = image(4, &[STOP], &[[0, 4, 1]], &[1, 2, 3, 4]);
    let bad = image(4, &[STOP], &[[0, 4, 1], [0, 1, 2]], &[1, 2, 3, 4]);
    let cases: [(&[u8], [usize; 3], (u32, u32)); 5] = [
        (&bad, [4, 4, 4], (6, 1)),
        (&bad, [3, 4, 4], (6, 1)), // 6 comes before 8
        (&good, [3, 4, 4], (8, 0)),
        (&good, [4, 5, 4], (8, 0)),
        (&good, [4, 4, 0], (8, 0)),
    ];
    for (image, sizes, (number, index)) in cases {
        let [mut mem, mut v, mut a] = sizes.map(|size| vec![7u8; size]);
        let buffers = Buffers { mem: &mut mem, v: &mut v, a: &mut a };
        let state = State::default();
        assert_eq!(begin(image, &[1; 16], buffers), Began { number, index, state });
        assert!(mem.iter().chain(&v).chain(&a).all(|&byte| byte == 7));
    }
}

#[test]
fn refusal_of_a_run_by_its_image() {
    let mut kit = Kit::new(image(4, &[STOP], &[], &[]), [3; 16]);
    kit.image = image(4, &[STOP, STOP, (25, 0, 0, 0, 0)], &[], &[]);
    kit.state.index = 99;
    let before = kit.clone();
    let ran = kit.try_run(ONES);
    assert_eq!(ran, Ran { number: 5, index: 2, reason: 0, state: before.state });
    assert_eq!(kit, before);
}

#[test]
fn refusal_8_buffers_and_lists() {
    let fresh = Kit::new(image(4, &[STOP], &[], &[]), [0; 16]);
    let cases: [(&str, fn(&mut Kit)); 10] = [
        ("mem", |kit| kit.mem.push(0)),
        ("v", |kit| kit.v.truncate(3)),
        ("a", |kit| kit.a.push(0)),
        ("report words 255", |kit| kit.reports.truncate(255)),
        ("report words 2", |kit| kit.reports.truncate(2)),
        ("report words 260", |kit| kit.reports.resize(260, 0)),
        ("report words 257", |kit| kit.reports.resize(257, 0)),
        ("output words 511", |kit| kit.outputs.truncate(511)),
        ("output words 514", |kit| kit.outputs.resize(514, 0)),
        ("8 before 9, 10 and 11", |kit| {
            kit.v.clear();
            kit.a[0] = 2;
            kit.state.steps = ONES;
            kit.state.index = 9;
        }),
    ];
    for (name, change) in cases {
        let mut kit = fresh.clone();
        change(&mut kit);
        assert_eq!(kit.refused(1), 8, "{name}");
    }
    for (reports, outputs) in [(0, 0), (4, 2), (256, 512)] {
        let mut kit = fresh.clone();
        kit.reports.truncate(reports);
        kit.outputs.truncate(outputs);
        assert_eq!(kit.run(1), 1);
    }
}

#[test]
fn refusals_9_10_11() {
    let fresh = Kit::new(image(4, &[STOP], &[], &[]), [0; 16]);
    let mut kit = fresh.clone();
    kit.state.steps = 999_999;
    assert_eq!(kit.refused(2), 9);
    assert_eq!(kit.refused(ONES), 9);
    assert_eq!(kit.run(1), 1);
    kit.state.steps = 1_000_001;
    assert_eq!(kit.refused(0), 9);
    kit.state.steps = ONES;
    assert_eq!(kit.refused(ONES), 9);
    kit.state.steps = 1_000_000;
    assert_eq!(kit.run(0), 1);

    let mut kit = fresh.clone();
    kit.a[3] = 2;
    kit.state.index = 9;
    assert_eq!(kit.refused(1), 10);
    kit.state.steps = 1_000_000;
    assert_eq!(kit.refused(1), 9);

    let mut kit = fresh.clone();
    kit.state.index = 1;
    assert_eq!(kit.run(1), 2);
    kit.state.index = 2;
    assert_eq!(kit.refused(1), 11);
    let mut kit = fresh.clone();
    kit.state.outputs = 256;
    assert_eq!(kit.run(1), 1);
    kit.state.outputs = 257;
    assert_eq!(kit.refused(1), 11);
    kit.outputs.clear();
    kit.state.outputs = 1;
    assert_eq!(kit.refused(1), 11);
    let mut kit = fresh.clone();
    kit.state.steps = 40;
    kit.state.reports = 80;
    assert_eq!(kit.run(1), 1);
    kit.state.reports = 81;
    assert_eq!(kit.refused(1), 11);
    kit.state.reports = ONES;
    assert_eq!(kit.refused(1), 11);
}
