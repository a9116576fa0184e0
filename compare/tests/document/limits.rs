//! Request L5 of document 02: N to 2,048, M and D to 8,192, R at most 32 as before.

use compare::bare::Bare;
use compare::interpreter::read;
use compare::types::{Began, State};

use crate::kit::*;

/// MOV r1, 0 and then so many ADD r1, r1, 1.
fn counting(rows: usize) -> Vec<Ins> {
    let mut code = vec![(2, 1, 1, LIT, 1); rows];
    code[0] = (1, 1, 0, LIT, 0);
    code
}

#[test]
fn programs_of_each_length_run_to_their_end() {
    for n in [511, 512, 513, 2047, 2048] {
        let image = image(1, &counting(n), &[], &[]);
        let mut kit = Kit::new(image.clone(), [9; 16]);
        assert_eq!(kit.run(n as u32 - 1), 3);
        assert_eq!((kit.state.index, kit.state.regs[1]), (n as u32 - 1, n as u32 - 2));
        assert_eq!(kit.run(5000), 2);
        assert_eq!((kit.state.index, kit.state.steps), (n as u32, n as u32));
        assert_eq!((kit.state.regs[1], kit.state.vregs[1]), (n as u32 - 1, 0));
        assert_eq!(kit.run(0), 2);
        let mut bare = Bare::begin(&image, &[9; 16], &[0]);
        assert_eq!(bare.run(&image, 0, 5000), 2);
        assert_eq!((bare.index, bare.regs[1]), (n as u32, n as u32 - 1));
    }
    assert_eq!(answer(&image(1, &counting(2049), &[], &[])), (3, 0));
}

#[test]
fn an_index_above_n_is_refused() {
    let mut kit = Kit::new(image(1, &[STOP; 2048], &[], &[]), [0; 16]);
    for (index, reason) in [(511, 1), (512, 1), (513, 1), (2047, 1), (2048, 2)] {
        kit.state.index = index;
        assert_eq!(kit.run(1), reason, "index {index}");
    }
    for index in [2049, 4096, ONES] {
        kit.state.index = index;
        assert_eq!(kit.refused(1), 11, "index {index}");
    }
    let mut kit = Kit::new(image(1, &[STOP; 513], &[], &[]), [0; 16]);
    kit.state.index = 513;
    assert_eq!(kit.run(1), 2);
    kit.state.index = 514;
    assert_eq!(kit.refused(1), 11);
}

/// Rows 0, 512, 2,047, 511 and 513, one after another.
#[test]
fn jumps_go_to_rows_above_511_and_back() {
    let mut code = [STOP; 2048];
    code[0] = (17, 0, 15, 0, 512);
    code[512] = (17, 0, 15, 0, 2047);
    code[2047] = (17, 0, 15, 0, 511);
    code[511] = (17, 0, 15, 0, 513);
    code[513] = (18, 0, 15, 0, 7);
    let image = image(1, &code, &[], &[]);
    let mut kit = Kit::new(image.clone(), [3; 16]);
    for to in [512, 2047, 511, 513] {
        kit.run(1);
        assert_eq!(kit.state.index, to);
    }
    assert_eq!(kit.run(100), 1);
    assert_eq!((kit.state.index, kit.state.steps, kit.state.reports), (514, 5, 0));
    assert_eq!((kit.state.outputs, &kit.outputs[..2]), (1, &[7, 3][..]));
    let mut bare = Bare::begin(&image, &[3; 16], &[0]);
    assert_eq!(bare.run(&image, 1, 100), 1);
    assert_eq!((bare.index, bare.steps, &bare.outputs[..]), (514, 5, &[(7, 3)][..]));
}

#[test]
fn a_report_names_its_row() {
    let mut code = [(1, 2, 0, LIT, 5); 2048];
    code[600] = (18, 0, 1, 0, 2);
    code[2047] = (13, 3, 15, 0, 1);
    let mut kit = Kit::new(image(1, &code, &[], &[]), [8; 16]);
    assert_eq!(kit.run(3000), 2);
    assert_eq!((kit.state.steps, kit.state.reports), (2048, 2));
    assert_eq!((kit.report(0), kit.report(1)), ([600, 600, 5, ONES], [2047, 2047, 3, 9]));
}

#[test]
fn jumps_are_refused_from_n_on() {
    for n in [512, 513, 2047, 2048] {
        let mut code = vec![STOP; n];
        code[n - 1] = (17, 0, 0, 0, n as u32 - 1);
        assert_eq!(answer(&image(1, &code, &[], &[])), (0, 0));
        for to in [n as u32, n as u32 + 1, 4095, 4096, 8191, ONES] {
            code[n - 1] = (17, 0, 0, 0, to);
            assert_eq!(answer(&image(1, &code, &[], &[])), (5, n as u32 - 1), "to {to}");
        }
    }
    // 512 rows: 512 is none of them, although there could be more
    assert_eq!(answer(&image(1, &[(17, 0, 0, 0, 512); 512], &[], &[])), (5, 0));
    assert_eq!(answer(&image(1, &[(17, 0, 0, 0, 512); 513], &[], &[])), (0, 0));
}

#[test]
fn memory_and_data_of_each_size() {
    for m in [4095, 4096, 4097, 8191, 8192] {
        let good = image(m, &[STOP], &[[0, m, 1]], &vec![6; m as usize]);
        assert_eq!(answer(&good), (0, 0));
        let header = read(&good).0;
        assert_eq!((header.m, header.d), (m, m));
        let kit = Kit::new(good, [0; 16]);
        let last = m as usize - 1;
        assert_eq!((kit.mem[last], kit.v[last], kit.a[last]), (6, 0, 1));
    }
    assert_eq!(answer(&image(8193, &[STOP], &[], &[])), (3, 0));
    assert_eq!(answer(&image(8192, &[STOP], &[[0, 8192, 1]], &[6; 8193])), (3, 0));
}

#[test]
fn the_largest_image_and_a_byte_more_or_less() {
    let regions: Vec<[u32; 3]> = (0..32).map(|k| [256 * k, 256, 1]).collect();
    let largest = image(8192, &counting(2048), &regions, &[1; 8192]);
    assert_eq!((largest.len(), answer(&largest)), (24_992, (0, 0)));
    assert_eq!(answer(&largest[..24_991]), (4, 0));
    assert_eq!(answer(&largest[..8608]), (4, 0));
    let mut longer = largest.clone();
    longer.push(1);
    assert_eq!((longer.len(), answer(&longer)), (24_993, (4, 0)));
    let mut kit = Kit::new(largest, [0; 16]);
    assert!(kit.mem.iter().all(|&byte| byte == 1));
    assert_eq!((kit.run(1_000_000), kit.state.steps), (2, 2048));
}

/// Refused with 3 before the request, with what comes later now, or not at all.
#[test]
fn sizes_above_the_former_limits_are_refused_for_other_causes() {
    let small = image(16, &[STOP], &[[0, 4, 1]], &[1, 2, 3, 4]);
    assert_eq!(answer(&with_word(&small, 4, 4097)), (0, 0));
    assert_eq!(answer(&with_word(&small, 8, 513)), (4, 0));
    assert_eq!(answer(&with_word(&small, 24, 4097)), (4, 0));
    let rows = image(4097, &[STOP; 513], &[], &[]);
    assert_eq!(answer(&rows), (0, 0));
    // the offsets of 512 rows
    assert_eq!(answer(&with_word(&rows, 20, 32 + 8 * 512)), (4, 0));
    assert_eq!(answer(&with_word(&rows, 28, 32 + 8 * 512)), (4, 0));
    let mut bad = [STOP; 513];
    bad[512] = (25, 0, 0, 0, 0);
    assert_eq!(answer(&image(4097, &bad, &[[0, 1, 9]], &[])), (5, 512));
    assert_eq!(answer(&image(4097, &[STOP; 513], &[[0, 1, 9]], &[])), (6, 0));
    assert_eq!(answer(&image(4097, &[STOP; 513], &[[0, 4097, 1]], &[1; 4096])), (7, 0));
    assert_eq!(answer(&image(16, &[STOP], &[], &[1; 4097])), (7, 0));
}

/// Bytes 4,094 to 4,097 are 11 22 33 44, and so are 8,188 to 8,191; those beside them are unaddressable.
fn at_both_ends(code: &[Ins]) -> Kit {
    let bytes = [0x11, 0x22, 0x33, 0x44, 0x11, 0x22, 0x33, 0x44];
    let mut kit = Kit::new(image(8192, code, &[[4094, 4, 1], [8188, 4, 1]], &bytes), [0; 16]);
    kit.state.regs[2] = 0xD3D2_D1D0;
    kit.state.vregs[2] = 0;
    kit
}

#[test]
fn loads_across_byte_4096_and_at_the_end() {
    let loads = [
        (14, 4094, 0x4433_2211, false),
        (14, 4093, 0x3322_1100, true),
        (14, 4095, 0x0044_3322, true),
        (21, 4095, 0x3322, false),
        (23, 4096, 0x4433, false),
        (13, 4096, 0x33, false),
        (22, 4097, 0x44, false),
        (13, 4098, 0, true),
        (14, 8188, 0x4433_2211, false),
        (14, 8189, 0x0044_3322, true),
        (14, 8191, 0x44, true),
        (21, 8190, 0x4433, false),
        (21, 8191, 0x44, true),
        (23, 8191, 0x44, true),
        (13, 8191, 0x44, false),
        (22, 8191, 0x44, false),
        (13, 8192, 0, true),
        (14, 8192, 0, true),
    ];
    for (op, address, word, reported) in loads {
        let mut kit = at_both_ends(&[(op, 1, 15, 0, address)]);
        assert_eq!(kit.run(1), 2);
        assert_eq!((kit.state.regs[1], kit.state.vregs[1]), (word, 0), "op {op} at {address}");
        assert_eq!(kit.state.reports, u32::from(reported), "op {op} at {address}");
        if reported {
            assert_eq!(kit.report(0), [0, 0, 3, address]);
        }
    }
}

#[test]
fn stores_across_byte_4096_and_at_the_end() {
    let stores: [(u8, u32, usize, [u8; 4], bool); 9] = [
        (16, 4094, 4094, [0xD0, 0xD1, 0xD2, 0xD3], false),
        (16, 4095, 4094, [0x11, 0xD0, 0xD1, 0xD2], true),
        (24, 4095, 4094, [0x11, 0xD0, 0xD1, 0x44], false),
        (15, 4096, 4094, [0x11, 0x22, 0xD0, 0x44], false),
        (16, 8188, 8188, [0xD0, 0xD1, 0xD2, 0xD3], false),
        (16, 8190, 8188, [0x11, 0x22, 0xD0, 0xD1], true),
        (24, 8191, 8188, [0x11, 0x22, 0x33, 0xD0], true),
        (15, 8191, 8188, [0x11, 0x22, 0x33, 0xD0], false),
        (15, 8192, 8188, [0x11, 0x22, 0x33, 0x44], true),
    ];
    for (op, address, from, bytes, reported) in stores {
        let mut kit = at_both_ends(&[(op, 2, 15, 0, address)]);
        assert_eq!(kit.run(1), 2);
        assert_eq!(kit.mem[from..from + 4], bytes, "op {op} at {address}");
        assert_eq!((kit.mem[0], kit.mem[4093], kit.mem[4098]), (0x77, 0x77, 0x77));
        assert_eq!(kit.state.reports, u32::from(reported), "op {op} at {address}");
        if reported {
            assert_eq!(kit.report(0), [0, 0, 4, address]);
        }
    }
}

#[test]
fn open_and_close_up_to_the_end() {
    let span = |start: u32, length: u32| start | length << 16;
    for op in [19, 20] {
        let of = |m, imm| answer(&image(m, &[STOP, (op, 0, 0, 0, imm)], &[], &[]));
        for (start, length) in [(0, 8192), (8191, 1), (4096, 4096), (4095, 2), (0, 4097)] {
            assert_eq!(of(8192, span(start, length)), (0, 0), "{start}, {length}");
        }
        for (start, length) in [(0, 8193), (8191, 2), (8192, 1), (4096, 4097), (1, 8192)] {
            assert_eq!(of(8192, span(start, length)), (5, 1), "{start}, {length}");
        }
        assert_eq!((of(4097, span(4096, 1)), of(4096, span(4096, 1))), ((0, 0), (5, 1)));
        assert_eq!((of(4096, span(0, 4096)), of(4096, span(0, 4097))), ((0, 0), (5, 1)));
        let mut kit = Kit::new(image(8192, &[(op, 0, 0, 0, span(4090, 4102))], &[], &[]), [0; 16]);
        kit.a.fill(20 - op);
        kit.a[4089] = 0;
        kit.v.fill(0);
        assert_eq!(kit.run(1), 2);
        let expected = 20 - op;
        assert!(kit.a[4090..].iter().all(|&a| a == expected), "op {op}");
        assert!(kit.v[4090..].iter().all(|&v| v == 255), "op {op}");
        assert_eq!((kit.a[4089], kit.v[4089]), (0, 0));
        assert!(kit.mem.iter().all(|&byte| byte == 0x77));
    }
}

#[test]
fn regions_up_to_the_end() {
    let with = |m, regions: &[[u32; 3]]| answer(&image(m, &[STOP], regions, &[]));
    assert_eq!(with(8192, &[[0, 8192, 2]]), (0, 0));
    assert_eq!(with(8192, &[[0, 8193, 2]]), (6, 0));
    assert_eq!(with(8192, &[[8191, 1, 2]]), (0, 0));
    assert_eq!(with(8192, &[[8191, 2, 2]]), (6, 0));
    assert_eq!(with(8192, &[[0, 4096, 2], [4096, 4096, 2]]), (0, 0));
    assert_eq!(with(8192, &[[0, 4096, 2], [4096, 4097, 2]]), (6, 1));
    assert_eq!(with(8192, &[[0, 4097, 2], [4096, 1, 2]]), (6, 1));
    assert_eq!(with(4097, &[[4096, 1, 2]]), (0, 0));
    assert_eq!(with(4096, &[[4095, 2, 2]]), (6, 0));
}

/// Bytes 4,090 to 4,099 are filled, 8,000 to 8,191 are open and undefined.
#[test]
fn a_beginning_sets_out_all_of_memory() {
    let data = [1, 2, 3, 4, 5, 6, 7, 8, 9, 10];
    let kit =
        Kit::new(image(8192, &[STOP; 2048], &[[4090, 10, 1], [8000, 192, 2]], &data), [0; 16]);
    assert_eq!(kit.mem[4089..4101], [0x77, 1, 2, 3, 4, 5, 6, 7, 8, 9, 10, 0x77]);
    for (at, (&v, &a)) in kit.v.iter().zip(&kit.a).enumerate() {
        let due = match at {
            4090..4100 => (0, 1),
            8000.. => (255, 1),
            _ => (255, 0),
        };
        assert_eq!((v, a), due, "byte {at}");
    }
}

#[test]
fn buffers_are_of_m_bytes() {
    let fresh = Kit::new(image(8192, &[STOP], &[], &[]), [0; 16]);
    for length in [0, 4096, 8191, 8193] {
        for of in 0..3 {
            let mut kit = fresh.clone();
            [&mut kit.mem, &mut kit.v, &mut kit.a][of].resize(length, 1);
            assert_eq!(kit.refused(1), 8, "{length}");
            let began = Began { number: 8, index: 0, state: State::default() };
            assert_eq!(kit.begin(&[0; 16]), began, "{length}");
        }
    }
    for at in [4095, 4096, 8191] {
        let mut kit = fresh.clone();
        kit.a[at] = 2;
        assert_eq!(kit.refused(1), 10, "byte {at}");
    }
}

/// Document 01's other limits stay: steps, lists and ports.
#[test]
fn other_limits_stay() {
    let mut kit = Kit::new(image(8192, &[STOP; 2048], &[], &[]), [0; 16]);
    assert_eq!(kit.run(1_000_000), 1);
    assert_eq!(kit.refused(1_000_001), 9);
    kit.reports.resize(260, 0);
    assert_eq!(kit.refused(1), 8);
    kit.reports.truncate(256);
    kit.outputs.resize(514, 0);
    assert_eq!(kit.refused(1), 8);
    assert_eq!(answer(&image(8192, &[(18, 0, 0, 0, 8)], &[], &[])), (5, 0));
}

/// The bare machine with the same bytes: it traps where the bench reports.
#[test]
fn bare_machine_at_both_ends() {
    for (op, address, word) in [(14, 4094, 0x4433_2211), (21, 8190, 0x4433), (13, 8191, 0x44)] {
        let image = at_both_ends(&[(op, 1, 15, 0, address)]).image;
        let mut bare = Bare::begin(&image, &[0; 16], &[0x77; 8192]);
        assert_eq!((bare.run(&image, 0, 1), bare.regs[1]), (2, word));
    }
    for (op, address) in [(14, 4095), (14, 8189), (21, 8191), (13, 8192), (16, 8190), (15, 8192)] {
        let image = at_both_ends(&[(op, 1, 15, 0, address)]).image;
        let mut bare = Bare::begin(&image, &[0; 16], &[0x77; 8192]);
        assert_eq!((bare.run(&image, 0, 1), bare.steps), (6, 0));
    }
}
