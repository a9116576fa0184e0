//! The program of document 01 and its worked example.

use compare::interpreter::{begin, read, run};
use compare::types::{Buffers, Lists, State};

use crate::kit::*;

fn program(image: &[u8]) -> String {
    let (header, _) = read(image);
    let m = header.m as usize;
    let (mut mem, mut v, mut a) = (vec![0; m], vec![0; m], vec![0; m]);
    let (mut reports, mut outputs) = (vec![0; 256], vec![0; 512]);
    let mut regs = [0; 16];
    regs[15] = header.m;
    let began = begin(image, &regs, Buffers { mem: &mut mem, v: &mut v, a: &mut a });
    if began.number != 0 {
        return format!("refused {} at {}\n", began.number, began.index);
    }
    let buffers = Buffers { mem: &mut mem, v: &mut v, a: &mut a };
    let lists = Lists { reports: &mut reports, outputs: &mut outputs };
    let ran = run(image, &began.state, buffers, lists, 1_000_000);
    let mut text = String::new();
    for r in reports.chunks(4).take(ran.state.reports as usize) {
        text += &format!("step {} at {} kind {} detail {}\n", r[0], r[1], r[2], r[3]);
    }
    for o in outputs.chunks(2).take(ran.state.outputs as usize) {
        text += &format!("out port {} value {}\n", o[0], o[1]);
    }
    let State { steps, reports, outputs, .. } = ran.state;
    text + &format!("end {} steps {steps} reports {reports} outputs {outputs}\n", ran.reason)
}

#[test]
fn worked_example_writes_its_three_lines() {
    let expected = "step 2 at 2 kind 5 detail 4294967295\n\
                    out port 2 value 0\n\
                    end 1 steps 3 reports 1 outputs 1\n";
    assert_eq!(program(&worked_example()), expected);
}

#[test]
fn program_writes_only_the_refusal() {
    let code = [STOP, STOP, STOP, (25, 0, 0, 0, 0), STOP];
    assert_eq!(program(&image(4, &code, &[], &[])), "refused 5 at 3\n");
    let code = [(24, 0, 0, 0, 0), (21, 0, 0, 1, 0), (25, 0, 0, 0, 0)];
    assert_eq!(program(&image(4, &code, &[], &[])), "refused 5 at 1\n");
    let code = [(15, 15, 0, 0, 0), (18, 0, 15, 0, 0), (22, 15, 15, 0, 0), (1, 15, 0, LIT, 0)];
    assert_eq!(program(&image(4, &code, &[], &[])), "refused 5 at 2\n");
    assert_eq!(program(&[]), "refused 1 at 0\n");
}

/// A reading of -2, and one that nobody took, which is undefined to its sign and above (document 02, L1).
#[test]
fn program_writes_a_signed_reading() {
    let code = [(23, 1, 2, 0, 0), (18, 0, 1, 0, 1), (22, 1, 15, 0, ONES), (18, 0, 1, 0, 2), STOP];
    let image = image(4, &code, &[[0, 2, 1], [3, 1, 2]], &[0xFE, 0xFF]);
    let expected = "step 0 at 0 kind 1 detail 4294967295\n\
                    step 3 at 3 kind 5 detail 4294967295\n\
                    out port 1 value 4294967294\n\
                    out port 2 value 0\n\
                    end 1 steps 4 reports 2 outputs 2\n";
    assert_eq!(program(&image), expected);
}
