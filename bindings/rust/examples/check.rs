//! An image on standard input, and the lines that the program `uviktalik` writes for it on standard
//! output.

use std::io::{self, Read};

use uviktalik::numbers::{
    FRAME_REGISTER, MAX_IMAGE, MAX_OUTPUT_LIST, MAX_REPORT_LIST, MAX_STEPS, REGISTERS,
};
use uviktalik::{begin, read, run, Buffers, Lists, Refusal};

/// The lines of a run to its end, from memory of all zeros.
fn checked(image: &[u8]) -> Result<String, Refusal> {
    let m = read(image)?.m;
    let mut regs = [0; REGISTERS];
    regs[FRAME_REGISTER] = m;
    let [mut mem, mut vbits, mut abits] = [(); 3].map(|()| vec![0; m as usize]);
    let mut buffers = Buffers { mem: &mut mem, vbits: &mut vbits, abits: &mut abits };
    let (mut reports, mut outputs) = ([0; MAX_REPORT_LIST], [0; MAX_OUTPUT_LIST]);
    let mut lists = Lists { reports: &mut reports, outputs: &mut outputs };
    let mut state = begin(image, &regs, &mut buffers)?;
    let reason = run(image, &mut state, &mut buffers, &mut lists, MAX_STEPS)?;
    let mut lines = String::new();
    for report in state.reports_in(&reports) {
        lines += &format!("{report}\n");
    }
    for output in state.outputs_in(&outputs) {
        lines += &format!("{output}\n");
    }
    let (steps, reports, outputs) = (state.steps(), state.reports(), state.outputs());
    lines += &format!("end {} steps {steps} reports {reports} outputs {outputs}\n", reason.0);
    Ok(lines)
}

fn main() -> io::Result<()> {
    let mut image = Vec::new();
    // One byte more than the largest image has: whatever is longer is refused as well.
    io::stdin().take(MAX_IMAGE as u64 + 1).read_to_end(&mut image)?;
    match checked(&image) {
        Ok(lines) => print!("{lines}"),
        Err(refusal) => println!("refused {} at {}", refusal.number(), refusal.index),
    }
    Ok(())
}
