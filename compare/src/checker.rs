//! The compiled checker as an engine, its writer and its commands, through the binding for Rust.

use uviktalik::numbers::{
    ACCEPTED, HEADER_WORDS, REGISTERS, STATE_INDEX, STATE_OUTPUTS, STATE_REGS, STATE_REGS_V,
    STATE_REPORTS, STATE_STEPS, STATE_WORDS,
};
use uviktalik::raw;

use crate::types::{
    Began, Buffers, Commander, Engine, Fields, Header, Lists, Ran, State, Writer, Written,
};

pub const ENGINE: Engine = Engine { name: "checker", read, begin, run };
pub const WRITER: Writer = Writer { name: "checker", write };
pub const COMMANDER: Commander = Commander { name: "checker", command };

/// What lies in a place before a call that is to write it, so that one which is left alone is seen.
const STALE: u32 = 0xA5A5_A5A5;

fn words_of(state: &State) -> [u32; STATE_WORDS] {
    let mut words = [0; STATE_WORDS];
    words[STATE_REGS..][..REGISTERS].copy_from_slice(&state.regs);
    words[STATE_REGS_V..][..REGISTERS].copy_from_slice(&state.vregs);
    words[STATE_INDEX] = state.index;
    words[STATE_STEPS] = state.steps;
    words[STATE_OUTPUTS] = state.outputs;
    words[STATE_REPORTS] = state.reports;
    words
}

fn state_in(words: [u32; STATE_WORDS]) -> State {
    let words = uviktalik::State(words);
    State {
        regs: *words.regs(),
        vregs: *words.regs_v(),
        index: words.index(),
        steps: words.steps(),
        outputs: words.outputs(),
        reports: words.reports(),
    }
}

fn lent(buffers: Buffers) -> uviktalik::Buffers {
    let Buffers { mem, v, a } = buffers;
    uviktalik::Buffers { mem, vbits: v, abits: a }
}

pub fn read(image: &[u8]) -> (Header, &[u8]) {
    let (mut header, mut code, mut fault) = ([STALE; HEADER_WORDS], [usize::MAX; 2], usize::MAX);
    let number = raw::read(image, &mut header, &mut code, &mut fault);
    let [m, n, r, d] = header;
    let answer = Header { number: number.into(), index: fault as u32, m, n, r, d };
    assert!(number == ACCEPTED || code == [0, 0], "a refused image's code is at {code:?}");
    let [start, size] = code;
    (answer, &image[start..start + size])
}

pub fn begin(image: &[u8], regs: &[u32; 16], buffers: Buffers) -> Began {
    let (mut words, mut fault) = ([STALE; STATE_WORDS], usize::MAX);
    let number = raw::begin(image, regs, &mut lent(buffers), &mut words, &mut fault);
    Began { number: number.into(), index: fault as u32, state: state_in(words) }
}

pub fn run(image: &[u8], state: &State, buffers: Buffers, lists: Lists, budget: u32) -> Ran {
    let Lists { reports, outputs } = lists;
    let mut lists = uviktalik::Lists { reports, outputs };
    let (mut words, mut reason, mut fault) = (words_of(state), u8::MAX, usize::MAX);
    let number = raw::run(
        image,
        &mut words,
        &mut lent(buffers),
        &mut lists,
        budget,
        &mut reason,
        &mut fault,
    );
    Ran {
        number: number.into(),
        index: fault as u32,
        reason: reason.into(),
        state: state_in(words),
    }
}

pub fn write(fields: &Fields, out: &mut [u8]) -> Written {
    let &Fields { m, instructions, regions, data } = fields;
    let fields = uviktalik::Fields { m, instructions, regions, data };
    let (mut size, mut index) = (usize::MAX, usize::MAX);
    let number = raw::write(&fields, out, &mut size, &mut index);
    Written { number: number.into(), index, size }
}

pub fn command(outputs: &[u32], number: usize, kind: &mut u8, bits: &mut u32) -> u32 {
    raw::command(outputs, number, kind, bits).into()
}
