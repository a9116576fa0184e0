//! A state and the entries of the lists, read out of their words.

use std::fmt;

use crate::named::ReportKind;
use crate::numbers::*;

/// The words of a state. A run takes any words, and refuses those that cannot be.
#[derive(Clone, Copy, Debug, PartialEq, Eq, Hash)]
pub struct State(pub [u32; STATE_WORDS]);

/// All zeros, as a refused beginning leaves it.
impl Default for State {
    fn default() -> State {
        State([0; STATE_WORDS])
    }
}

impl State {
    #[inline]
    fn registers_at(&self, at: usize) -> &[u32; REGISTERS] {
        self.0[at..].first_chunk().expect("a state has its registers and their V words")
    }

    /// The registers' values.
    #[inline]
    pub fn regs(&self) -> &[u32; REGISTERS] {
        self.registers_at(STATE_REGS)
    }

    /// The registers' V words: a bit is 1 where the register's is undefined.
    #[inline]
    pub fn regs_v(&self) -> &[u32; REGISTERS] {
        self.registers_at(STATE_REGS_V)
    }

    /// The next instruction's index.
    #[inline]
    pub fn index(&self) -> u32 {
        self.0[STATE_INDEX]
    }

    /// Steps taken.
    #[inline]
    pub fn steps(&self) -> u32 {
        self.0[STATE_STEPS]
    }

    /// Outputs made.
    #[inline]
    pub fn outputs(&self) -> u32 {
        self.0[STATE_OUTPUTS]
    }

    /// Reports made, those without a place too.
    #[inline]
    pub fn reports(&self) -> u32 {
        self.0[STATE_REPORTS]
    }

    /// The reports made that have a place in the list, in their order.
    pub fn reports_in<'a>(&self, list: &'a [u32]) -> impl Iterator<Item = Report> + 'a {
        let stored = list.chunks_exact(REPORT_WORDS).take(self.reports() as usize);
        stored.map(|words| Report {
            steps: words[REPORT_STEPS],
            index: words[REPORT_INDEX],
            kind: ReportKind(words[REPORT_KIND]),
            detail: words[REPORT_DETAIL],
        })
    }

    /// The outputs made, in their order.
    pub fn outputs_in<'a>(&self, list: &'a [u32]) -> impl Iterator<Item = Output> + 'a {
        let stored = list.chunks_exact(OUTPUT_WORDS).take(self.outputs() as usize);
        stored.map(|words| Output { port: words[OUTPUT_PORT], value: words[OUTPUT_VALUE] })
    }

    /// The words of the outputs made, as [`command`](crate::command) takes them: the list's first
    /// ones, without the places that no run wrote.
    pub fn made_in<'a>(&self, list: &'a [u32]) -> &'a [u32] {
        let words = (self.outputs() as usize).saturating_mul(OUTPUT_WORDS);
        &list[..words.min(list.len())]
    }
}

/// An entry of the report list. It is displayed as the program `uviktalik` writes it.
#[derive(Clone, Copy, Debug, PartialEq, Eq, Hash)]
pub struct Report {
    /// Steps taken before the one that reports.
    pub steps: u32,
    /// The instruction's index.
    pub index: u32,
    /// What was used.
    pub kind: ReportKind,
    /// The V word of what was used, or the address of an access to unaddressable bytes.
    pub detail: u32,
}

impl fmt::Display for Report {
    fn fmt(&self, out: &mut fmt::Formatter) -> fmt::Result {
        let Report { steps, index, kind: ReportKind(kind), detail } = self;
        write!(out, "step {steps} at {index} kind {kind} detail {detail}")
    }
}

/// An entry of the output list. It is displayed as the program `uviktalik` writes it.
#[derive(Clone, Copy, Debug, PartialEq, Eq, Hash)]
pub struct Output {
    /// The port.
    pub port: u32,
    /// The value.
    pub value: u32,
}

impl fmt::Display for Output {
    fn fmt(&self, out: &mut fmt::Formatter) -> fmt::Result {
        write!(out, "out port {} value {}", self.port, self.value)
    }
}
