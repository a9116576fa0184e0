//! The checker for tuning programs, called from Rust: safe calls of the functions of
//! include/uviktalik.h, whose contracts are proved for every input.
//!
//! ```
//! use uviktalik::numbers::{FRAME_REGISTER, MAX_STEPS, OUTPUT_WORDS, REGISTERS, REPORT_WORDS};
//! use uviktalik::{Buffers, Lists, ReportKind, StopReason};
//!
//! let image = std::fs::read("../../examples/incident.image")?;
//! let m = uviktalik::read(&image)?.m;
//! let mut regs = [0; REGISTERS];
//! regs[FRAME_REGISTER] = m;
//!
//! let [mut mem, mut vbits, mut abits] = [(); 3].map(|()| vec![0; m as usize]);
//! let mut buffers = Buffers { mem: &mut mem, vbits: &mut vbits, abits: &mut abits };
//! let (mut reports, mut outputs) = ([0; 10 * REPORT_WORDS], [0; 10 * OUTPUT_WORDS]);
//! let mut lists = Lists { reports: &mut reports, outputs: &mut outputs };
//!
//! let mut state = uviktalik::begin(&image, &regs, &mut buffers)?;
//! let reason = uviktalik::run(&image, &mut state, &mut buffers, &mut lists, MAX_STEPS)?;
//! assert_eq!(reason, StopReason::STOPPED);
//! let first = state.reports_in(&reports).next().expect("a report");
//! assert_eq!((first.index, first.kind), (20, ReportKind::UNDEFINED_OUTPUT));
//! # Ok::<(), Box<dyn std::error::Error>>(())
//! ```

#![deny(missing_docs)]
#![deny(clippy::undocumented_unsafe_blocks)]

mod command;
mod named;
pub mod numbers;
pub mod raw;
mod state;
mod sys;

pub use command::Command;
pub use named::{Cause, CommandKind, Refusal, ReportKind, StopReason};
pub use state::{Output, Report, State};

use numbers::{
    ACCEPTED, CODE_SIZE, CODE_START, COMMAND_NONE, HEADER_D, HEADER_M, HEADER_N, HEADER_R,
    HEADER_WORDS, REASON_NONE, REGISTERS,
};

/// The buffers of a machine, lent to a call: M bytes each, or it is refused.
#[derive(Debug)]
pub struct Buffers<'a> {
    /// Memory.
    pub mem: &'a mut [u8],
    /// V bits: 1 where memory's bit is undefined.
    pub vbits: &'a mut [u8],
    /// A bits, a byte each: 1 where memory's byte is addressable, else 0.
    pub abits: &'a mut [u8],
}

/// The lists of a run, lent to a call, in words: whole entries up to a limit, or it is refused.
#[derive(Debug)]
pub struct Lists<'a> {
    /// Place for reports, [`REPORT_WORDS`](numbers::REPORT_WORDS) each.
    pub reports: &'a mut [u32],
    /// Place for outputs, [`OUTPUT_WORDS`](numbers::OUTPUT_WORDS) each.
    pub outputs: &'a mut [u32],
}

/// The sizes of an image and its code, a part of the image.
#[derive(Clone, Copy, Debug, PartialEq, Eq)]
pub struct Header<'a> {
    /// The bytes of memory.
    pub m: u32,
    /// The instructions.
    pub n: u32,
    /// The regions of memory.
    pub r: u32,
    /// The bytes that fill regions.
    pub d: u32,
    /// The instructions' bytes.
    pub code: &'a [u8],
}

/// What an image is written from.
#[derive(Clone, Copy, Debug, PartialEq, Eq)]
pub struct Fields<'a> {
    /// The bytes of memory.
    pub m: u32,
    /// The instructions, [`INSTRUCTION_WORDS`](numbers::INSTRUCTION_WORDS) each.
    pub instructions: &'a [u32],
    /// The regions of memory, [`REGION_WORDS`](numbers::REGION_WORDS) each.
    pub regions: &'a [u32],
    /// The bytes that fill regions, in the regions' order.
    pub data: &'a [u8],
}

fn answer<T>(number: u8, index: usize, accepted: T) -> Result<T, Refusal> {
    match number {
        ACCEPTED => Ok(accepted),
        _ => Err(Refusal { cause: Cause(number), index }),
    }
}

/// The version of the library that is linked. It is [`numbers::VERSION`] in every program that this
/// crate is part of: the names that it is linked by have the version in them.
pub fn version() -> u32 {
    // SAFETY: it takes nothing and touches no memory.
    unsafe { sys::uviktalik_version() }
}

/// Reads an image. Refusals 1 to 7.
pub fn read(image: &[u8]) -> Result<Header<'_>, Refusal> {
    let (mut header, mut code, mut fault) = ([0; HEADER_WORDS], [0; 2], 0);
    let number = raw::read(image, &mut header, &mut code, &mut fault);
    let [m, n, r, d] = [HEADER_M, HEADER_N, HEADER_R, HEADER_D].map(|place| header[place]);
    let code = &image[code[CODE_START]..][..code[CODE_SIZE]];
    answer(number, fault, Header { m, n, r, d, code })
}

/// Begins a program with these values in the registers: sets out memory, V bits and A bits as the
/// image says, and gives the state to run from. Refusals 1 to 8.
pub fn begin(
    image: &[u8],
    regs: &[u32; REGISTERS],
    buffers: &mut Buffers,
) -> Result<State, Refusal> {
    let (mut state, mut fault) = (State::default(), 0);
    let number = raw::begin(image, regs, buffers, &mut state.0, &mut fault);
    answer(number, fault, state)
}

/// Runs a program on from a state, any state, for at most so many steps, and leaves the state that
/// it comes to. It may be continued from there. Refusals 1 to 11.
pub fn run(
    image: &[u8],
    state: &mut State,
    buffers: &mut Buffers,
    lists: &mut Lists,
    budget: u32,
) -> Result<StopReason, Refusal> {
    let (mut reason, mut fault) = (REASON_NONE, 0);
    let number = raw::run(image, &mut state.0, buffers, lists, budget, &mut reason, &mut fault);
    answer(number, fault, StopReason(reason))
}

/// Writes the image of these fields to the first bytes of `out`, and says how many they are.
/// Refusals 3, 5, 6, 7 and 12.
///
/// ```
/// use uviktalik::{numbers::MAX_IMAGE, Fields};
///
/// // MOV 2, 5; EMIT 2 at port 1; STOP
/// let instructions = [0xFF00_0201, 5, 0x0002_0012, 1, 0, 0];
/// let fields = Fields { m: 16, instructions: &instructions, regions: &[], data: &[] };
/// let mut out = [0; MAX_IMAGE];
/// let size = uviktalik::write(&fields, &mut out)?;
/// assert_eq!(uviktalik::read(&out[..size])?.n, 3);
/// # Ok::<(), uviktalik::Refusal>(())
/// ```
pub fn write(fields: &Fields, out: &mut [u8]) -> Result<usize, Refusal> {
    let (mut size, mut fault) = (0, 0);
    let number = raw::write(fields, out, &mut size, &mut fault);
    answer(number, fault, size)
}

/// Hands output number `number`, from 0, on as a damper command. `outputs` are the words of the
/// outputs made and nothing else ([`State::made_in`]). Refusal 13.
///
/// What a program puts out that reports is not to be trusted: see first that [`State::reports`] is 0.
///
/// ```
/// use uviktalik::Command;
///
/// // 1 at port 0; 40 at port 2; 1 at port 5
/// let outputs = [0, 0x3F80_0000, 2, 0x4220_0000, 5, 0x3F80_0000];
/// assert_eq!(uviktalik::command(&outputs, 0)?, Command::Bump(1.0));
/// assert_eq!(uviktalik::command(&outputs, 1)?, Command::Preload(40.0));
/// assert_eq!(uviktalik::command(&outputs, 2)?, Command::Blocked(5));
/// assert!(uviktalik::command(&outputs, 3).is_err());
/// # Ok::<(), uviktalik::Refusal>(())
/// ```
pub fn command(outputs: &[u32], number: usize) -> Result<Command, Refusal> {
    let (mut kind, mut bits) = (COMMAND_NONE, 0);
    let refusal = raw::command(outputs, number, &mut kind, &mut bits);
    answer(refusal, 0, Command::of(kind, bits))
}
