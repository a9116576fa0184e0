//! What every implementation of documents 01 and 02 takes and answers, so that any two can be put side by
//! side: the compiled checker, the independent interpreter, writer and commands, and those with a planted fault.

/// Registers with their V words, and the counts.
#[derive(Clone, Copy, Debug, Default, PartialEq, Eq)]
pub struct State {
    pub regs: [u32; 16],
    pub vregs: [u32; 16],
    pub index: u32,
    pub steps: u32,
    pub outputs: u32,
    pub reports: u32,
}

/// What reading answers: 0 or the refusal's number, its index, and the four sizes (zeros when refused).
#[derive(Clone, Copy, Debug, Default, PartialEq, Eq)]
pub struct Header {
    pub number: u32,
    pub index: u32,
    pub m: u32,
    pub n: u32,
    pub r: u32,
    pub d: u32,
}

/// What beginning answers.
#[derive(Clone, Copy, Debug, Default, PartialEq, Eq)]
pub struct Began {
    pub number: u32,
    pub index: u32,
    pub state: State,
}

/// What a run answers. The reason is 0 when the run was refused.
#[derive(Clone, Copy, Debug, Default, PartialEq, Eq)]
pub struct Ran {
    pub number: u32,
    pub index: u32,
    pub reason: u32,
    pub state: State,
}

/// The buffers of a machine, lent for one call.
pub struct Buffers<'a> {
    pub mem: &'a mut [u8],
    pub v: &'a mut [u8],
    pub a: &'a mut [u8],
}

/// The two lists of a run, in words, lent for one call.
pub struct Lists<'a> {
    pub reports: &'a mut [u32],
    pub outputs: &'a mut [u32],
}

/// One implementation: reading, beginning and running.
#[derive(Clone, Copy)]
pub struct Engine {
    pub name: &'static str,
    pub read: for<'a> fn(&'a [u8]) -> (Header, &'a [u8]),
    pub begin: fn(&[u8], &[u32; 16], Buffers) -> Began,
    pub run: fn(&[u8], &State, Buffers, Lists, u32) -> Ran,
}

/// What an image is written from: M, two words for each instruction, three for each region, and the data.
#[derive(Clone, Copy)]
pub struct Fields<'a> {
    pub m: u32,
    pub instructions: &'a [u32],
    pub regions: &'a [u32],
    pub data: &'a [u8],
}

/// What writing answers: 0 or the refusal's number, its index, and the image's length (0 when refused).
#[derive(Clone, Copy, Debug, Default, PartialEq, Eq)]
pub struct Written {
    pub number: u32,
    pub index: usize,
    pub size: usize,
}

/// One implementation of writing. The buffer is lent for one call.
#[derive(Clone, Copy)]
pub struct Writer {
    pub name: &'static str,
    pub write: fn(&Fields, &mut [u8]) -> Written,
}

/// One implementation of damper commands: the outputs made and the number of one; the places of the kind and of
/// the bits, lent for one call; 0 or the refusal's number.
#[derive(Clone, Copy)]
pub struct Commander {
    pub name: &'static str,
    pub command: fn(&[u32], usize, &mut u8, &mut u32) -> u32,
}
