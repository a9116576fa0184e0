//! One call of a case made on one engine, and all that it answers.

use crate::cases::{Call, Desk};
use crate::guard::guarded;
use crate::types::{Began, Buffers, Engine, Header, Lists, Ran};

#[derive(PartialEq, Eq)]
pub enum Answer {
    Read(Header, CodePart),
    Begun(Began),
    Ran(Ran),
    Panicked(String),
    /// Nothing was called.
    Nothing,
}

impl Answer {
    /// The refusal's number and index, if there was a call.
    pub fn refusal(&self) -> Option<(u32, u32)> {
        match self {
            Answer::Read(header, _) => Some((header.number, header.index)),
            Answer::Begun(began) => Some((began.number, began.index)),
            Answer::Ran(ran) => Some((ran.number, ran.index)),
            Answer::Panicked(_) | Answer::Nothing => None,
        }
    }
}

/// The code that reading handed back. Where an empty part lies is not said in document 01.
#[derive(PartialEq, Eq)]
pub struct CodePart {
    pub bytes: Vec<u8>,
    /// Its offset in the image, if it is a part of it and not empty.
    pub offset: Option<usize>,
}

impl CodePart {
    fn of(image: &[u8], part: &[u8]) -> CodePart {
        let offset = (part.as_ptr() as usize).wrapping_sub(image.as_ptr() as usize);
        let inside = offset <= image.len() && part.len() <= image.len() - offset;
        let offset = (inside && !part.is_empty()).then_some(offset);
        CodePart { bytes: part.to_vec(), offset }
    }
}

fn read(engine: &Engine, desk: &Desk) -> Answer {
    let (header, part) = (engine.read)(&desk.image);
    Answer::Read(header, CodePart::of(&desk.image, part))
}

fn begin(engine: &Engine, desk: &mut Desk, registers: &[u32; 16]) -> Answer {
    let buffers = Buffers { mem: &mut desk.mem, v: &mut desk.v, a: &mut desk.a };
    let began = (engine.begin)(&desk.image, registers, buffers);
    desk.state = began.state;
    Answer::Begun(began)
}

fn run(engine: &Engine, desk: &mut Desk, budget: u32) -> Answer {
    let buffers = Buffers { mem: &mut desk.mem, v: &mut desk.v, a: &mut desk.a };
    let lists = Lists { reports: &mut desk.lists.reports, outputs: &mut desk.lists.outputs };
    let ran = (engine.run)(&desk.image, &desk.state, buffers, lists, budget);
    desk.state = ran.state;
    Answer::Ran(ran)
}

/// The desk is left as the call leaves it; its state is the one answered.
pub fn make(engine: &Engine, desk: &mut Desk, call: Call) -> Answer {
    let answer = guarded(|| match call {
        Call::Read => read(engine, desk),
        Call::Begin(registers) => begin(engine, desk, &registers),
        Call::Run(budget) => run(engine, desk, budget.after(desk.state.steps)),
        Call::Swap => {
            std::mem::swap(&mut desk.lists, &mut desk.spare);
            Answer::Nothing
        }
    });
    answer.unwrap_or_else(Answer::Panicked)
}
