//! A case: the outputs made, the number of one, and the places of the answer, with something else around each.

use super::counted::FAMILIES;
use super::drawn;
use crate::families::Family;
use crate::guard::guarded;
use crate::lent::Lent;
use crate::numbering::{self, Kind, Numbered};
use crate::prng::Prng;
use crate::types::Commander;

/// What a call answers: 0 or the refusal's number, and what it leaves as kind and bits.
#[derive(Clone, Copy, Debug, PartialEq, Eq)]
pub struct Answer {
    pub number: u32,
    pub kind: u8,
    pub bits: u32,
}

/// What lies in kind and bits before a call; neither can be an answer.
const STALE: (u8, u32) = (0xA5, 0xA5A5_A5A5);

/// The answer of a commander, to which nothing is lent but this.
pub fn answer_of(commander: &Commander, outputs: &[u32], number: usize) -> Answer {
    let (mut kind, mut bits) = STALE;
    let refusal = (commander.command)(outputs, number, &mut kind, &mut bits);
    Answer { number: refusal, kind, bits }
}

/// The kinds of command by their numbers; 0 is left by a refused call.
pub const KINDS: [&str; 5] = ["none", "bump", "rebound", "preload", "blocked"];

#[derive(Clone, Debug, PartialEq, Eq)]
pub struct Case {
    pub outputs: Lent<u32>,
    pub number: usize,
    /// One place each.
    pub kind: Lent<u8>,
    pub bits: Lent<u32>,
}

impl Case {
    /// These words and this number; kind and bits have leftovers in them that no call may answer: a kind that
    /// there is not, and bits that are below every gate and are no port.
    pub fn new(outputs: Vec<u32>, number: usize, prng: &mut Prng) -> Case {
        let kind = prng.byte() | 0x80;
        let bits = prng.word() | 0x8000_0100;
        Case {
            outputs: Lent::new(outputs, prng),
            number,
            kind: Lent::new(vec![kind], prng),
            bits: Lent::new(vec![bits], prng),
        }
    }

    /// The port words of the outputs, the last one's of an odd list too.
    pub fn ports(&self) -> impl Iterator<Item = u32> + '_ {
        self.outputs.part().iter().copied().step_by(2)
    }

    /// The answer of a commander that all of it is lent to, or the message of its panic.
    pub fn answer_of(&mut self, commander: &Commander) -> Result<Answer, String> {
        let Case { outputs, number, kind, bits } = self;
        let (kind, bits) = (&mut kind.part_mut()[0], &mut bits.part_mut()[0]);
        let refusal = guarded(|| (commander.command)(outputs.part(), *number, kind, bits))?;
        Ok(Answer { number: refusal, kind: *kind, bits: *bits })
    }
}

impl Numbered for Case {
    const STREAM: u64 = 5;
    const FAMILIES: &'static [Family<Case>] = &FAMILIES;
    const KINDS: &'static [Kind<Case>] = &drawn::KINDS;
}

pub type Cases = numbering::Cases<Case>;
