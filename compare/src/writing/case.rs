//! A case: all that is lent to a writer, with something else around each part of it.

use super::counted::FAMILIES;
use super::drawn::KINDS;
use crate::families::Family;
use crate::guard::guarded;
use crate::lent::Lent;
use crate::numbering::{self, Kind, Numbered};
use crate::parts::Parts;
use crate::prng::Prng;
use crate::types::{Fields, Writer, Written};

#[derive(Clone, Debug, PartialEq, Eq)]
pub struct Case {
    pub m: u32,
    pub instructions: Lent<u32>,
    pub regions: Lent<u32>,
    pub data: Lent<u8>,
    pub out: Lent<u8>,
}

impl Case {
    /// These parts, and a buffer of so many bytes with leftovers in it.
    pub fn new(parts: Parts, room: usize, prng: &mut Prng) -> Case {
        let leftovers = prng.bytes(room);
        Case {
            m: parts.m,
            instructions: Lent::new(parts.instructions, prng),
            regions: Lent::new(parts.regions, prng),
            data: Lent::new(parts.data, prng),
            out: Lent::new(leftovers, prng),
        }
    }

    /// These parts, and a buffer that is so much longer than the image, or shorter.
    pub fn beside(parts: Parts, more: isize, prng: &mut Prng) -> Case {
        let room = parts.length().saturating_add_signed(more);
        Case::new(parts, room, prng)
    }

    /// What is lent besides the buffer, alone.
    pub fn parts(&self) -> Parts {
        Parts {
            m: self.m,
            instructions: self.instructions.part().to_vec(),
            regions: self.regions.part().to_vec(),
            data: self.data.part().to_vec(),
        }
    }

    pub fn room(&self) -> usize {
        self.out.part().len()
    }

    /// The answer of a writer that all of it is lent to, or the message of its panic.
    pub fn written_by(&mut self, writer: &Writer) -> Result<Written, String> {
        let Case { m, instructions, regions, data, out } = self;
        let (instructions, regions) = (instructions.part(), regions.part());
        let fields = Fields { m: *m, instructions, regions, data: data.part() };
        guarded(|| (writer.write)(&fields, out.part_mut()))
    }
}

impl Numbered for Case {
    const STREAM: u64 = 4;
    const FAMILIES: &'static [Family<Case>] = &FAMILIES;
    const KINDS: &'static [Kind<Case>] = &KINDS;
}

pub type Cases = numbering::Cases<Case>;
