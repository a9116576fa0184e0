//! The round trips from outside: what is written is read back as what went in, what is refused is refused by
//! reading, too, and an image that is taken apart and written again is the same.

use std::fmt;

use crate::broken;
use crate::guard::guarded;
use crate::parts::Parts;
use crate::types::{Engine, Header, Writer, Written};

/// What lies in a buffer before something is written to it once more.
const LEFTOVER: u8 = 0xA5;

/// What has to hold, in the order in which it is looked at.
#[derive(Clone, Copy, PartialEq, Eq)]
pub enum Clause {
    /// Both readers answer the same.
    Alike,
    /// Reading accepts what was written.
    Accepted,
    Sizes,
    Instructions,
    Regions,
    Data,
    /// The whole of a longer buffer is no image.
    Longer,
    /// Taken apart and written again it is the same.
    Again,
    /// What is refused is refused by reading, with the same number and index.
    Refused,
}

/// Those that a writer alone can break.
pub const CLAUSES: [Clause; 7] = [
    Clause::Accepted,
    Clause::Sizes,
    Clause::Instructions,
    Clause::Regions,
    Clause::Data,
    Clause::Again,
    Clause::Refused,
];

impl Clause {
    pub fn name(self) -> &'static str {
        match self {
            Clause::Alike => "read alike",
            Clause::Accepted => "read back",
            Clause::Sizes => "sizes",
            Clause::Instructions => "instructions",
            Clause::Regions => "regions",
            Clause::Data => "data",
            Clause::Longer => "longer buffer",
            Clause::Again => "written again",
            Clause::Refused => "refused alike",
        }
    }

    fn broken(self, words: String) -> Broken {
        Broken::new(self, self.name(), &words)
    }

    /// Broken unless the two are equal.
    fn same<T: PartialEq + fmt::Debug>(self, found: T, due: T) -> Result<(), Broken> {
        if found == due {
            return Ok(());
        }
        Err(self.broken(format!("{found:?}, not {due:?}")))
    }

    /// Broken unless the two lists are equal, at the first place at which they are not.
    fn same_list<T>(self, what: &str, found: &[T], due: &[T]) -> Result<(), Broken>
    where
        T: PartialEq + fmt::LowerHex,
    {
        let mut pairs = found.iter().zip(due).enumerate();
        if let Some((k, (found, due))) = pairs.find(|(_, (found, due))| found != due) {
            return Err(self.broken(format!("{what} {k}: {found:#x}, not {due:#x}")));
        }
        if found.len() == due.len() {
            return Ok(());
        }
        Err(self.broken(format!("{}, not {}, of {what}", found.len(), due.len())))
    }
}

pub type Broken = broken::Broken<Clause>;

/// What came of an image that was to be taken apart.
#[derive(Clone, Copy, PartialEq, Eq)]
pub enum Rewritten {
    /// Written again.
    Same,
    /// Refused by reading and writing alike, with this number.
    Refused(u32),
    /// Its offsets or its length are not as computed, or it is none.
    NotApart,
}

/// A writer, and the readers that read what it wrote.
#[derive(Clone, Copy)]
pub struct Trip<'a> {
    pub writer: &'a Writer,
    pub readers: [&'a Engine; 2],
}

impl Trip<'_> {
    /// What both readers answer.
    fn read(&self, image: &[u8]) -> Result<Header, Broken> {
        let read = |reader: &Engine| guarded(|| (reader.read)(image));
        let [first, second] = self.readers.map(read);
        let panicked = |message| Clause::Alike.broken(message);
        let ((header, code), (other, other_code)) =
            (first.map_err(panicked)?, second.map_err(panicked)?);
        Clause::Alike.same(header, other)?;
        Clause::Alike.same_list("code byte", code, other_code)?;
        Ok(header)
    }

    /// Written once more, to a buffer of this length: the answer, and the buffer.
    fn write(&self, parts: &Parts, room: usize) -> Result<(Written, Vec<u8>), Broken> {
        let mut out = vec![LEFTOVER; room];
        let written = guarded(|| (self.writer.write)(&parts.fields(), &mut out));
        Ok((written.map_err(|message| Clause::Again.broken(message))?, out))
    }

    /// What was written of these parts: it is accepted, and is what went in; and the buffer, if there is
    /// more of it, is refused with 4.
    fn read_back(&self, parts: &Parts, size: usize, out: &[u8]) -> Result<(), Broken> {
        let Some(image) = out.get(..size) else {
            return Err(Clause::Accepted.broken(format!("{size} bytes of {}", out.len())));
        };
        let header = self.read(image)?;
        Clause::Accepted.same((header.number, header.index), (0, 0))?;
        let Header { m, n, r, d, .. } = header;
        let [due_n, due_r, due_d] = parts.sizes().map(|count| count as u32);
        Clause::Sizes.same([m, n, r, d], [parts.m, due_n, due_r, due_d])?;
        let Some(found) = Parts::of_bytes(image) else {
            return Err(Clause::Accepted.broken("its offsets are wrong".to_string()));
        };
        Clause::Instructions.same_list("word", &found.instructions, &parts.instructions)?;
        Clause::Regions.same_list("word", &found.regions, &parts.regions)?;
        Clause::Data.same_list("byte", &found.data, &parts.data)?;
        if out.len() > size {
            let header = self.read(out)?;
            Clause::Longer.same((header.number, header.index), (4, 0))?;
        }
        self.again(&found, image)
    }

    /// The parts of an image written again, to a buffer that they just fit in.
    fn again(&self, parts: &Parts, image: &[u8]) -> Result<(), Broken> {
        let (written, out) = self.write(parts, image.len())?;
        Clause::Again.same(written, Written { number: 0, index: 0, size: image.len() })?;
        Clause::Again.same_list("byte", &out, image)
    }

    /// What was answered of these parts, and what then lies in the buffer.
    pub fn look(&self, parts: &Parts, written: Written, out: &[u8]) -> Result<(), Broken> {
        if written.number == 0 {
            return self.read_back(parts, written.size, out);
        }
        if !parts.are_whole() {
            return Clause::Refused.same(written.number, 3);
        }
        let header = self.read(&parts.bytes())?;
        let number = if header.number == 0 { 12 } else { header.number };
        Clause::Refused.same((written.number, written.index), (number, header.index as usize))
    }

    /// An image, taken apart by its offsets and written again.
    pub fn rewrite(&self, image: &[u8]) -> Result<Rewritten, Broken> {
        let header = self.read(image)?;
        let parts = Parts::of_bytes(image);
        match (header.number, parts) {
            (0, Some(parts)) => self.again(&parts, image).map(|()| Rewritten::Same),
            (0, None) => Err(Clause::Accepted.broken("its offsets are wrong".to_string())),
            (number @ (3 | 5 | 6 | 7), Some(parts)) => {
                let (written, out) = self.write(&parts, image.len())?;
                let due = Written { number, index: header.index as usize, size: 0 };
                Clause::Refused.same(written, due)?;
                Clause::Refused.same_list("buffer byte", &out, &vec![LEFTOVER; image.len()])?;
                Ok(Rewritten::Refused(number))
            }
            _ => Ok(Rewritten::NotApart),
        }
    }
}
