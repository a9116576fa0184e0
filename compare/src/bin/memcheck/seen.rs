//! One event that `vbits` saw: its line, and what the checker answers in the same place.

use crate::events::{Answer, Event, Look};
use crate::machine::{Machine, FIRST, SECOND};

/// One event line: Memcheck's answer, and the words that it was given.
pub struct Seen {
    pub name: String,
    pub memcheck: Answer,
    given: [u32; 8],
}

impl Seen {
    pub fn parse(line: &str) -> Option<Seen> {
        let mut fields = line.split(' ').skip(1);
        let name = fields.next()?.to_string();
        let words: Vec<u32> =
            fields.filter_map(|field| u32::from_str_radix(field, 16).ok()).collect();
        let [reports, v, data, ref given @ ..] = words[..] else {
            return None;
        };
        let given = given.try_into().ok()?;
        Some(Seen { name, memcheck: Answer { reports, v, data }, given })
    }

    /// What the checker answers in the same place.
    pub fn ours(&self, event: &Event) -> Result<Answer, String> {
        let [value, value_v, low, high, offset, pointer_v, hole_at, hole] = self.given;
        let mut machine = Machine::new([low, high], [0, 0]);
        machine.close(hole_at as usize..(hole_at + hole) as usize);
        machine.set(FIRST, offset, pointer_v);
        machine.set(SECOND, value, value_v);
        machine.run(event.code)?;
        let (data, v) = match event.look {
            Look::Register(register) => machine.register(register),
            Look::Memory => machine.memory(),
        };
        Ok(Answer { reports: machine.reports(), v: v as u32, data: data as u32 })
    }
}
