//! The clauses of demand 3 and that of register 15 by name, so that each can be seen to be broken by some
//! planted fault.

use std::fmt;

use crate::broken;

#[derive(Clone, Copy, PartialEq, Eq)]
pub enum Clause {
    Trap,
    Steps,
    Index,
    OutputCount,
    Port,
    Value,
    RegisterBits,
    Mark,
    ByteBits,
    StopReason,
    /// Register 15 is kept, on either machine and after reports, too (document 02, L9).
    Frame,
    /// No clause, but what follows from those on outputs: the same commands (document 02, L7).
    Command,
    /// No clause: a call that gives no answer.
    Panic,
}

/// The clauses in the order in which they are looked at, first those of demand 3.
pub const CLAUSES: [Clause; 11] = [
    Clause::Trap,
    Clause::Steps,
    Clause::Index,
    Clause::OutputCount,
    Clause::Port,
    Clause::Value,
    Clause::RegisterBits,
    Clause::Mark,
    Clause::ByteBits,
    Clause::StopReason,
    Clause::Frame,
];

impl Clause {
    pub fn name(self) -> &'static str {
        match self {
            Clause::Trap => "trap",
            Clause::Steps => "steps",
            Clause::Index => "index",
            Clause::OutputCount => "number of outputs",
            Clause::Port => "port",
            Clause::Value => "value",
            Clause::RegisterBits => "register bits",
            Clause::Mark => "mark",
            Clause::ByteBits => "byte bits",
            Clause::StopReason => "stop reason",
            Clause::Frame => "register 15",
            Clause::Command => "command",
            Clause::Panic => "panic",
        }
    }

    pub fn broken(self, words: String) -> Broken {
        Broken::new(self, self.name(), &words)
    }

    /// Broken unless the words are equal; `of` says what they are words of.
    pub fn same(self, of: impl fmt::Display, left: u32, right: u32) -> Result<(), Broken> {
        if left == right {
            return Ok(());
        }
        Err(self.broken(format!("{of}checker {left:#x}, bare machine {right:#x}")))
    }
}

pub type Broken = broken::Broken<Clause>;
