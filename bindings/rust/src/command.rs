//! Damper commands: an output that was made, by what it means.

use std::fmt;

use crate::named::CommandKind;

/// An output as a command that carries its rate, or blocked with its port. The bits of a rate are
/// the output's value, minus zero's too, and it lies in the gate of its port, whose ends are
/// allowed.
#[derive(Clone, Copy, Debug, PartialEq)]
pub enum Command {
    /// Port 0: a rate from 0 to 8000.
    Bump(f32),
    /// Port 1: a rate from 0 to 8000.
    Rebound(f32),
    /// Port 2: a rate from 0 to 40.
    Preload(f32),
    /// Port 3 to 7, or a value that is not a number or lies outside its port's gate: the port.
    Blocked(u32),
}

impl Command {
    /// The command of an accepted call. What is not known to carry a rate is not let through.
    pub(crate) fn of(kind: u8, bits: u32) -> Command {
        match CommandKind(kind) {
            CommandKind::BUMP => Command::Bump(f32::from_bits(bits)),
            CommandKind::REBOUND => Command::Rebound(f32::from_bits(bits)),
            CommandKind::PRELOAD => Command::Preload(f32::from_bits(bits)),
            _ => Command::Blocked(bits),
        }
    }

    /// The rate, if there is one.
    pub fn rate(self) -> Option<f32> {
        match self {
            Command::Bump(rate) | Command::Rebound(rate) | Command::Preload(rate) => Some(rate),
            Command::Blocked(_) => None,
        }
    }
}

/// What it is, and its rate, in as many digits as tell it from every other, or its port.
impl fmt::Display for Command {
    fn fmt(&self, out: &mut fmt::Formatter) -> fmt::Result {
        match self {
            Command::Bump(rate) => write!(out, "bump {rate}"),
            Command::Rebound(rate) => write!(out, "rebound {rate}"),
            Command::Preload(rate) => write!(out, "preload {rate}"),
            Command::Blocked(port) => write!(out, "blocked port {port}"),
        }
    }
}
