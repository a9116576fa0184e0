//! Document 02's request L7 taken at its word: an output that was made is handed on as a command that
//! carries its rate, or as blocked with the port, or it is refused with 13.

use crate::types::Commander;

pub const COMMANDER: Commander = Commander { name: "commands", command };

const OUTPUT_WORDS: usize = 2;
const MOST_WORDS: usize = 512;
const HIGHEST_PORT: u32 = 7;

/// What an output means.
enum Command {
    Bump(f32),
    Rebound(f32),
    Preload(f32),
    Blocked(u32),
}

impl Command {
    /// The kind, and the rate's bits or the port.
    fn numbers(&self) -> (u8, u32) {
        match *self {
            Command::Bump(rate) => (1, rate.to_bits()),
            Command::Rebound(rate) => (2, rate.to_bits()),
            Command::Preload(rate) => (3, rate.to_bits()),
            Command::Blocked(port) => (4, port),
        }
    }
}

/// The lowest and the highest rate of a port, both allowed.
struct Gate {
    lowest: f32,
    highest: f32,
}

const BUMP: Gate = Gate { lowest: 0.0, highest: 8000.0 };
const REBOUND: Gate = Gate { lowest: 0.0, highest: 8000.0 };
const PRELOAD: Gate = Gate { lowest: 0.0, highest: 40.0 };

impl Gate {
    fn allows(&self, rate: f32) -> bool {
        if rate.is_nan() {
            return false;
        }
        self.lowest <= rate && rate <= self.highest
    }
}

/// Kind and bits are written whether the call is refused or not. 0, or the refusal's number.
pub fn command(outputs: &[u32], number: usize, kind: &mut u8, bits: &mut u32) -> u32 {
    let Some(command) = handed_on(outputs, number) else {
        *kind = 0;
        *bits = 0;
        return 13;
    };
    (*kind, *bits) = command.numbers();
    0
}

/// The command of one of the outputs made, if these are a list and it is one of them.
fn handed_on(outputs: &[u32], number: usize) -> Option<Command> {
    if !outputs.len().is_multiple_of(OUTPUT_WORDS) {
        return None;
    }
    if outputs.len() > MOST_WORDS {
        return None;
    }
    if outputs.iter().step_by(OUTPUT_WORDS).any(|&port| port > HIGHEST_PORT) {
        return None;
    }
    if number >= outputs.len() / OUTPUT_WORDS {
        return None;
    }
    let at = OUTPUT_WORDS * number;
    Some(command_of(outputs[at], outputs[at + 1]))
}

fn command_of(port: u32, value: u32) -> Command {
    let rate = f32::from_bits(value);
    match port {
        0 if BUMP.allows(rate) => Command::Bump(rate),
        1 if REBOUND.allows(rate) => Command::Rebound(rate),
        2 if PRELOAD.allows(rate) => Command::Preload(rate),
        _ => Command::Blocked(port),
    }
}
