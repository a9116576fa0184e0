//! Memcheck's modes, on which an expectation depends.

use std::fmt;

/// The value of `--expensive-definedness-checks`; `Plain` is `no` without Valgrind's optimiser
/// (`--vex-iropt-level=0`), `Strict` is `no` with `--partial-loads-ok=no`.
#[derive(Clone, Copy, PartialEq, Eq, PartialOrd, Ord)]
pub enum Mode {
    No,
    Auto,
    Yes,
    Plain,
    Strict,
}
use Mode::{Auto, No, Plain, Strict, Yes};

impl Mode {
    pub fn named(name: &str) -> Option<Mode> {
        MODES.iter().find(|(known, _)| *known == name).map(|(_, mode)| *mode)
    }
}

impl fmt::Display for Mode {
    fn fmt(&self, f: &mut fmt::Formatter) -> fmt::Result {
        let known = MODES.iter().find(|(_, mode)| mode == self);
        known.map_or(Ok(()), |(name, _)| f.write_str(name))
    }
}

const MODES: [(&str, Mode); 5] =
    [("no", No), ("auto", Auto), ("yes", Yes), ("plain", Plain), ("strict", Strict)];
pub const EVERY: &[Mode] = &[No, Auto, Yes, Plain, Strict];
/// The modes in which the operations are run beside the events, and those with the optimiser.
pub const ALL: &[Mode] = &[No, Auto, Yes, Plain];
pub const OPTIMISED: &[Mode] = &[No, Auto, Yes];
