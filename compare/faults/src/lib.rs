//! The interpreter, the writer and the commands once for each planted fault, as build.rs writes them from
//! faults.txt, writer_faults.txt and command_faults.txt.

#[path = "../../src/types.rs"]
pub mod types;

use types::{Commander, Engine, Writer};

include!(concat!(env!("OUT_DIR"), "/faults.rs"));

/// The interpreter with the fault of this name.
pub fn planted(name: &str) -> Option<&'static Engine> {
    FAULTS.iter().find(|fault| fault.0 == name).map(|fault| &fault.2)
}

/// The writer with the fault of this name.
pub fn planted_writer(name: &str) -> Option<&'static Writer> {
    WRITER_FAULTS.iter().find(|fault| fault.0 == name).map(|fault| &fault.2)
}

/// The commands with the fault of this name.
pub fn planted_commander(name: &str) -> Option<&'static Commander> {
    COMMAND_FAULTS.iter().find(|fault| fault.0 == name).map(|fault| &fault.2)
}
