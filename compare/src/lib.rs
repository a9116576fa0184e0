//! The compiled checker put beside an independent interpreter, writer and commands of documents 01 and
//! 02.

pub mod alarms;
pub mod bare;
pub mod broken;
pub mod calls;
pub mod cases;
pub mod checker;
pub mod claim;
pub mod clean;
pub mod commanding;
pub mod commands;
pub mod compare;
pub mod coverage;
pub mod damage;
pub mod differ;
pub mod edges;
pub mod families;
pub mod former;
pub mod frame;
pub mod guard;
pub mod images;
pub mod interpreter;
pub mod large;
pub mod layout;
pub mod lent;
pub mod met;
pub mod numbering;
pub mod parallel;
pub mod parts;
pub mod plan;
pub mod prng;
pub mod programs;
pub mod systematic;
pub mod teeth;
pub mod writer;
pub mod writing;

/// The faulty interpreters, writers and commands and everything here take and answer the same types.
pub use faults::types;
