//! Refusals, stop reasons, kinds of report and of damper command: numbers with names. They are no
//! enums, since under the same version another library may have more of them.

use std::error::Error;
use std::fmt;

macro_rules! named {
    ($(#[$doc:meta])* $type:ident($kind:ty), $prefix:literal;
     $($name:ident = $value:literal, $words:literal;)*) => {
        $(#[$doc])*
        #[derive(Clone, Copy, Debug, PartialEq, Eq, PartialOrd, Ord, Hash)]
        pub struct $type(pub $kind);

        impl $type {
            $(#[doc = concat!($words, ".")]
            pub const $name: $type = $type($value);)*

            /// Each of them with its name in the header, without `UVIKTALIK_`.
            pub const ALL: &'static [(&'static str, $type)] =
                &[$((concat!($prefix, stringify!($name)), $type::$name)),*];

            /// What the number says.
            pub fn words(self) -> &'static str {
                match self {
                    $($type::$name => $words,)*
                    _ => "unknown to this binding",
                }
            }
        }

        /// What the number says.
        impl fmt::Display for $type {
            fn fmt(&self, out: &mut fmt::Formatter) -> fmt::Result {
                out.write_str(self.words())
            }
        }
    };
}

named! {
    /// Why a call was refused: the first that applies, in the order of the numbers.
    Cause(u8), "REFUSED_";
    TOO_SHORT = 1, "the image has under 32 bytes";
    WRONG_MAGIC = 2, "the image's first four bytes are not 54 55 4E 31";
    OUT_OF_LIMITS = 3, "M, N, R or D is out of its limits, or, writing, a list has a part of an entry";
    WRONG_LAYOUT = 4, "an offset or the image's length is not as computed from N, R and D";
    BAD_INSTRUCTION = 5, "an instruction breaks its row, has none, or writes register 15";
    BAD_REGION = 6, "a region breaks its rules";
    WRONG_SUM = 7, "D is not the sum of the filled regions' lengths";
    WRONG_SIZE = 8, "a buffer is not of M bytes, or a list not of whole entries or too long";
    TOO_MANY_STEPS = 9, "the steps taken and the budget are together above the most";
    WRONG_MARK = 10, "an A byte is above 1";
    WRONG_COUNT = 11, "index above N, outputs above their places, or reports above twice the steps";
    NO_ROOM = 12, "the buffer is shorter than the image";
    WRONG_OUTPUTS = 13, "outputs not of whole entries, too many, or with a port above 7; or none has that number";
}

named! {
    /// Why a run ended.
    StopReason(u8), "REASON_";
    STOPPED = 1, "the next instruction is STOP";
    PAST_END = 2, "the index is past the last instruction";
    NO_BUDGET = 3, "no budget is left";
    NO_PLACE = 4, "the next instruction puts out, and the output list is full";
}

named! {
    /// What was used by the step that reports.
    ReportKind(u32), "KIND_";
    UNDEFINED_ADDRESS = 1, "an address with undefined bits, by a load or store";
    UNDEFINED_CONDITION = 2, "a condition with undefined bits, by a jump";
    UNADDRESSABLE_LOAD = 3, "an unaddressable byte, by a load";
    UNADDRESSABLE_STORE = 4, "an unaddressable byte, by a store";
    UNDEFINED_OUTPUT = 5, "an output with undefined bits";
}

named! {
    /// What an output means.
    CommandKind(u8), "COMMAND_";
    BUMP = 1, "bump, with its rate";
    REBOUND = 2, "rebound, with its rate";
    PRELOAD = 3, "preload, with its rate";
    BLOCKED = 4, "blocked, with its port";
}

/// A call that was refused. It left every buffer and list as it was, and a run its state.
#[derive(Clone, Copy, Debug, PartialEq, Eq, Hash)]
pub struct Refusal {
    /// Why.
    pub cause: Cause,
    /// The lowest index at fault, of an instruction or a region; 0 with every other cause.
    pub index: usize,
}

impl Refusal {
    /// The refusal's number.
    pub fn number(self) -> u8 {
        self.cause.0
    }
}

impl fmt::Display for Refusal {
    fn fmt(&self, out: &mut fmt::Formatter) -> fmt::Result {
        write!(out, "refused {} at {}: {}", self.number(), self.index, self.cause)
    }
}

impl Error for Refusal {}
