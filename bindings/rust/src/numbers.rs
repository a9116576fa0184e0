//! The numbers of include/uviktalik.h under its names, without `UVIKTALIK_`. Those of refusals,
//! stop reasons, kinds of report and damper commands are in [`Cause`](crate::Cause),
//! [`StopReason`](crate::StopReason), [`ReportKind`](crate::ReportKind) and
//! [`CommandKind`](crate::CommandKind).

macro_rules! numbers {
    ($($(#[$doc:meta])* $name:ident: $kind:ty = $value:expr;)*) => {
        $($(#[$doc])* pub const $name: $kind = $value;)*

        /// Each of them with its name, for whoever holds them against the header.
        pub const ALL: &[(&str, u64)] = &[$((stringify!($name), $name as u64)),*];
    };
}

numbers! {
    /// The version of the interface that this binding declares.
    VERSION: u32 = 2;

    /// How many registers there are.
    REGISTERS: usize = 16;
    /// The one register that is defined at a beginning, and that no instruction may write.
    FRAME_REGISTER: usize = 15;
    /// How many output ports there are, from 0 on.
    PORTS: u32 = 8;
    /// The most bytes of memory, M; the least is 1.
    MAX_MEMORY: usize = 8_192;
    /// The most instructions, N; the least is 1.
    MAX_INSTRUCTIONS: usize = 2_048;
    /// The most regions of memory, R.
    MAX_REGIONS: usize = 32;
    /// The most bytes that fill regions, D.
    MAX_DATA: usize = 8_192;
    /// The most bytes of an image.
    MAX_IMAGE: usize = 24_992;
    /// The most steps of all runs after a beginning.
    MAX_STEPS: u32 = 1_000_000;
    /// The most words of a report list.
    MAX_REPORT_LIST: usize = 256;
    /// The most words of an output list.
    MAX_OUTPUT_LIST: usize = 512;

    /// The place of M in what reading leaves.
    HEADER_M: usize = 0;
    /// The place of N.
    HEADER_N: usize = 1;
    /// The place of R.
    HEADER_R: usize = 2;
    /// The place of D.
    HEADER_D: usize = 3;
    /// The words that reading leaves.
    HEADER_WORDS: usize = 4;
    /// The place of where the code begins.
    CODE_START: usize = 0;
    /// The place of how many bytes the code has.
    CODE_SIZE: usize = 1;

    /// The place of the first register in a state.
    STATE_REGS: usize = 0;
    /// The place of the first register's V word.
    STATE_REGS_V: usize = 16;
    /// The place of the next instruction's index.
    STATE_INDEX: usize = 32;
    /// The place of the steps taken.
    STATE_STEPS: usize = 33;
    /// The place of the outputs made.
    STATE_OUTPUTS: usize = 34;
    /// The place of the reports made.
    STATE_REPORTS: usize = 35;
    /// The words of a state.
    STATE_WORDS: usize = 36;

    /// The place, in a report, of the steps taken before it.
    REPORT_STEPS: usize = 0;
    /// The place of the instruction's index.
    REPORT_INDEX: usize = 1;
    /// The place of the kind.
    REPORT_KIND: usize = 2;
    /// The place of the detail.
    REPORT_DETAIL: usize = 3;
    /// The words of a report.
    REPORT_WORDS: usize = 4;
    /// The place of an output's port.
    OUTPUT_PORT: usize = 0;
    /// The place of its value.
    OUTPUT_VALUE: usize = 1;
    /// The words of an output.
    OUTPUT_WORDS: usize = 2;

    /// The place, in an instruction, of the word with its bytes op, d, a and b.
    INSTRUCTION_FIELDS: usize = 0;
    /// The place of imm.
    INSTRUCTION_IMM: usize = 1;
    /// The words of an instruction.
    INSTRUCTION_WORDS: usize = 2;
    /// The place of a region's start.
    REGION_START: usize = 0;
    /// The place of its length.
    REGION_LENGTH: usize = 1;
    /// The place of its kind.
    REGION_KIND: usize = 2;
    /// The words of a region.
    REGION_WORDS: usize = 3;
    /// The kind of a region whose bytes are the next ones of the data.
    FILLED: u32 = 1;
    /// The kind of a region that is addressable but undefined.
    UNDEFINED: u32 = 2;

    /// What a call returns that is not refused.
    ACCEPTED: u8 = 0;
    /// The stop reason of a refused run.
    REASON_NONE: u8 = 0;
    /// The kind of damper command that a refused call leaves.
    COMMAND_NONE: u8 = 0;
}
