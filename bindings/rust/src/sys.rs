//! The declarations of include/uviktalik.h. The version ends the symbols' names, so an archive of
//! another version does not link.

use crate::numbers::{HEADER_WORDS, REGISTERS, STATE_WORDS};

extern "C" {
    pub fn uviktalik_version() -> u32;

    #[link_name = "uviktalik_read_2"]
    pub fn uviktalik_read(
        image: *const u8,
        image_size: usize,
        header: *mut [u32; HEADER_WORDS],
        code: *mut [usize; 2],
        fault: *mut usize,
    ) -> u8;

    #[link_name = "uviktalik_begin_2"]
    pub fn uviktalik_begin(
        image: *const u8,
        image_size: usize,
        regs: *const [u32; REGISTERS],
        mem: *mut u8,
        mem_size: usize,
        vbits: *mut u8,
        vbits_size: usize,
        abits: *mut u8,
        abits_size: usize,
        state: *mut [u32; STATE_WORDS],
        fault: *mut usize,
    ) -> u8;

    #[link_name = "uviktalik_run_2"]
    pub fn uviktalik_run(
        image: *const u8,
        image_size: usize,
        state: *mut [u32; STATE_WORDS],
        mem: *mut u8,
        mem_size: usize,
        vbits: *mut u8,
        vbits_size: usize,
        abits: *mut u8,
        abits_size: usize,
        reports: *mut u32,
        reports_size: usize,
        outputs: *mut u32,
        outputs_size: usize,
        budget: u32,
        reason: *mut u8,
        fault: *mut usize,
    ) -> u8;

    #[link_name = "uviktalik_write_2"]
    pub fn uviktalik_write(
        m: u32,
        instructions: *const u32,
        instructions_size: usize,
        regions: *const u32,
        regions_size: usize,
        data: *const u8,
        data_size: usize,
        out: *mut u8,
        out_size: usize,
        size: *mut usize,
        fault: *mut usize,
    ) -> u8;

    #[link_name = "uviktalik_command_2"]
    pub fn uviktalik_command(
        outputs: *const u32,
        outputs_size: usize,
        number: usize,
        kind: *mut u8,
        bits: *mut u32,
    ) -> u8;
}
