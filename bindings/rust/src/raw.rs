//! The calls as the header has them, made safe: a reference for each pointer, a slice for a pointer
//! and its size. Each returns 0 or the refusal's number, and writes what it answers to what it is
//! lent. The header says what is then where.

use crate::numbers::{HEADER_WORDS, REGISTERS, STATE_WORDS};
use crate::sys;
use crate::{Buffers, Fields, Lists};

// Rust sees to what the calls ask (the header, WHAT IS ASKED): a reference is not null, a slice has
// as many elements as its size says, and what is lent as `&mut` overlaps nothing else. Stack, as for
// any call, is the thread's affair.

/// Reads an image.
#[inline]
pub fn read(
    image: &[u8],
    header: &mut [u32; HEADER_WORDS],
    code: &mut [usize; 2],
    fault: &mut usize,
) -> u8 {
    // SAFETY: every pointer is a reference's, and each slice's stands before its size.
    unsafe { sys::uviktalik_read(image.as_ptr(), image.len(), header, code, fault) }
}

/// Begins a program.
#[inline]
pub fn begin(
    image: &[u8],
    regs: &[u32; REGISTERS],
    buffers: &mut Buffers,
    state: &mut [u32; STATE_WORDS],
    fault: &mut usize,
) -> u8 {
    let Buffers { mem, vbits, abits } = buffers;
    // SAFETY: as above; the buffers are apart, each being lent as `&mut`.
    unsafe {
        sys::uviktalik_begin(
            image.as_ptr(),
            image.len(),
            regs,
            mem.as_mut_ptr(),
            mem.len(),
            vbits.as_mut_ptr(),
            vbits.len(),
            abits.as_mut_ptr(),
            abits.len(),
            state,
            fault,
        )
    }
}

/// Runs a program on.
#[inline]
pub fn run(
    image: &[u8],
    state: &mut [u32; STATE_WORDS],
    buffers: &mut Buffers,
    lists: &mut Lists,
    budget: u32,
    reason: &mut u8,
    fault: &mut usize,
) -> u8 {
    let Buffers { mem, vbits, abits } = buffers;
    let Lists { reports, outputs } = lists;
    // SAFETY: as above, of the lists too.
    unsafe {
        sys::uviktalik_run(
            image.as_ptr(),
            image.len(),
            state,
            mem.as_mut_ptr(),
            mem.len(),
            vbits.as_mut_ptr(),
            vbits.len(),
            abits.as_mut_ptr(),
            abits.len(),
            reports.as_mut_ptr(),
            reports.len(),
            outputs.as_mut_ptr(),
            outputs.len(),
            budget,
            reason,
            fault,
        )
    }
}

/// Writes an image.
#[inline]
pub fn write(fields: &Fields, out: &mut [u8], size: &mut usize, fault: &mut usize) -> u8 {
    let Fields { m, instructions, regions, data } = *fields;
    // SAFETY: as above.
    unsafe {
        sys::uviktalik_write(
            m,
            instructions.as_ptr(),
            instructions.len(),
            regions.as_ptr(),
            regions.len(),
            data.as_ptr(),
            data.len(),
            out.as_mut_ptr(),
            out.len(),
            size,
            fault,
        )
    }
}

/// Hands an output on as a damper command.
#[inline]
pub fn command(outputs: &[u32], number: usize, kind: &mut u8, bits: &mut u32) -> u8 {
    // SAFETY: as above.
    unsafe { sys::uviktalik_command(outputs.as_ptr(), outputs.len(), number, kind, bits) }
}
