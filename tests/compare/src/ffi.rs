//! The exported functions of the static library. Every `unsafe` of this package is here.
//!
//! All calls are sound for the same three reasons:
//!
//! * each pointer and length come from one live slice, so the memory is there,
//!   aligned and initialised (an empty slice gives a pointer that is not null
//!   and aligned, with length 0);
//! * what a function may write is borrowed exclusively, so it overlaps nothing else
//!   that the same call is lent, and what it only reads is borrowed shared;
//! * a function accepts every content and every length, keeps no pointer after it
//!   has returned and has no state of its own, so threads may call at once.
//!
//! The comment at each call names what is particular to it.

use crate::queue::Queue;
use crate::sides::Answer;

extern "C" {
    fn rehearsal_read(file: *const u8, file_len: usize, sizes: *mut u8, sizes_len: usize) -> u64;
    fn rehearsal_run(
        file: *const u8,
        file_len: usize,
        trace: *mut u8,
        trace_len: usize,
        totals: *mut u8,
        totals_len: usize,
    ) -> u64;
    fn rehearsal_cas_run(
        file: *const u8,
        file_len: usize,
        trace: *mut u8,
        trace_len: usize,
        totals: *mut u8,
        totals_len: usize,
    ) -> u64;
    fn rehearsal_alike(
        first: *const u8,
        first_len: usize,
        second: *const u8,
        second_len: usize,
    ) -> u64;
    fn rehearsal_write(
        slots: u32,
        buffer: u32,
        spacing: u32,
        margin: u32,
        thieves: u32,
        start: u32,
        kinds: *const u8,
        kinds_len: usize,
        operands: *const u32,
        operands_len: usize,
        file: *mut u8,
        file_len: usize,
    ) -> u64;
    fn rehearsal_share_sheet(
        file: *const u8,
        file_len: usize,
        count: u32,
        sheet: *mut u8,
        sheet_len: usize,
    ) -> u64;
    fn rehearsal_needed_margin(buffer: u32, spacing: u32) -> u32;
}

/// Reads a file; the six sizes go into `sizes`.
pub fn read(file: &[u8], sizes: &mut [u8]) -> Answer {
    // SAFETY: `file` is only read, `sizes` is exclusive; see the module's reasons.
    let answer =
        unsafe { rehearsal_read(file.as_ptr(), file.len(), sizes.as_mut_ptr(), sizes.len()) };
    Answer::unpack(answer)
}

/// Runs a file; the trace and the three totals and hidden go into the lent memory.
pub fn run(queue: Queue, file: &[u8], trace: &mut [u8], totals: &mut [u8]) -> Answer {
    let run = match queue {
        Queue::Locking => rehearsal_run,
        Queue::Swapping => rehearsal_cas_run,
    };
    // SAFETY: `file` is only read; `trace` and `totals` are two exclusive borrows,
    // so they don't overlap; see the module's reasons.
    let answer = unsafe {
        run(
            file.as_ptr(),
            file.len(),
            trace.as_mut_ptr(),
            trace.len(),
            totals.as_mut_ptr(),
            totals.len(),
        )
    };
    Answer::unpack(answer)
}

/// Whether two files are alike.
pub fn alike(first: &[u8], second: &[u8]) -> Answer {
    // SAFETY: both are only read, so they may even be the same memory.
    let answer =
        unsafe { rehearsal_alike(first.as_ptr(), first.len(), second.as_ptr(), second.len()) };
    Answer::unpack(answer)
}

/// Writes a file from six sizes and two arrays.
pub fn write(sizes: &[u32; 6], kinds: &[u8], operands: &[u32], file: &mut [u8]) -> Answer {
    let [slots, buffer, spacing, margin, thieves, start] = *sizes;
    // SAFETY: the arrays are only read, `file` is exclusive; the length of
    // `operands` counts numbers, not bytes, as the function expects.
    let answer = unsafe {
        rehearsal_write(
            slots,
            buffer,
            spacing,
            margin,
            thieves,
            start,
            kinds.as_ptr(),
            kinds.len(),
            operands.as_ptr(),
            operands.len(),
            file.as_mut_ptr(),
            file.len(),
        )
    };
    Answer::unpack(answer)
}

/// Writes the share sheet of a file with `count` blocks.
pub fn share_sheet(file: &[u8], count: u32, sheet: &mut [u8]) -> Answer {
    // SAFETY: `file` is only read, `sheet` is exclusive; see the module's reasons.
    let answer = unsafe {
        rehearsal_share_sheet(
            file.as_ptr(),
            file.len(),
            count,
            sheet.as_mut_ptr(),
            sheet.len(),
        )
    };
    Answer::unpack(answer)
}

/// The needed margin; asked only for sizes in range.
pub fn needed_margin(buffer: u32, spacing: u32) -> u32 {
    // SAFETY: two numbers in, one out; no memory is lent.
    unsafe { rehearsal_needed_margin(buffer, spacing) }
}
