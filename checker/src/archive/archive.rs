//! The archive under test, called as a C program calls it.

use crate::board::analog::{Answer, Correction};

extern "C" {
    fn pmc330_corrected(
        range: u32,
        gain: u32,
        high: u32,
        low: u32,
        high_sum: u32,
        low_sum: u32,
        raw: u32,
    ) -> u64;
    fn pmc330_code(range: u32, gain: u32, microvolts: i32) -> u32;
}

/// The archive packs an answer as 256 * value + number.
pub fn answer_of(result: u64) -> Answer {
    Answer {
        number: result % 256,
        value: result / 256,
    }
}

/// The archive's answer to a correction.
pub fn corrected(call: &Correction) -> Answer {
    // Safe: plain numbers go in and out, and no memory is lent.
    answer_of(unsafe {
        pmc330_corrected(
            call.range,
            call.gain,
            call.high,
            call.low,
            call.high_sum,
            call.low_sum,
            call.raw,
        )
    })
}

/// The archive's straight-binary code of a voltage. Only the remainders by 4 of range and gain count.
pub fn code(range: u32, gain: u32, microvolts: i32) -> u32 {
    // Safe: plain numbers go in and out, and no memory is lent.
    unsafe { pmc330_code(range, gain, microvolts) }
}

extern "C" {
    fn pmc330_window(
        length: u32,
        codes: *const u16,
        codes_len: usize,
        sums: *mut u32,
        sums_len: usize,
    ) -> u64;
}

/// The archive's sums over a window; the value is how many codes the last one holds.
pub fn window(length: u32, codes: &[u16], sums: &mut [u32]) -> Answer {
    // Safe: both buffers are lent with their lengths for this call only, and they are apart.
    answer_of(unsafe {
        pmc330_window(
            length,
            codes.as_ptr(),
            codes.len(),
            sums.as_mut_ptr(),
            sums.len(),
        )
    })
}

extern "C" {
    fn pmc330_load(seed: u32, range: u32, calls: u32, trace: *mut u8, trace_len: usize) -> u64;
}

/// The archive's load; the value is its length in bytes.
pub fn load(seed: u32, range: u32, calls: u32, buffer: &mut [u8]) -> Answer {
    // Safe: the buffer is lent with its length for this call only.
    answer_of(unsafe { pmc330_load(seed, range, calls, buffer.as_mut_ptr(), buffer.len()) })
}

extern "C" {
    fn header_load_bytes_max(calls: u32) -> usize;
}

/// The bytes that have room for any load of so many calls, by the header (`header.c`).
pub fn load_bytes_max(calls: u32) -> usize {
    // Safe: it is arithmetic.
    unsafe { header_load_bytes_max(calls) }
}

/// A player: from a trace and an answer buffer to 256 * calls answered + number.
pub type Player = fn(&[u8], &mut [u8]) -> u64;

extern "C" {
    fn pmc330_play(trace: *const u8, trace_len: usize, answers: *mut u8, answers_len: usize)
        -> u64;
}

/// The archive's player: 256 * calls answered + number.
pub fn play(trace: &[u8], answers: &mut [u8]) -> u64 {
    // Safe: as above.
    unsafe {
        pmc330_play(
            trace.as_ptr(),
            trace.len(),
            answers.as_mut_ptr(),
            answers.len(),
        )
    }
}

extern "C" {
    fn pmc330_replay(trace: *const u8, trace_len: usize) -> u64;
}

/// The archive's replay: number + 2^8 * index + 2^32 * count.
pub fn replay(trace: &[u8]) -> u64 {
    // Safe: as above.
    unsafe { pmc330_replay(trace.as_ptr(), trace.len()) }
}

/// The player of the archive that PMC330_OLD_ARCHIVE named when this was built, if it was set.
#[cfg(old_archive)]
pub const OLD_PLAYER: Option<Player> = Some(old_play);
/// No older archive was named.
#[cfg(not(old_archive))]
pub const OLD_PLAYER: Option<Player> = None;

#[cfg(old_archive)]
extern "C" {
    fn old_pmc330_play(
        trace: *const u8,
        trace_len: usize,
        answers: *mut u8,
        answers_len: usize,
    ) -> u64;
}

#[cfg(old_archive)]
fn old_play(trace: &[u8], answers: &mut [u8]) -> u64 {
    // Safe: as above.
    unsafe {
        old_pmc330_play(
            trace.as_ptr(),
            trace.len(),
            answers.as_mut_ptr(),
            answers.len(),
        )
    }
}
