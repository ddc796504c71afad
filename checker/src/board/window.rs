//! The running average over the last codes of a run, as sums.

use crate::board::analog::Answer;

/// The codes that a full window holds.
pub const LENGTHS: [u32; 3] = [8, 16, 32];

/// A window: from its length, a run of straight codes and a lent output to its answer.
pub type Window = fn(u32, &[u16], &mut [u32]) -> Answer;

/// The first check that is not passed, else 0.
fn number(length: u32, codes: &[u16], sums: &[u32]) -> u64 {
    if !LENGTHS.contains(&length) {
        21 // asked first: the length
    } else if sums.len() < codes.len() {
        20 // room in the output for every code
    } else {
        0
    }
}

/// How many codes a sum holds: the length, or the codes so far where these are fewer.
fn held(length: u32, so_far: usize) -> usize {
    so_far.min(length as usize)
}

/// For each of a run of straight codes the sum of the last ones, written to a lent output. Every sum is added up anew,
/// from the codes that it holds. A refusal writes nothing.
pub fn added_anew(length: u32, codes: &[u16], sums: &mut [u32]) -> Answer {
    let number = number(length, codes, sums);
    if number != 0 {
        return Answer { number, value: 0 };
    }
    // How many codes the last sum holds: none where there is no code.
    let mut count = 0;
    for (place, sum) in sums[..codes.len()].iter_mut().enumerate() {
        let so_far = &codes[..=place];
        let last = &so_far[so_far.len() - held(length, so_far.len())..];
        *sum = last.iter().map(|code| u32::from(*code)).sum();
        count = last.len() as u64;
    }
    Answer {
        number,
        value: count,
    }
}

/// The same for speed, to measure the archive by: from sum to sum the new code is added, and the
/// oldest is taken away once the window is full.
pub fn plain(length: u32, codes: &[u16], sums: &mut [u32]) -> Answer {
    let number = number(length, codes, sums);
    if number != 0 {
        return Answer { number, value: 0 };
    }
    let count = held(length, codes.len());
    let (filling, full) = sums.split_at_mut(count);
    let mut sum = 0;
    for (place, new) in filling.iter_mut().zip(codes) {
        sum += u32::from(*new);
        *place = sum;
    }
    for (place, (new, oldest)) in full.iter_mut().zip(codes[count..].iter().zip(codes)) {
        sum = sum + u32::from(*new) - u32::from(*oldest);
        *place = sum;
    }
    Answer {
        number,
        value: count as u64,
    }
}
