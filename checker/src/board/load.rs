//! The load to run everywhere: the trace of a seed.

use crate::board::analog::Answer;
use crate::board::call::Call;
use crate::board::trace::{decoded, field_of, heading, LONGEST_TRACE};

/// A load: from seed, range, number of calls and a lent buffer to its answer, whose value is the length.
pub type Loader = fn(u32, u32, u32, &mut [u8]) -> Answer;

/// A step xors x with itself shifted left 13, then right 17, then left 5, all in 32 bits.
pub fn step(mut x: u32) -> u32 {
    x ^= x << 13;
    x ^= x >> 17;
    x ^ (x << 5)
}

/// The call that a step gives: the new x modulo 8 picks its kind, and q, the whole part of x / 8, its arguments.
pub fn call_of(x: u32) -> Call {
    let q = x / 8;
    let (width, offset) = (16, (q % 64 * 4) as u16);
    match x % 8 {
        0..=2 => Call::Read { width, offset },
        3 => Call::Write {
            width,
            offset,
            value: q % 65_536,
        },
        4 => Call::Input {
            channel: (q % 32) as u8,
            microvolts: (q % 20_000_001) as i32 - 10_000_000,
        },
        5 => Call::Advance { ticks: q % 4_096 },
        6 => Call::Trigger,
        _ => Call::Reset,
    }
}

/// The calls of a seed, one a step, without end.
pub fn calls_of(seed: u32) -> impl Iterator<Item = Call> {
    let steps = std::iter::successors(Some(seed), |x| Some(step(*x)));
    steps.skip(1).map(call_of)
}

/// The bytes of a load, or the first check that is not passed. `room`: the bytes of the lent buffer.
fn trace_of_load(seed: u32, range: u32, calls: u32, room: usize) -> Result<Vec<u8>, u64> {
    // 27 is asked first: the seed is not 0.
    if seed == 0 {
        return Err(27);
    }
    // 14 is next: a new board's range, 0 to 3.
    let Ok(range @ 0..=3) = u8::try_from(range) else {
        return Err(14);
    };
    // 28 comes after both: the buffer has room for the trace, and the trace is none too long for a player.
    let most = room.min(LONGEST_TRACE);
    let mut trace = heading(range);
    for call in calls_of(seed).take(calls as usize) {
        // What comes later only makes it longer, and there may be 4,294,967,295 calls.
        if trace.len() > most {
            break;
        }
        trace.extend(field_of(&call));
    }
    if trace.len() > most {
        return Err(28);
    }
    Ok(trace)
}

/// The trace of so many calls, written to a lent buffer; its length is returned. A refusal writes nothing, and bytes
/// past the trace stay.
pub fn load(seed: u32, range: u32, calls: u32, buffer: &mut [u8]) -> Answer {
    match trace_of_load(seed, range, calls, buffer.len()) {
        Ok(trace) => {
            buffer[..trace.len()].copy_from_slice(&trace);
            Answer {
                number: 0,
                value: trace.len() as u64,
            }
        }
        Err(number) => Answer { number, value: 0 },
    }
}

/// Is a trace the load of a seed, of the range and the number of calls that the trace has?
pub fn is_load_of(seed: u32, trace: &[u8]) -> bool {
    let Ok((range, calls)) = decoded(trace) else {
        return false;
    };
    trace_of_load(seed, range, calls.len() as u32, trace.len()).is_ok_and(|load| load == trace)
}
