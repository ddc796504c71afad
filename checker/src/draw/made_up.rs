//! Made-up traces: lists of calls as bytes, some with recorded answers, some damaged, with answer buffers of
//! any length.

use crate::archive::Player;
use crate::board::call::Call;
use crate::board::replay::recording;
use crate::board::trace::{borders, decoded, field, field_of, field_of_answer, heading};
use crate::board::trace::{trace_of, trace_of_fields, ANSWER, ANSWERED, LONGEST_TRACE};
use crate::board::LONGEST_ADVANCE;
use crate::draw::generator;
use crate::draw::random::Random;
use crate::draw::recordings::{answers_of, any_answer, any_of};

/// So many made-up traces are compared.
pub const TRACES: u32 = 4_096;

/// The usual seed.
pub const SEED: u64 = 4_096_330;

const NO_DAMAGE: &str = "no damage";

/// A made-up trace, and the buffer that it is played with.
pub struct MadeUp {
    pub trace: Vec<u8>,
    /// Were recorded answers put in, perhaps none or damaged ones?
    pub is_recording: bool,
    /// What was done to it; not every damage makes a trace that is refused.
    pub damage: &'static str,
    /// The answer buffer before the trace is played.
    pub answers: Vec<u8>,
}

/// The trace with this index; each is drawn for itself, so that one can be made without the others.
pub fn made_up(seed: u64, index: u32) -> MadeUp {
    let own_seed = Random::new(seed).bits() ^ u64::from(index);
    let mut random = Random::new(Random::new(own_seed).bits());
    let mut trace = any_trace(&mut random, index);
    let mut damage = NO_DAMAGE;
    // One in four; with draws of its own, so that the calls are those of a trace without answers.
    let is_recording = index % 4 == 3;
    if is_recording {
        damage = put_answers(&mut Random::new(!own_seed), &mut trace);
    }
    if random.one_in(6) {
        let further = damaged(&mut random, &mut trace);
        // There may be no field to damage; what was done before stays then.
        if further != NO_DAMAGE {
            damage = further;
        }
    }
    let answers = any_buffer(&mut random, &trace);
    MadeUp {
        trace,
        is_recording,
        damage,
        answers,
    }
}

fn any_trace(random: &mut Random, index: u32) -> Vec<u8> {
    let range = random.below(4);
    let own = Random::new(random.bits());
    let calls = match index % 128 {
        1 => generator::marathon(own, range),
        2 | 3 => generator::sprint(own, range),
        4 => Vec::new(),
        // Short ones, for the logbook.
        5..=49 => generator::scenes(own, range, 2_000, 1 + random.below(3)),
        _ => generator::scenes(own, range, LONGEST_ADVANCE, 1 + random.below(4)),
    };
    trace_of(range as u8, &calls)
}

/// 16,777,216 bytes are taken by a player, with 5,592,401 calls; one byte more is not.
pub fn check_longest(play: Player) {
    let mut trace = heading(0);
    trace.extend(field_of(&Call::Input {
        channel: 0,
        microvolts: 1,
    }));
    while trace.len() < LONGEST_TRACE {
        trace.extend([0x05, 0, 0]);
    }
    assert_eq!(trace.len(), 16_777_216);
    let mut buffer = vec![1; 5 * 5_592_401];
    assert_eq!(play(&trace, &mut buffer[1..]), 20);
    assert!(buffer.iter().all(|byte| *byte == 1));
    assert_eq!(play(&trace, &mut buffer), 256 * 5_592_401);
    assert!(buffer.iter().all(|byte| *byte == 0));
    trace.push(0x05);
    assert_eq!(play(&trace, &mut buffer), 18);
}

// Recorded answers.

/// Puts recorded answers into a trace, which a player passes over, right or not. Says what is wrong with them.
fn put_answers(random: &mut Random, trace: &mut Vec<u8>) -> &'static str {
    let (range, calls) = decoded(trace).expect("a good trace");
    let mut recorded = any_of(random, &answers_of(range, &calls));
    if random.one_in(2) {
        for answer in recorded.iter_mut().flatten() {
            *answer = any_answer(random);
        }
    }
    *trace = trace_of_fields(range as u8, &recording(&calls, &recorded));
    if random.one_in(3) {
        damaged_answers(random, trace)
    } else {
        NO_DAMAGE
    }
}

/// Puts one in where none may be, or one that is none.
fn damaged_answers(random: &mut Random, trace: &mut Vec<u8>) -> &'static str {
    let answer = field_of_answer(any_answer(random));
    let any_place = random.pick(&borders(trace));
    let (place, bytes, damage) = match random.below(3) {
        0 => (8, answer, "09H after the heading"),
        1 => (any_place, answer.repeat(2), "09H twice"),
        _ => {
            let length = random.pick(&[0, 1, 4, 6, 250]);
            let bytes = field(ANSWERED, &vec![0; length]);
            (any_place, bytes, "09H with another length")
        }
    };
    trace.splice(place..place, bytes);
    damage
}

// Damage.

/// Damages a trace, and says how.
fn damaged(random: &mut Random, trace: &mut Vec<u8>) -> &'static str {
    match random.below(9) {
        0 | 1 => damaged_heading(random, trace),
        2..=5 => damaged_field(random, trace),
        6 => {
            let length = random.below(trace.len() as u32 + 1);
            trace.truncate(length as usize);
            "cut anywhere"
        }
        7 => {
            let count = 1 + random.below(8);
            trace.extend((0..count).map(|_| random.below(10) as u8));
            "trailing bytes"
        }
        _ => {
            damaged_field(random, trace);
            damaged_heading(random, trace);
            "field and heading"
        }
    }
}

fn damaged_heading(random: &mut Random, trace: &mut Vec<u8>) -> &'static str {
    match random.below(6) {
        0 => {
            trace[0] = random.pick(&[1, 5, 6, 7, 8, 255]);
            "heading with a wrong tag"
        }
        1 => {
            trace[1] = random.pick(&[0, 4, 6, 8]);
            "heading with a wrong length"
        }
        2 => {
            trace[2] = random.pick(&[1, 5, 255]);
            "heading with a far greater length"
        }
        3 => {
            trace[3 + random.below(4) as usize] ^= random.pick(&[0x01, 0x20, 0x80]);
            "heading with a wrong letter"
        }
        4 => {
            trace[7] = random.pick(&[4, 5, 128, 255]);
            "range above 3"
        }
        _ => {
            trace.truncate(random.below(8) as usize);
            "heading cut"
        }
    }
}

/// A wrong tag or length in one of the later fields, if there are any.
fn damaged_field(random: &mut Random, trace: &mut [u8]) -> &'static str {
    let mut starts = borders(trace);
    starts.pop();
    if starts.is_empty() {
        return NO_DAMAGE;
    }
    let start = random.pick(&starts);
    match random.below(7) {
        0 => {
            trace[start] = 0;
            "second heading's tag"
        }
        1 => {
            trace[start] = random.pick(&[10, 0x81, 0x87, 255]);
            "field with no call's tag"
        }
        2 => {
            // No call's; an input's length is that of a recorded answer.
            trace[start] = ANSWERED;
            "field with tag 09H"
        }
        3 => {
            trace[start] = 1 + random.below(8) as u8;
            "field with another call's tag"
        }
        4 => {
            trace[start + 1] = random.below(9) as u8;
            "field with another length"
        }
        5 => long_or_short_look(random, trace, &starts),
        _ => {
            trace[start + 2] = random.pick(&[1, 255]);
            "field with a far greater length"
        }
    }
}

/// A look or a clear that has not its one byte, if there is any.
fn long_or_short_look(random: &mut Random, trace: &mut [u8], starts: &[usize]) -> &'static str {
    let is_look = |start: &usize| matches!(trace[*start], 0x07 | 0x08);
    let looks: Vec<usize> = starts.iter().copied().filter(is_look).collect();
    if looks.is_empty() {
        return NO_DAMAGE;
    }
    trace[random.pick(&looks) + 1] = random.pick(&[0, 2, 3, 4]);
    "look or clear with another length"
}

// Answer buffers.

/// Too short, exact or too long, with anything in it.
fn any_buffer(random: &mut Random, trace: &[u8]) -> Vec<u8> {
    let calls = decoded(trace).map_or(20, |(_, calls)| calls.len());
    let exact = ANSWER * calls;
    let length = match random.below(20) {
        0 => random.below(exact as u32 + 1) as usize,
        1 => exact.saturating_sub(1 + random.below(5) as usize),
        2..=9 => exact,
        10..=15 => exact + 1 + random.below(5) as usize,
        _ => exact + random.below(200) as usize,
    };
    (0..length).map(|_| random.bits() as u8).collect()
}
