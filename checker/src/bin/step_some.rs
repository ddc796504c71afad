//! Some stepped calls, on boards beside independent ones and on structs of any bytes, some recordings, whole and
//! cut off, replayed and played, and some loads: few enough to be run where every access to memory is looked at. It
//! fails as the tests do, and prints three lines.

use checker::archive;
use checker::archive::stepping::{self, step_a_list};
use checker::board::load::{calls_of, load};
use checker::board::replay::replay;
use checker::board::trace::{self, borders, trace_of};
use checker::draw::any_bytes::{self, step_any_bytes};
use checker::draw::random::{seed_or, Random};
use checker::draw::recordings::made_up_recording;
use checker::judge::coverage::Coverage;

const LISTS: u32 = 30;
const CALLS: u32 = 500;
const STRUCTS: u32 = 250;

/// One struct in so many is advanced by the longest time.
const LONG: u32 = 50;

const RECORDINGS: u32 = 260;

/// So many times each of them is cut off.
const CUTS: u32 = 4;

const LOADS: u32 = 300;

fn main() {
    let seed = seed_or(330);
    let mut lists = Coverage::new(stepping::all_kinds());
    let mut structs = Coverage::new(any_bytes::all_kinds());
    let (mut calls, mut any) = (0, 0);
    for list in 0..LISTS {
        calls += step_a_list(seed, list, CALLS, &mut lists);
    }
    for index in 0..STRUCTS {
        any += step_any_bytes(seed, index, 20, index % LONG == 0, &mut structs);
    }
    println!(
        "seed {seed}: {calls} calls in {LISTS} lists, {} accepted; {any} on {STRUCTS} structs of any bytes, {} accepted",
        lists.count("number 0"),
        structs.count("number 0")
    );
    let refused = (0..RECORDINGS).map(|index| replay_some(seed, index));
    println!(
        "{} recordings replayed and played, whole and cut off, {} refused",
        RECORDINGS * (1 + CUTS),
        refused.sum::<u32>()
    );
    let calls = (0..LOADS).map(|index| load_some(seed, index));
    println!(
        "{LOADS} loads of {} calls, each also with too few bytes",
        calls.sum::<u32>()
    );
}

/// A recording, whole and cut off, at the border of a field as often as not. Gives how many were refused.
fn replay_some(seed: u64, index: u32) -> u32 {
    let made = made_up_recording(seed, index);
    let mut random = Random::new(seed ^ u64::from(index));
    let (whole, borders) = (made.trace.len(), borders(&made.trace));
    let any_cut = |_| random.pick(&borders) + random.pick(&[0, 0, 1, 2, 5]);
    let lengths = (0..CUTS).map(any_cut).chain([whole]);
    let number = |length: usize| replayed_and_played(&made.trace[..length.min(whole)]);
    lengths.map(|length| u32::from(number(length) != 0)).sum()
}

/// Trace and answers lie in memory of exactly their length: a byte beyond is somebody else's. Gives the number.
fn replayed_and_played(trace: &[u8]) -> u64 {
    let trace: Box<[u8]> = trace.into();
    assert_eq!(archive::replay(&trace), replay(&trace).packed());
    let calls = trace::decoded(&trace).map_or(1, |(_, calls)| calls.len());
    let [mut answers, mut expected] = [0; 2].map(|_| vec![7; 5 * calls].into_boxed_slice());
    let result = archive::play(&trace, &mut answers);
    assert_eq!(result, trace::play(&trace, &mut expected));
    assert!(answers == expected, "{} calls", calls);
    result % 256
}

/// A load in memory of exactly its length, and in fewer bytes, where it is refused. Gives how many calls it has.
fn load_some(seed: u64, index: u32) -> u32 {
    let mut random = Random::new(seed ^ u64::from(index));
    let (load_seed, calls) = (1 + random.below(u32::MAX), random.below(80));
    let list: Vec<_> = calls_of(load_seed).take(calls as usize).collect();
    let whole = trace_of(1, &list).len();
    let fewer = random.below(whole as u32) as usize;
    for (room, number) in [(whole, 0), (fewer, 28)] {
        let [mut found, mut expected] = [0; 2].map(|_| vec![7; room].into_boxed_slice());
        let answer = archive::load(load_seed, 1, calls, &mut found);
        assert_eq!(answer, load(load_seed, 1, calls, &mut expected));
        assert!(answer.number == number && found == expected, "{load_seed}");
    }
    calls
}
