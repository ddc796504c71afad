//! Boards that a simulator holds and steps call by call: the archive's functions against the
//! independent board, against the archive's own player, and on structs with any bytes in them.

use checker::archive;
use checker::archive::stepped::{answers_by_functions, places, SteppedBoard};
use checker::archive::stepping::{self, step_a_list};
use checker::board::call::{Call, Calls};
use checker::board::trace::trace_of;
use checker::board::LONGEST_ADVANCE;
use checker::cases;
use checker::cases::script::steps;
use checker::draw::any_bytes::{self, step_any_bytes};
use checker::draw::generator::{hostile, marathon, scenes, sprint};
use checker::draw::random::{seed_or, Random};
use checker::judge::coverage::Coverage;
use checker::judge::looks::check_reads;

const SEED: u64 = 324;

/// A saved board is these bytes: a change of them needs another PMC330_VERSION.
#[test]
fn the_struct_lies_as_it_did() {
    let stated = [
        0, 128, 132, 136, 200, 202, 204, 206, 238, 270, 271, 272, 273, 274, 275, 276, 277, 278,
        279, 280, 281, 282, 284,
    ];
    assert_eq!(places(), [stated; 2], "by the header (left), and here");
}

const LISTS: u32 = 3_000;
const CALLS: u32 = 500;

/// Four boards at a time, against four independent ones.
#[test]
fn drawn_lists_of_calls_on_several_boards() {
    let seed = seed_or(SEED);
    let mut coverage = Coverage::new(stepping::all_kinds());
    let mut calls = 0;
    for list in 0..LISTS {
        calls += step_a_list(seed, list, CALLS, &mut coverage);
    }
    println!("{LISTS} lists drawn from seed {seed}: {calls} calls stepped on four boards");
    println!("{}", coverage.table());
    assert!(calls > 1_000_000);
    coverage.assert_all_met();
}

const STRUCTS: u32 = 60_000;

/// One struct in so many is advanced by the longest time, which may take some milliseconds.
const LONG: u32 = 30;

#[test]
fn structs_of_any_bytes() {
    let seed = seed_or(SEED);
    let mut coverage = Coverage::new(any_bytes::all_kinds());
    let mut calls = 0;
    for index in 0..STRUCTS {
        calls += step_any_bytes(seed, index, 20, index % LONG == 0, &mut coverage);
    }
    println!("{STRUCTS} structs drawn from seed {seed}: {calls} calls on them");
    println!("{}", coverage.table());
    coverage.assert_all_met();
}

fn compare_with_player(name: &str, range: u32, calls: &[Call]) {
    let mut played = vec![0; 5 * calls.len()];
    let result = archive::play(&trace_of(range as u8, calls), &mut played);
    assert_eq!(result, 256 * calls.len() as u64, "{name}");
    let stepped = answers_by_functions(range, calls);
    let pairs = stepped.chunks_exact(5).zip(played.chunks_exact(5));
    for (index, (stepped, played)) in pairs.enumerate() {
        assert_eq!(
            stepped,
            played,
            "{name}, call {}, {}: stepped (left), played",
            index + 1,
            calls[index]
        );
    }
    assert_eq!(stepped.len(), played.len(), "{name}");
}

/// The same lists through the functions and as traces give the same answers.
#[test]
fn stepped_as_played() {
    let seed = seed_or(SEED);
    let mut random = Random::new(seed);
    let mut calls = 0;
    for list in 0..1_500 {
        let range = random.below(4);
        let own = Random::new(random.bits());
        let made = match list % 100 {
            0 => marathon(own, range),
            1 | 2 => sprint(own, range),
            3 => hostile(20),
            _ => scenes(own, range, LONGEST_ADVANCE, 1 + random.below(4)),
        };
        compare_with_player(&format!("seed {seed}, list {list}"), range, &made);
        calls += made.len();
    }
    println!("1500 lists drawn from seed {seed}: {calls} calls, stepped as played");
    assert!(calls > 100_000);
}

/// Here the answers are typed in, not worked out.
#[test]
fn typed_in_cases() {
    for case in cases::all() {
        let calls: Vec<Call> = case.steps.iter().map(|step| step.call).collect();
        let stepped = answers_by_functions(case.range.into(), &calls);
        for (index, (step, bytes)) in case.steps.iter().zip(stepped.chunks_exact(5)).enumerate() {
            let value = u32::from_le_bytes([bytes[1], bytes[2], bytes[3], bytes[4]]);
            assert_eq!(
                (u64::from(bytes[0]), u64::from(value)),
                (step.expected.number, step.expected.value),
                "{}, call {}, {}: the archive (left)",
                case.name,
                index + 1,
                step.call
            );
        }
    }
}

/// Of all 284 bytes: the struct that a mailbox read leaves is the one that look and then clear leave, after every call
/// of every case; and the read's value is in the look's low 16 bits.
#[test]
fn a_mailbox_read_is_a_look_and_then_a_clear() {
    for case in cases::all() {
        let mut board = SteppedBoard::filled(0x5A);
        assert_eq!(board.open(case.range.into()), 0);
        for step in &case.steps {
            board.call(&step.call);
            for slot in 0..32 {
                check_reads(&board, slot, SteppedBoard::answer, &case.name);
            }
        }
    }
}

/// Slots beyond a trace's byte: those whose low bits alone would be a good one, and the greatest.
#[test]
fn every_slot_beyond_a_trace() {
    let start = "write 16 04H 0309H; write 16 10H 1F00H; write 16 24H 1; advance 7624 = 64";
    let mut board = SteppedBoard::filled(0x5A);
    assert_eq!(board.open(1), 0);
    for step in steps(start) {
        assert_eq!(board.answer(&step.call), step.expected);
    }
    let before = board;
    let far = (8..32).flat_map(|bit| [0, 1, 31, 32].map(|more| (1 << bit) + more));
    for slot in (32..1_000).chain(far).chain([u32::MAX - 1, u32::MAX]) {
        assert_eq!(board.look(slot), 22, "look {slot}");
        assert_eq!(board.clear(slot), 22, "clear {slot}");
        assert!(board == before, "slot {slot}");
    }
    for slot in 0..32 {
        assert_eq!(board.look(slot), 256 * 0x3_8000, "look {slot}");
        assert_eq!(board.clear(slot), 0, "clear {slot}");
        assert_eq!(board.look(slot), 256 * 0x8000, "look {slot}");
    }
}
