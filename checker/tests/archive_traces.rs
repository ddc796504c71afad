//! The archive's player and replay against the independent ones: made-up traces, every heading, width, offset,
//! slot and Control word. And typed-in cases and the longest trace on its player.

use checker::archive;
use checker::board::analog::Answer;
use checker::board::call::{Call, Calls, Step};
use checker::board::replay::replay;
use checker::board::trace::{
    self, answer_of_bytes, decoded, field, has_answers, heading, trace_of,
};
use checker::board::Board;
use checker::cases;
use checker::cases::fields::PLAYED;
use checker::cases::script::steps;
use checker::draw::generator::hostile;
use checker::draw::made_up::{check_longest, made_up, SEED, TRACES};
use checker::draw::random::seed_or;
use checker::judge::before_arming::arms_by_trigger;
use checker::judge::shortened::shortened;

/// Bytes before and after the buffer that is lent; nobody may write them.
const GUARD: usize = 64;

/// Plays a trace on the archive with this buffer, and looks at the bytes around it.
fn by_archive(trace: &[u8], answers: &[u8]) -> (u64, Vec<u8>) {
    let mut around = vec![0x5A; GUARD];
    around.extend(answers);
    around.extend([0x5A; GUARD]);
    let lent = GUARD..GUARD + answers.len();
    let result = archive::play(trace, &mut around[lent.clone()]);
    let is_kept = |bytes: &[u8]| bytes.iter().all(|byte| *byte == 0x5A);
    assert!(
        is_kept(&around[..lent.start]) && is_kept(&around[lent.end..]),
        "the archive wrote beside the answer buffer"
    );
    (result, around[lent].to_vec())
}

fn by_independent(trace: &[u8], answers: &[u8]) -> (u64, Vec<u8>) {
    let mut buffer = answers.to_vec();
    let result = trace::play(trace, &mut buffer);
    (result, buffer)
}

/// The same result and the same byte in every place of the buffer, or a short list that differs; and the same
/// from a replay of these bytes. Gives the result.
fn compare(name: &str, trace: &[u8], answers: &[u8]) -> u64 {
    let archive = by_archive(trace, answers);
    let independent = by_independent(trace, answers);
    if archive == independent {
        let (replayed, expected) = (archive::replay(trace), replay(trace).packed());
        assert_eq!(replayed, expected, "{name}: the archive's replay (left)");
        return archive.0;
    }
    let (result, expected) = (archive.0, independent.0);
    let report = match decoded(trace) {
        Ok((range, calls)) if differ(range as u8, &calls) => {
            let range = range as u8;
            side_by_side(range, &shortened(calls, |calls| differ(range, calls)))
        }
        Ok((_, calls)) => format!("its {} calls alone are played alike", calls.len()),
        _ => format!("{} bytes, buffer of {}", trace.len(), answers.len()),
    };
    panic!("{name}: the archive gives {result}, expected {expected}\n{report}");
}

// A difference is made short before it is shown.

/// Do the two players differ on this list?
fn differ(range: u8, calls: &[Call]) -> bool {
    let trace = trace_of(range, calls);
    let answers = vec![0; 5 * calls.len()];
    by_archive(&trace, &answers) != by_independent(&trace, &answers)
}

fn side_by_side(range: u8, calls: &[Call]) -> String {
    let trace = trace_of(range, calls);
    let answers = vec![0; 5 * calls.len()];
    let archive = by_archive(&trace, &answers).1;
    let independent = by_independent(&trace, &answers).1;
    let mut report = format!("range {range}: number and value of the archive, as expected\n");
    let pairs = archive.chunks_exact(5).zip(independent.chunks_exact(5));
    for (call, (archive, expected)) in calls.iter().zip(pairs) {
        let mark = if archive == expected { " " } else { "*" };
        let line = format!("{mark} {} | {} | {call}\n", shown(archive), shown(expected));
        report.push_str(&line);
    }
    report
}

fn shown(answer: &[u8]) -> String {
    let Answer { number, value } = answer_of_bytes(answer);
    format!("{number:>2} {value:08X}")
}

#[test]
fn made_up_traces() {
    let seed = seed_or(SEED);
    let mut numbers = [0; 27];
    let mut recordings = 0;
    let mut arming = 0;
    for index in 0..TRACES {
        let made = made_up(seed, index);
        let name = format!("seed {seed}, trace {index}");
        let result = compare(&name, &made.trace, &made.answers);
        let number = result % 256;
        numbers[number as usize] += 1;
        if number == 0 {
            arming += triggers_before_arming(&made.trace);
            recordings += u32::from(has_answers(&made.trace));
        }
        if index % 16 == 0 {
            // Nothing is left over from what was played before.
            let name = format!("{name}, played again");
            assert_eq!(compare(&name, &made.trace, &made.answers), result);
        }
    }
    println!("{TRACES} traces drawn from seed {seed}");
    for number in [0, 18, 19, 26, 20] {
        println!("{:>9}  number {number}", numbers[number]);
    }
    println!("{arming:>9}  triggers before arming in those that are played");
    println!("{recordings:>9}  with recorded answers among those that are played");
    assert!(arming > 1_000 && recordings > 300);
}

/// How many triggers of a trace begin an armed cycle.
fn triggers_before_arming(trace: &[u8]) -> usize {
    let (range, calls) = decoded(trace).expect("it was played");
    let mut board = Board::new(range).0;
    let arms = |call: &&Call| {
        let before = board.clone();
        board.call(call);
        arms_by_trigger(&Step::of(call), &before, &board)
    };
    calls.iter().filter(arms).count()
}

/// Here the answers are typed in, not worked out.
#[test]
fn typed_in_cases() {
    for case in cases::all() {
        let calls: Vec<Call> = case.steps.iter().map(|step| step.call).collect();
        let (result, buffer) = by_archive(&trace_of(case.range, &calls), &vec![7; 5 * calls.len()]);
        assert_eq!(result, 256 * calls.len() as u64, "{}", case.name);
        for (index, step) in case.steps.iter().enumerate() {
            assert_eq!(
                answer_of_bytes(&buffer[5 * index..]),
                step.expected,
                "{}, call {}, {}: the archive (left)",
                case.name,
                index + 1,
                step.call
            );
        }
    }
}

#[test]
fn typed_in_traces() {
    for (fields, length, result) in PLAYED {
        let trace = fields.concat();
        let before = vec![0xA5; *length];
        let (found, buffer) = by_archive(&trace, &before);
        assert_eq!(found, *result, "{trace:02X?}, {length}");
        let written = 5 * (*result as usize / 256);
        assert_eq!(
            buffer[written..],
            before[written..],
            "{trace:02X?}, {length}"
        );
    }
}

/// Every byte of the heading, and every tag with every length of a body, after the heading, a call and a 09H.
#[test]
fn every_heading_and_field() {
    for (place, byte) in (0..8).flat_map(|place| (0..=255).map(move |byte| (place, byte))) {
        let mut trace = heading(0);
        trace[place] = byte;
        compare("heading", &trace, &[7; 3]);
    }
    for (tag, length) in (0..=255).flat_map(|tag| (0..300).map(move |length| (tag, length))) {
        let mut trace = heading(0);
        for before in [&[][..], &[0x05, 0, 0], &[0x09, 5, 0, 0, 0, 0, 0, 0]] {
            trace.extend(before);
            let trace = [&trace[..], &field(tag, &vec![0; length])].concat();
            compare("field", &trace, &[7; 11]);
        }
    }
}

/// Boards to ask from: idle, scanning, armed, armed by a trigger.
const STARTS: [&str; 4] = [
    "write 16 04H 1401H",
    "write 16 00H 1; write 16 04H 1309H; write 16 24H 1; advance 184",
    "write 16 04H 2503H; write 16 24H 1; trigger; advance 64; trigger",
    "write 16 04H 2502H; trigger; advance 64; trigger; advance 64",
];

fn started(start: &str) -> Vec<Call> {
    steps(start).iter().map(|step| step.call).collect()
}

fn compare_list(name: &str, calls: &[Call]) {
    compare(name, &trace_of(1, calls), &vec![9; 5 * calls.len() + 3]);
}

#[test]
fn every_width_and_offset() {
    for start in STARTS {
        let mut calls = started(start);
        for (width, offset) in (0..=255).flat_map(|w| (0..270).map(move |o| (w, o))) {
            calls.push(Call::Read { width, offset });
            for value in [0, 0x100] {
                calls.push(Call::Write {
                    width,
                    offset,
                    value,
                });
            }
            // A write of 0 to Control has stopped the scan.
            if matches!(offset, 0x04 | 0x05 | 269) {
                calls.push(Call::Reset);
                calls.extend(started(start));
            }
        }
        compare_list(start, &calls);
    }
}

/// A look and a clear of every slot, and of those that there are not, with what is left.
#[test]
fn every_slot() {
    for start in STARTS {
        let mut calls = Vec::new();
        for slot in 0..=255 {
            calls.push(Call::Reset);
            calls.extend(started(start));
            calls.extend([Call::Look { slot }, Call::Clear { slot }]);
            calls.extend((0..32).map(|slot| Call::Look { slot }));
            calls.extend([0x14, 0x18, 0x1C, 0x20].map(|offset| Call::Read { width: 16, offset }));
            calls.extend([Call::Advance { ticks: 120 }, Call::Trigger]);
            calls.extend([Call::Look { slot: 0 }, Call::Look { slot: 16 }]);
        }
        compare_list(start, &calls);
    }
}

/// Every word written to Control, channels, Interrupt and Start Convert, with what is left of it and what a
/// trigger and time then do.
#[test]
fn every_word_of_the_registers_that_are_asked() {
    for start in STARTS {
        for offset in [0x00, 0x04, 0x10, 0x24] {
            let mut calls = Vec::new();
            for value in 0..=0xFFFF {
                calls.push(Call::Reset);
                calls.extend(started(start));
                calls.push(Call::Write {
                    width: 16,
                    offset,
                    value,
                });
                calls.extend(
                    [0x00, 0x04, 0x10, 0x14].map(|offset| Call::Read { width: 16, offset }),
                );
                calls.push(Call::Trigger);
                calls.extend(
                    [0x00, 0x14, 0x18, 0x80].map(|offset| Call::Read { width: 16, offset }),
                );
                calls.push(Call::Advance { ticks: 120 });
            }
            compare_list(start, &calls);
        }
    }
}

#[test]
fn the_longest_trace() {
    check_longest(archive::play);
}

/// Some longest advances of the fastest scan in a row.
#[test]
fn a_short_hostile_trace() {
    compare_list("hostile", &hostile(20));
}
