//! The typed-in cases on the independent board, by all of its routes: call by call, by the logbook, and as a trace.

use checker::board::analog::{code, Answer};
use checker::board::call::{Call, Calls};
use checker::board::logbook::{Event, Logbook};
use checker::board::trace;
use checker::board::Board;
use checker::cases::script::steps;
use checker::cases::{self, Case};
use checker::judge::looks::check_reads;
use std::fs;

/// The first answer of a case that is not as expected, by name of the route.
fn first_difference(case: &Case, route: &str, answers: &[Answer]) -> Option<String> {
    assert_eq!(answers.len(), case.steps.len(), "{}", case.name);
    let mut pairs = case.steps.iter().zip(answers).enumerate();
    let (index, (step, answer)) = pairs.find(|(_, (step, answer))| step.expected != **answer)?;
    Some(format!(
        "{}\n    {route}, call {}, {}: {answer:?}, expected {:?}",
        case.name,
        index + 1,
        step.call,
        step.expected
    ))
}

fn by_board(range: u32, calls: &[Call]) -> Vec<Answer> {
    let (mut board, answer) = Board::new(range);
    assert_eq!(answer.number, 0);
    calls.iter().map(|call| board.call(call)).collect()
}

fn by_logbook(range: u32, calls: &[Call]) -> Vec<Answer> {
    let mut logbook = Logbook::new(range);
    calls.iter().map(|call| logbook.call(call)).collect()
}

fn by_trace(range: u8, calls: &[Call]) -> Vec<Answer> {
    let mut answers = vec![0; 5 * calls.len()];
    let result = trace::play(&trace::trace_of(range, calls), &mut answers);
    assert_eq!(result, 256 * calls.len() as u64);
    answers.chunks_exact(5).map(answer_of).collect()
}

fn answer_of(bytes: &[u8]) -> Answer {
    let value = u32::from_le_bytes([bytes[1], bytes[2], bytes[3], bytes[4]]);
    Answer {
        number: bytes[0].into(),
        value: value.into(),
    }
}

/// Every difference is printed, so that a change of the board shows all the cases that it breaks.
fn check(cases: &[Case]) {
    let mut differences = Vec::new();
    for case in cases {
        let calls: Vec<Call> = case.steps.iter().map(|step| step.call).collect();
        let range = u32::from(case.range);
        differences.extend(first_difference(case, "board", &by_board(range, &calls)));
        differences.extend(first_difference(
            case,
            "trace",
            &by_trace(case.range, &calls),
        ));
        let logbook = by_logbook(range, &calls);
        differences.extend(first_difference(case, "logbook", &logbook));
    }
    assert!(differences.is_empty(), "\n{}\n", differences.join("\n"));
}

fn check_group(name: &str) {
    check(&cases::group(name));
}

fn check_mistake(name: &str) {
    check(&[cases::one("mistakes", name)]);
}

#[test]
fn bench_cases() {
    check_group("bench");
}

#[test]
fn reading_new_data_keeps_missed() {
    let name = "clearing Missed when the New Data register is read";
    check_mistake(name);
}

#[test]
fn a_single_mode_uses_the_first_half_only() {
    check_mistake("the second half used in a single mode");
}

#[test]
fn the_code_is_taken_at_the_beginning() {
    check_mistake("taking the code at the store");
}

#[test]
fn the_delay_of_a_burst_comes_after_the_group() {
    let name = "burst D counted from the group's beginning";
    check_mistake(name);
}

#[test]
fn trigger_only_triggers_keep_the_bits() {
    check_mistake("trigger-only triggers clearing bits");
}

#[test]
fn no_mistake_is_left_out() {
    assert_eq!(cases::group("mistakes").len(), 5);
}

#[test]
fn timer_of_the_manuals() {
    check_group("timer");
}

#[test]
fn programming_examples_of_the_manuals() {
    check_group("programming_examples");
    assert_eq!(32 * 0x8000, 1_048_576);
    assert_eq!(32 * 48_824, 1_562_368);
    assert_eq!(32 * 32_112, 1_027_584);
    assert_eq!(32 * 64_225, 2_055_200);
}

#[test]
fn other_figures_of_the_manuals() {
    check_group("sequences");
}

#[test]
fn open_points_as_recommended() {
    check_group("left_open");
}

#[test]
fn questions_1_to_13() {
    check_group("refusals");
}

#[test]
fn schedule_widths_and_reset() {
    check_group("schedule");
}

#[test]
fn looks_and_clears() {
    check_group("looks_and_clears");
}

/// Each file has its test here, but for the recordings, which have theirs in `tests/replay.rs`.
#[test]
fn no_group_is_left_out() {
    let groups = [
        "bench",
        "left_open",
        "looks_and_clears",
        "mistakes",
        "programming_examples",
        "recordings",
        "refusals",
        "schedule",
        "sequences",
        "timer",
        "triggers_before_arming",
    ];
    assert_eq!(cases::groups(), groups);
    let folder = concat!(env!("CARGO_MANIFEST_DIR"), "/cases");
    let files = fs::read_dir(folder).expect("the folder").count();
    assert_eq!(
        files,
        groups.len(),
        "one has another ending, and is not read"
    );
}

/// The read's board is the one that look and then clear leave, after every call of every case. The logbook's events are
/// the same too: a clear is the event read, and a look is none.
#[test]
fn a_mailbox_read_is_a_look_and_then_a_clear() {
    let (mut boards, mut unread) = (0, 0);
    for case in cases::all() {
        let mut board = Board::new(case.range.into()).0;
        let mut logbook = Logbook::new(case.range.into());
        for step in &case.steps {
            board.call(&step.call);
            for slot in 0..32 {
                check_reads(&board, slot, Board::call, &case.name);
            }
            boards += 1;
            unread += u32::from(board.new_bits() != 0);
            if logbook.call(&step.call).value <= 64 {
                check_reads(&logbook, 0, Logbook::call, &case.name);
                check_reads(&logbook, 16, Logbook::call, &case.name);
            }
        }
    }
    println!("{boards} boards, {unread} with a New slot: reads of every slot, look and clear");
    assert!(boards > 800 && unread > 300);
}

#[test]
fn the_events_of_a_look_and_a_clear() {
    let mut logbook = Logbook::new(1);
    for step in steps("look 5 = 0; clear 5; look 32 refused 22; clear 32 refused 22; read 16 94H") {
        assert_eq!(logbook.call(&step.call), step.expected);
    }
    let read = Event::Read { slot: 5 };
    assert_eq!(logbook.events, [Event::Reset, read, read]);
}

#[test]
fn triggers_before_arming() {
    check_group("triggers_before_arming");
}

/// The beginning is no cycle start, and its store is one like others, which ends no pass. An ignored trigger is no
/// event.
#[test]
fn the_events_of_a_trigger_before_arming() {
    let mut logbook = Logbook::new(1);
    let ignored = "write 16 10H 0203H; write 16 04H 2502H; trigger; write 16 10H 0303H; write 16 04H 2500H; trigger";
    let taken =
        "write 16 04H 2502H; trigger; advance 63; trigger; advance 1; trigger; advance 64; trigger";
    for step in steps(ignored).into_iter().chain(steps(taken)) {
        assert_eq!(logbook.call(&step.call), step.expected);
    }
    let store = |tick, slot, code, interrupts| Event::Store {
        tick,
        slot,
        code,
        interrupts,
    };
    // 0 formatted; then conversions 0 and 1, passes of one channel each, of 0 uV.
    let stores = [
        store(0, 3, 0x8000, false),
        store(64, 3, 0, true),
        store(128, 19, 0, true),
    ];
    assert_eq!(logbook.events[0], Event::Reset);
    assert_eq!(logbook.events[1..], stores);
}

#[test]
fn question_22() {
    for slot in (32..300).chain([1 << 8, 1 << 16, 1 << 31, u32::MAX]) {
        let mut board = Board::new(1).0;
        let before = board.clone();
        for answer in [board.look(slot), board.clear(slot)] {
            assert_eq!((answer.number, answer.value), (22, 0), "slot {slot}");
        }
        assert_eq!(board, before, "slot {slot}");
    }
}

#[test]
fn question_14() {
    for range in 0..=3 {
        assert_eq!(Board::new(range).1.number, 0);
    }
    let of_range_0 = Board::new(0).0;
    for range in [4, 5, 255, 256, u32::MAX] {
        let (board, answer) = Board::new(range);
        assert_eq!((answer.number, answer.value), (14, 0), "range {range}");
        assert_eq!(board, of_range_0, "range {range}");
    }
}

/// The interrupt handler of the manuals: pending 1, 1, 0, 0 and line 1, 0, 0, 0.
#[test]
fn the_request_line_is_enable_and_pending() {
    let mut board = Board::new(1).0;
    let start = "write 16 04H 1409H; write 16 00H 0001H; write 16 24H 1; advance 64 = 1";
    for step in steps(start) {
        assert!(!board.request_line());
        assert_eq!(board.call(&step.call), step.expected);
    }
    assert!(board.request_line() && board.is_pending());
    for (word, pending) in [(0x0000, true), (0x8000, false), (0x0001, false)] {
        assert_eq!(board.write(16, 0x00, word).number, 0);
        assert_eq!(board.is_pending(), pending, "after {word:04X}H");
        assert!(!board.request_line(), "after {word:04X}H");
    }
}

/// Slot addresses and bit tables: slot s has its mailbox at 80H + 4s and its bits in word
/// s div 16, bit s mod 16.
#[test]
fn every_slot_has_its_mailbox_and_its_bits() {
    for slot in 0..32_u32 {
        let mut board = Board::new(1).0;
        board.input(slot, 2_500_000);
        board.write(16, 0x04, 0x0309);
        board.write(16, 0x10, slot << 8 | slot);
        board.write(16, 0x24, 1);
        assert_eq!(board.advance(184).value, 2);
        for word in 0..2 {
            let expected = if word == slot / 16 {
                1 << (slot % 16)
            } else {
                0
            };
            assert_eq!(board.read(16, 0x14 + 4 * word).value, expected);
            assert_eq!(board.read(16, 0x1C + 4 * word).value, expected);
        }
        for other in 0..32 {
            let expected = if other == slot { 0x3_A000 } else { 0 };
            assert_eq!(board.look(other).value, expected);
        }
        for other in 0..32 {
            let expected = if other == slot { 40_960 } else { 0 };
            assert_eq!(board.read(16, 0x80 + 4 * other).value, expected);
        }
    }
}

/// The control words of the manuals' two programming examples decode as their lists say.
#[test]
fn control_words_of_the_examples() {
    // word, acquisition, scan, timer enabled; all are straight, with trigger and interrupt off
    let rows = [
        (0x0439, 0b111, 0b100, false),
        (0x0419, 0b011, 0b100, false),
        (0x0431, 0b110, 0b100, false),
        (0x0429, 0b101, 0b100, false),
        (0x0401, 0b000, 0b100, false),
        (0x0A09, 0b001, 0b010, true),
    ];
    for (word, acquisition, scan, timer) in rows {
        let mut board = Board::new(3).0;
        assert_eq!(board.write(16, 0x04, word).number, 0);
        let control = board.registers().control;
        assert!(control.is_straight(), "{word:04X}H");
        assert_eq!(control.acquisition(), acquisition, "{word:04X}H");
        assert_eq!(control.scan(), scan, "{word:04X}H");
        assert_eq!(control.has_timer(), timer, "{word:04X}H");
        assert_eq!((control.trigger(), control.interrupt()), (0, 0));
    }
}

/// Every range, gain and acquisition code puts the code of its voltage in the mailbox.
#[test]
fn every_range_gain_and_acquisition() {
    let voltages = [
        (3, 4_900_000),
        (4, 2_450_000),
        (5, 1_225_000),
        (6, 612_500),
        (7, 0),
    ];
    let inputs = [(0, -1_234_567), (1, 345_678)];
    for (range, gain) in (0..4).flat_map(|range| (0..4).map(move |gain| (range, gain))) {
        for (acquisition, voltage) in inputs.into_iter().chain(voltages) {
            let mut board = Board::new(range).0;
            board.input(5, voltage);
            board.write(16, 0x40, gain << 10);
            board.write(16, 0x10, 0x0505);
            board.write(16, 0x04, 0x0401 | acquisition << 3);
            board.write(16, 0x24, 1);
            assert_eq!(board.advance(64).value, 1);
            let expected = u64::from(code(range, gain, voltage));
            assert_eq!(
                board.read(16, 0x94).value,
                expected,
                "{range} {gain} {acquisition}"
            );
        }
    }
}

/// An advance is as good as any two that make it up, long ones too.
#[test]
fn an_advance_can_be_split() {
    let starts = [
        "write 16 04H 0909H; write 8 09H 64; write 16 0CH 1",
        "write 16 04H 2901H; write 8 09H 255; write 16 0CH 65,535",
        "write 16 04H 1A09H; write 8 09H 255; write 16 0CH 2,000",
        "write 16 04H 0B01H; write 8 09H 255; write 16 0CH 3,000",
        "write 16 04H 0309H",
        "write 16 04H 0409H",
    ];
    for start in starts {
        let mut board = Board::new(0).0;
        for step in steps(&format!("write 16 10H 0502H; {start}; write 16 24H 1")) {
            assert_eq!(board.call(&step.call), step.expected);
        }
        for first in [0, 1, 63, 64, 65, 119, 120, 121, 1_000_000, 16_777_215] {
            let mut split = board.clone();
            let stores = split.advance(first).value + split.advance(16_777_216 - first).value;
            let mut whole = board.clone();
            assert_eq!(whole.advance(16_777_216).value, stores, "{start}, {first}");
            assert_eq!(whole, split, "{start}, {first}");
        }
    }
}
