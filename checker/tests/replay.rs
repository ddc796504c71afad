//! Replays of recordings on the independent program: what the made-up ones reach, the logbook's answers,
//! typed-in cases, every short list of fields. The archive replays the same in another test.

use checker::board::analog::Answer;
use checker::board::call::{Call, Calls};
use checker::board::logbook::Logbook;
use checker::board::replay::{replay, replayed, verdict, Replayed};
use checker::board::trace::{
    self, field_of, field_of_answer, fields_of, heading, lines, play, trace_of,
};
use checker::cases;
use checker::cases::fields::REPLAYED;
use checker::draw::random::{seed_or, Random};
use checker::draw::recordings::{check_longest, made_up_recording, short_recording};
use checker::draw::recordings::{NUMBER_OF_WAYS, RECORDINGS, SEED};
use checker::draw::short_lists::{each_short_list, Expected};
use checker::judge::coverage::Coverage;
use checker::judge::recording_kinds::all_kinds;

#[test]
fn what_made_up_recordings_reach() {
    let seed = seed_or(SEED);
    let mut coverage = Coverage::new(all_kinds());
    let (mut calls, mut compared) = (0, 0);
    for index in 0..RECORDINGS {
        let made = made_up_recording(seed, index);
        let found = replay(&made.trace);
        let name = format!("seed {seed}, recording {index}, {}", made.way);
        assert_eq!(found, made.expected, "{name}");
        assert_eq!(Replayed::unpacked(found.packed()), found, "{name}");
        coverage.note(&made);
        if let Replayed::Agree { count } | Replayed::Differs { count, .. } = found {
            calls += made.calls.len();
            compared += count;
        }
    }
    println!(
        "{RECORDINGS} recordings drawn from seed {seed}: {calls} calls in those that are run, {compared} compared"
    );
    let each = RECORDINGS / NUMBER_OF_WAYS;
    println!("{NUMBER_OF_WAYS} ways to draw one, each for {each} of them at least");
    println!("{}", coverage.table());
    coverage.assert_all_met();
    assert!(calls > 300_000 && compared > 100_000);
}

/// The answers of the logbook, tick by tick, give the same verdict.
#[test]
fn recordings_by_the_logbook() {
    let seed = seed_or(SEED);
    let mut random = Random::new(seed);
    let mut counts = [0; 3];
    for index in 0..4_000 {
        let (range, made) = short_recording(Random::new(random.bits()));
        let found = replay(&made.trace);
        let name = format!("seed {seed}, short recording {index}, {}", made.way);
        assert_eq!(found, made.expected, "{name}");
        if let Ok((own_range, list)) = fields_of(&made.trace) {
            assert_eq!(own_range, range, "{name}");
            assert_eq!(found, by_logbook(range, &list), "{name}: by the logbook");
        }
        match found {
            Replayed::Refused { .. } => counts[0] += 1,
            Replayed::Agree { .. } => counts[1] += 1,
            Replayed::Differs { .. } => counts[2] += 1,
        }
    }
    let [refused, agree, differ] = counts;
    println!("by the logbook: {agree} agree, {differ} differ; {refused} refused");
    assert!(agree > 1_000 && differ > 500 && refused > 500);
}

fn by_logbook(range: u32, list: &[trace::Field]) -> Replayed {
    let mut logbook = Logbook::new(range);
    let mut answers: Vec<Answer> = Vec::new();
    let mut recorded = Vec::new();
    for field in list {
        match field {
            trace::Field::Call(call) => {
                answers.push(logbook.call(call));
                recorded.push(None);
            }
            trace::Field::Answered(answer) => {
                *recorded.last_mut().expect("question 26 is met") = Some(*answer);
            }
        }
    }
    verdict(&answers, &recorded)
}

/// The player passes over recorded answers: what it gives is what it gives without them.
#[test]
fn a_recording_is_played_as_its_calls_are() {
    let seed = seed_or(SEED);
    let mut played = 0;
    for index in 0..RECORDINGS {
        let made = made_up_recording(seed, index);
        if matches!(made.expected, Replayed::Refused { .. }) {
            continue;
        }
        let name = format!("seed {seed}, recording {index}, {}", made.way);
        // The calls as they were drawn; the heading ends with the range.
        let without = trace_of(made.trace[7], &made.calls);
        let mut buffers = [0; 2].map(|_| vec![0xC3; 5 * made.calls.len() + 7]);
        let [recorded, alone] = &mut buffers;
        let result = play(&made.trace, recorded);
        assert_eq!(result, 256 * made.calls.len() as u64, "{name}");
        assert_eq!(play(&without, alone), result, "{name}");
        assert!(recorded == alone, "{name}");
        assert_eq!(lines(&made.trace), lines(&without), "{name}");
        played += 1;
    }
    println!("{played} recordings played as their calls are");
    assert!(played > 4_000);
}

/// Every list of up to five fields of a few kinds, with what must come of it.
#[test]
fn every_short_list_of_fields() {
    let mut lists = 0;
    each_short_list(|trace, expected: Expected| {
        assert_eq!(replay(trace), expected.replayed, "{trace:02X?}");
        for room in 0..=5 * expected.calls {
            let mut buffer = vec![0; room];
            assert_eq!(
                play(trace, &mut buffer),
                expected.played(room),
                "{trace:02X?}, buffer of {room}"
            );
        }
        lists += 1;
    });
    println!("{lists} lists of up to five fields");
    // 7^0 + 7^1 + .. + 7^5.
    assert_eq!(lists, 19_608);
}

// Typed in.

#[test]
fn typed_in_recordings() {
    for case in cases::recordings() {
        let printed = replayed(&case.trace());
        assert_eq!(printed, format!("{}\n", case.printed), "{}", case.name);
    }
}

#[test]
fn typed_in_results() {
    for (fields, result) in REPLAYED {
        let trace = fields.concat();
        assert_eq!(replay(&trace).packed(), *result, "{trace:02X?}");
    }
}

/// Number and value, low byte first.
#[test]
fn the_field_of_an_answer() {
    let answer = Answer {
        number: 22,
        value: 0x1234_5678,
    };
    let bytes = [0x09, 5, 0, 22, 0x78, 0x56, 0x34, 0x12];
    assert_eq!(field_of_answer(answer), bytes);
}

/// 2^8 * index and 2^32 * count, of the first call and of numbers above a byte.
#[test]
fn what_c_gets() {
    let differs = |index, count| Replayed::Differs { index, count }.packed();
    assert_eq!(Replayed::Refused { number: 26 }.packed(), 26);
    assert_eq!(Replayed::Agree { count: 3 }.packed(), 0x0000_0003_0000_0000);
    assert_eq!(differs(1, 1), 0x0000_0001_0000_0100);
    assert_eq!(differs(0x55_5550, 0x17_45D0), 0x0017_45D0_5555_5000);
}

#[test]
fn the_longest_recordings() {
    check_longest(play, |trace| replay(trace).packed());
}

/// The program takes 32,768 bytes, as the player's does, and then judges.
#[test]
fn the_program_takes_32768_bytes() {
    assert_eq!(replayed(b""), "refused 18\n");
    assert_eq!(replayed(&heading(2)), "agree 0\n");
    let right = field_of_answer(Answer {
        number: 0,
        value: 0,
    });
    let wrong = field_of_answer(Answer {
        number: 1,
        value: 0,
    });
    // 8 + 11 * 2,978 + 2 = 32,768: the last trigger is cut off.
    let trigger = field_of(&Call::Trigger);
    let pair = [&trigger[..], &right].concat();
    let mut input = [heading(0), pair.repeat(2_979)].concat();
    assert_eq!(replayed(&input[..32_766]), "agree 2978\n");
    assert_eq!(replayed(&input), "refused 19\n");
    // 8 + 10 + 11 * 2,977 + 3 = 32,768: the last answer begins where the program stops reading.
    let write = Call::Write {
        width: 16,
        offset: 0x0C,
        value: 5,
    };
    let head = trace_of(0, &[write]);
    input = [head, pair.repeat(2_977), trigger, wrong].concat();
    assert_eq!(input.len(), trace::LONGEST_INPUT + 8);
    assert_eq!(replayed(&input), "agree 2977\n");
    assert_eq!(replay(&input).to_string(), "differs 2979 2978");
}
