//! The archive's replay of recordings against the independent one, and its player on the same recordings
//! with and without their recorded answers.

use checker::archive::{self, Player};
use checker::board::replay::{recording, replay, Replayed};
use checker::board::trace::{self, fields_of, trace_of, trace_of_fields, Field};
use checker::cases::fields::REPLAYED;
use checker::cases::script::fields;
use checker::cases::{self, Case};
use checker::draw::generator::hostile;
use checker::draw::random::seed_or;
use checker::draw::recordings::{answers_of, check_longest, made_up_recording, Recording};
use checker::draw::recordings::{RECORDINGS, SEED};
use checker::draw::short_lists::each_short_list;
use checker::judge::shortened::shortened;

/// What the archive and the independent program say of a trace that lies in memory of exactly its length.
fn both(trace: &[u8]) -> (Replayed, Replayed) {
    let exact: Box<[u8]> = trace.into();
    let result = archive::replay(&exact);
    let found = Replayed::unpacked(result);
    // A refused one has neither index nor count.
    assert_eq!(found.packed(), result, "{trace:02X?}: {result:016X}H");
    (found, replay(&exact))
}

/// The same from both, or a short recording on which they differ. Gives what they say.
fn compare(name: &str, trace: &[u8]) -> Replayed {
    let (found, expected) = both(trace);
    if found == expected {
        return expected;
    }
    let report = match fields_of(trace) {
        Ok((range, fields)) => short_difference(range as u8, fields),
        Err(_) => format!("{trace:02X?}"),
    };
    panic!("{name}: the archive says {found}, expected {expected}\n{report}");
}

/// A short recording on which the two still differ.
fn short_difference(range: u8, fields: Vec<Field>) -> String {
    let fields = shortened(fields, |fields| {
        let (found, expected) = both(&trace_of_fields(range, fields));
        found != expected
    });
    let (found, expected) = both(&trace_of_fields(range, &fields));
    let shown: Vec<String> = fields.iter().map(shown).collect();
    let list = shown.join("; ");
    format!("in short, range {range}: {list}: the archive says {found}, expected {expected}")
}

fn shown(field: &Field) -> String {
    match field {
        Field::Call(call) => call.to_string(),
        Field::Answered(answer) => format!("answered {} {:X}H", answer.number, answer.value),
    }
}

#[test]
fn made_up_recordings() {
    let seed = seed_or(SEED);
    let mut counts = [0; 5];
    for index in 0..RECORDINGS {
        let made = made_up_recording(seed, index);
        let name = format!("seed {seed}, recording {index}, {}", made.way);
        let found = compare(&name, &made.trace);
        assert_eq!(found, made.expected, "{name}");
        if index % 16 == 0 {
            // Nothing is left over from what was replayed before.
            compare(&format!("{name}, again"), &made.trace);
        }
        counts[match found {
            Replayed::Agree { .. } => 0,
            Replayed::Differs { .. } => 1,
            Replayed::Refused { number: 18 } => 2,
            Replayed::Refused { number: 19 } => 3,
            Replayed::Refused { .. } => 4,
        }] += 1;
    }
    println!("{RECORDINGS} recordings drawn from seed {seed}");
    let names = ["agree", "differ", "number 18", "number 19", "number 26"];
    for (name, count) in names.iter().zip(counts) {
        println!("{count:>9}  {name}");
    }
    assert!(counts.iter().all(|count| *count >= 300));
}

// The archive's player on recordings.

/// What a player gives, and what it leaves of a buffer of this length.
fn played_by(play: Player, trace: &[u8], length: usize) -> (u64, Vec<u8>) {
    let mut buffer: Vec<u8> = (0..length).map(|place| place as u8 ^ 0xA7).collect();
    let result = play(trace, &mut buffer);
    (result, buffer)
}

fn played(trace: &[u8], length: usize) -> (u64, Vec<u8>) {
    played_by(archive::play, trace, length)
}

fn by_independent(trace: &[u8], length: usize) -> (u64, Vec<u8>) {
    played_by(trace::play, trace, length)
}

/// Buffers one byte short, exact and longer, beside the same calls without recorded answers and the independent
/// player. Gives how many were refused with 20.
fn compare_players(name: &str, made: &Recording) -> usize {
    // The calls as they were drawn; the heading ends with the range.
    let without = trace_of(made.trace[7], &made.calls);
    let exact = 5 * made.calls.len();
    let short = exact.checked_sub(1);
    for length in short.into_iter().chain([exact, exact + 1, exact + 64]) {
        let (result, buffer) = played(&made.trace, length);
        let is_short = length < exact;
        let expected = if is_short {
            20
        } else {
            256 * made.calls.len() as u64
        };
        assert_eq!(result, expected, "{name}, buffer of {length}");
        let all = (result, buffer);
        assert!(all == played(&without, length), "{name}, {length}: alone");
        assert!(
            all == by_independent(&made.trace, length),
            "{name}, {length}"
        );
    }
    usize::from(short.is_some())
}

/// A refused one is refused by its fields whatever the buffer, and leaves it as it was.
fn compare_refused(name: &str, made: &Recording, number: u64) {
    for length in [0, 1, 5 * made.calls.len(), 5 * made.calls.len() + 64] {
        let (result, buffer) = played(&made.trace, length);
        assert_eq!(result, number, "{name}, buffer of {length}");
        let is_kept = |(place, byte): (usize, &u8)| *byte == place as u8 ^ 0xA7;
        assert!(buffer.iter().enumerate().all(is_kept), "{name}");
    }
}

#[test]
fn the_player_passes_over_recorded_answers() {
    let seed = seed_or(SEED);
    let (mut compared, mut short, mut refused) = (0, 0, [0; 27]);
    for index in 0..RECORDINGS {
        let made = made_up_recording(seed, index);
        let name = format!("seed {seed}, recording {index}, {}", made.way);
        match made.expected {
            Replayed::Refused { number } => {
                compare_refused(&name, &made, number);
                refused[number as usize] += 1;
            }
            _ => {
                short += compare_players(&name, &made);
                compared += 1;
            }
        }
    }
    println!("{compared} recordings played as without their answers, {short} of them refused with 20 first");
    for number in [18, 19, 26] {
        println!("{:>9}  number {number}, before 20", refused[number]);
    }
    assert!(compared > 4_000 && short > 4_000 && refused[26] > 500);
}

// Few fields, every one of them.

#[test]
fn every_short_list_of_fields() {
    each_short_list(|trace, expected| {
        let name = format!("{trace:02X?}");
        assert_eq!(compare(&name, trace), expected.replayed, "{name}");
        for room in [
            0,
            (5 * expected.calls).saturating_sub(1),
            5 * expected.calls,
        ] {
            let found = played(trace, room);
            assert_eq!(found.0, expected.played(room), "{name}, buffer of {room}");
            assert!(
                found == by_independent(trace, room),
                "{name}, what is in a buffer of {room}"
            );
        }
    });
}

/// Some recordings, cut off after each of their bytes.
#[test]
fn cut_off_anywhere() {
    let seed = seed_or(SEED);
    let is_short = |made: &Recording| (60..2_000).contains(&made.trace.len());
    let all = (0..RECORDINGS).map(|index| made_up_recording(seed, index));
    let mut cuts = 0;
    for made in all.filter(is_short).take(60) {
        for length in 0..made.trace.len() {
            let cut = &made.trace[..length];
            let name = format!("seed {seed}, {}, cut to {length} bytes", made.way);
            let expected = compare(&name, cut);
            let number = played(cut, 5 * made.calls.len()).0 % 256;
            match expected {
                Replayed::Refused { number: wanted } => assert_eq!(number, wanted, "{name}"),
                _ => assert_eq!(number, 0, "{name}"),
            }
            cuts += 1;
        }
    }
    println!("{cuts} cut-off recordings");
    assert!(cuts > 20_000);
}

/// One recorded answer, of the first call, one in the middle and the last, wrong by each of the values that a byte
/// of it can be turned by.
#[test]
fn every_wrong_byte_of_an_answer() {
    let scan = "write 16 04H 0401H; write 16 24H 1; advance 64";
    check_every_wrong_byte(1, &format!("look 32; answered 22 0; {scan}"));
    check_every_wrong_byte(4, &format!("{scan}; look 0; answered 0 18000H; trigger"));
    check_every_wrong_byte(5, &format!("{scan}; trigger; look 0; answered 0 18000H"));
}

/// For the recording of this script, in which only the call of this index has a recorded answer.
fn check_every_wrong_byte(index: u64, script: &str) {
    let fields = fields(script);
    let right = trace_of_fields(1, &fields);
    // The answer comes right after so many calls.
    let body = trace_of_fields(1, &fields[..index as usize]).len() + 3;
    for (byte, turned) in (0..5).flat_map(|byte| (0..=255).map(move |turned| (byte, turned))) {
        let mut trace = right.clone();
        trace[body + byte] ^= turned;
        let name = format!("call {index}, byte {byte} of its answer turned by {turned:02X}H");
        let expected = match (byte, turned) {
            (0..=2, 1..) => Replayed::Differs { index, count: 1 },
            _ => Replayed::Agree { count: 1 },
        };
        assert_eq!(compare(&name, &trace), expected, "{name}");
    }
}

// Typed in.

#[test]
fn typed_in_recordings() {
    for case in cases::recordings() {
        let found = Replayed::unpacked(archive::replay(&case.trace()));
        assert_eq!(found.to_string(), case.printed, "{}", case.name);
    }
}

#[test]
fn typed_in_results() {
    for (fields, result) in REPLAYED {
        let trace = fields.concat();
        assert_eq!(archive::replay(&trace), *result, "{trace:02X?}");
    }
}

/// The typed-in cases, with the answers expected there as recorded ones: all agree.
#[test]
fn typed_in_cases_as_recordings() {
    for case in cases::all() {
        let Case { name, steps, .. } = &case;
        let calls: Vec<_> = steps.iter().map(|step| step.call).collect();
        let recorded: Vec<_> = steps.iter().map(|step| Some(step.expected)).collect();
        let trace = trace_of_fields(case.range, &recording(&calls, &recorded));
        let count = steps.len() as u64;
        let found = compare(name, &trace);
        assert_eq!(found, Replayed::Agree { count }, "{name}");
    }
}

#[test]
fn the_longest_recordings() {
    check_longest(archive::play, archive::replay);
}

/// The longest advances of the fastest scan, with their counts of stores.
#[test]
fn a_short_hostile_recording() {
    let calls = hostile(20);
    let right = answers_of(1, &calls)
        .into_iter()
        .map(Some)
        .collect::<Vec<_>>();
    let mut trace = trace_of_fields(1, &recording(&calls, &right));
    assert_eq!(compare("hostile", &trace), Replayed::Agree { count: 25 });
    let last = trace.len() - 4;
    trace[last] ^= 1;
    let differs = Replayed::Differs {
        index: 25,
        count: 25,
    };
    assert_eq!(compare("hostile, one store off", &trace), differs);
    assert_eq!(played(&trace, 125).0, 256 * 25);
    assert_eq!(trace::play(&trace, &mut [0; 125]), 256 * 25);
}
