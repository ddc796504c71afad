//! Made-up traces on the independent player: what they reach, what a player may do to its buffer,
//! and the logbook's answers. The archive plays the same traces in another test.

use checker::board::analog::Answer;
use checker::board::call::{Call, Calls};
use checker::board::logbook::Logbook;
use checker::board::trace::{
    self, answer_of_bytes, decoded, field, field_of, has_answers, heading,
};
use checker::board::trace::{lines, play, printed, trace_of};
use checker::board::Board;
use checker::cases;
use checker::cases::fields::PLAYED;
use checker::cases::script::steps;
use checker::draw::made_up::{check_longest, made_up, MadeUp, SEED, TRACES};
use checker::draw::random::seed_or;
use checker::judge::coverage::Coverage;
use checker::judge::history::History;
use checker::judge::moments::{all_kinds, played, Accesses};
use std::collections::BTreeMap;

/// What came of one made-up trace.
struct Played {
    result: u64,
    buffer: Vec<u8>,
}

fn play_made_up(made: &MadeUp) -> Played {
    let mut buffer = made.answers.clone();
    let result = play(&made.trace, &mut buffer);
    Played { result, buffer }
}

fn answers_of(bytes: &[u8]) -> Vec<Answer> {
    bytes.chunks_exact(5).map(answer_of_bytes).collect()
}

#[test]
fn what_made_up_traces_reach() {
    let seed = seed_or(SEED);
    let mut coverage = Coverage::new(all_kinds());
    let mut accesses = Accesses::default();
    let (mut calls, mut stores) = (0, 0);
    for index in 0..TRACES {
        let made = made_up(seed, index);
        let Played { result, buffer } = play_made_up(&made);
        if result % 256 != 0 {
            continue;
        }
        let (range, list) = decoded(&made.trace).expect("it was played");
        let (mut board, mut history) = (Board::new(range).0, History::default());
        for (call, answer) in list.iter().zip(answers_of(&buffer)) {
            let moment = played(&mut board, &mut history, call);
            assert_eq!(moment.answer, answer, "seed {seed}, trace {index}, {call}");
            coverage.note(&moment);
            accesses.note(&moment);
            stores += moment.stored().count();
        }
        calls += list.len();
    }
    println!(
        "{TRACES} traces drawn from seed {seed}: {calls} calls played, {stores} conversions stored"
    );
    println!("{}\n{}", coverage.table(), accesses.table());
    coverage.assert_all_met();
    accesses.assert_all_met(30);
}

/// A played trace leaves the bytes beyond its answers as they were, and a refused one all of them.
#[test]
fn what_made_up_traces_do_to_their_buffers() {
    let seed = seed_or(SEED);
    let mut met = BTreeMap::new();
    let mut damages = BTreeMap::new();
    let mut recordings = 0;
    for index in 0..TRACES {
        let made = made_up(seed, index);
        let Played { result, buffer } = play_made_up(&made);
        let (calls, number) = (result as usize / 256, result % 256);
        let name = format!("seed {seed}, trace {index}");
        assert_eq!(number, expected_number(&made), "{name}");
        let damage = made.damage;
        assert!(
            is_number_after(damage, number),
            "{name}, {damage}: {number}"
        );
        let written = 5 * calls;
        assert_eq!(buffer.len(), made.answers.len(), "{name}");
        assert_eq!(buffer[written..], made.answers[written..], "{name}: beyond");
        let kind = match (number, buffer.len() - written) {
            (0, 0) => "played, exact buffer".to_string(),
            (0, _) => "played, bytes beyond stay".to_string(),
            _ => format!("refused with {number}, buffer unchanged"),
        };
        *met.entry(kind).or_insert(0) += 1;
        recordings += u32::from(number == 0 && has_answers(&made.trace));
        *damages.entry(made.damage.to_string()).or_insert(0) += 1;
    }
    print_counts(&met);
    println!("{recordings:>9}  played, with recorded answers");
    assert!((300..TRACES / 4).contains(&recordings));
    print_counts(&damages);
    assert_eq!(met.len(), 6, "played in two ways, refused in four");
    assert!(met.values().all(|count| *count >= 100));
    assert_eq!(damages.len(), 20, "every kind of damage");
    assert!(damages.values().all(|count| *count >= 5));
}

/// Can damage of this name give this number? By the name alone, without asking the trace. Where a trace was damaged
/// twice, the name is that of the second damage; 18 and 19 are asked before 26.
fn is_number_after(damage: &str, number: u64) -> bool {
    match damage {
        "no damage" => matches!(number, 0 | 20),
        "heading with a wrong tag"
        | "heading with a wrong length"
        | "heading with a far greater length"
        | "heading with a wrong letter"
        | "heading cut"
        | "range above 3"
        | "field and heading" => number == 18,
        "second heading's tag"
        | "field with no call's tag"
        | "field with a far greater length"
        | "look or clear with another length"
        | "09H with another length" => number == 19,
        "09H after the heading" | "09H twice" => number == 26,
        // Such damage may leave a good trace, by chance.
        _ => true,
    }
}

/// The number by the questions that the player asks too, and by the length of the buffer.
fn expected_number(made: &MadeUp) -> u64 {
    match decoded(&made.trace) {
        Err(number) => number,
        Ok((_, list)) if made.answers.len() < 5 * list.len() => 20,
        Ok(_) => 0,
    }
}

fn print_counts(counts: &BTreeMap<String, u64>) {
    for (name, count) in counts {
        println!("{count:>9}  {name}");
    }
}

/// Accepted traces without long advances, once more tick by tick.
#[test]
fn made_up_traces_by_the_logbook() {
    let seed = seed_or(SEED);
    let (mut traces, mut calls) = (0, 0);
    for index in 0..TRACES {
        let made = made_up(seed, index);
        let Ok((range, list)) = decoded(&made.trace) else {
            continue;
        };
        if ticks_of(&list) > 60_000 {
            continue;
        }
        let mut board = Board::new(range).0;
        let mut logbook = Logbook::new(range);
        for (position, call) in list.iter().enumerate() {
            assert_eq!(
                board.call(call),
                logbook.call(call),
                "seed {seed}, trace {index}, call {}, {call}: board (left), logbook",
                position + 1
            );
        }
        traces += 1;
        calls += list.len();
    }
    println!("{traces} traces with {calls} calls, by the logbook");
    assert!(traces > 1_000 && calls > 80_000);
}

/// The ticks of all accepted advances.
fn ticks_of(list: &[Call]) -> u64 {
    let ticks = |call: &Call| match *call {
        Call::Advance { ticks } if ticks <= 16_777_216 => u64::from(ticks),
        _ => 0,
    };
    list.iter().map(ticks).sum()
}

/// The text program prints what the player puts in its buffer.
#[test]
fn lines_of_made_up_traces() {
    let seed = seed_or(SEED);
    for index in (0..TRACES).step_by(16) {
        let made = made_up(seed, index);
        let expected = match decoded(&made.trace) {
            Err(number) => format!("refused {number}\n"),
            Ok((_, list)) => {
                let mut buffer = vec![0; 5 * list.len()];
                assert_eq!(play(&made.trace, &mut buffer), 256 * list.len() as u64);
                lines_of(&answers_of(&buffer))
            }
        };
        assert_eq!(lines(&made.trace), expected, "seed {seed}, trace {index}");
    }
}

fn lines_of(answers: &[Answer]) -> String {
    let line = |(index, answer): (usize, &Answer)| {
        format!("{} {} {:08X}\n", index + 1, answer.number, answer.value)
    };
    answers.iter().enumerate().map(line).collect()
}

// Typed in.

/// The first example of a trace, byte for byte and line by line.
#[test]
fn the_trace_of_seven_lines() {
    let case = cases::one("bench", "the trace of seven lines");
    let calls: Vec<Call> = case.steps.iter().map(|step| step.call).collect();
    let trace = trace_of(1, &calls);
    #[rustfmt::skip]
    let bytes = [
        0x00, 5, 0, b'A', b'3', b'3', b'0', 1,
        0x02, 7, 0, 16, 0x10, 0, 0x00, 0x00, 0, 0,
        0x02, 7, 0, 16, 0x04, 0, 0x01, 0x04, 0, 0,
        0x02, 7, 0, 16, 0x24, 0, 0x01, 0x00, 0, 0,
        0x04, 4, 0, 64, 0, 0, 0,
        0x01, 3, 0, 16, 0x14, 0,
        0x01, 3, 0, 16, 0x80, 0,
        0x01, 3, 0, 16, 0x14, 0,
    ];
    assert_eq!(trace, bytes);
    let expected = "1 0 00000000\n2 0 00000000\n3 0 00000000\n4 0 00000001\n\
                         5 0 00000001\n6 0 00008000\n7 0 00000000\n";
    assert_eq!(lines(&trace), expected);
    let mut buffer = [0xEE; 37];
    assert_eq!(play(&trace, &mut buffer), 7 * 256);
    assert_eq!(buffer[15..20], [0, 1, 0, 0, 0]);
    assert_eq!(buffer[25..30], [0, 0x00, 0x80, 0, 0]);
    assert_eq!(buffer[35..], [0xEE, 0xEE]);
}

/// The body of every kind of call, with numbers low byte first.
#[test]
fn fields_of_calls() {
    let list = "
        read 16 1234H; write 8 4321H 89ABCDEFH; input 7 -2; advance 12345678H; trigger; reset
        look 31; clear 255
    ";
    let fields: Vec<Vec<u8>> = steps(list)
        .iter()
        .map(|step| field_of(&step.call))
        .collect();
    let expected: [&[u8]; 8] = [
        &[0x01, 3, 0, 16, 0x34, 0x12],
        &[0x02, 7, 0, 8, 0x21, 0x43, 0xEF, 0xCD, 0xAB, 0x89],
        &[0x03, 5, 0, 7, 0xFE, 0xFF, 0xFF, 0xFF],
        &[0x04, 4, 0, 0x78, 0x56, 0x34, 0x12],
        &[0x05, 0, 0],
        &[0x06, 0, 0],
        &[0x07, 1, 0, 31],
        &[0x08, 1, 0, 255],
    ];
    assert_eq!(fields, expected);
}

#[test]
fn questions_18_to_20_and_26() {
    for (fields, length, result) in PLAYED {
        let trace = fields.concat();
        let mut buffer = vec![0xA5; *length];
        assert_eq!(play(&trace, &mut buffer), *result, "{trace:02X?}, {length}");
        let written = 5 * (*result as usize / 256);
        assert!(buffer[..written].iter().all(|byte| *byte == 0));
        assert!(buffer[written..].iter().all(|byte| *byte == 0xA5));
    }
}

/// No byte of the heading can be another, but for the range.
#[test]
fn every_byte_of_the_heading() {
    for place in 0..8 {
        for byte in 0..=255 {
            let mut trace = heading(0);
            trace[place] = byte;
            let is_range = place == 7 && byte <= 3;
            let is_heading = trace == heading(0) || is_range;
            let expected = if is_heading { 0 } else { 18 };
            assert_eq!(play(&trace, &mut []), expected, "{trace:02X?}");
        }
    }
}

/// A field is a call's or a recorded answer with that tag and length only.
#[test]
fn every_tag_and_length() {
    let calls = [
        (1, 3),
        (2, 7),
        (3, 5),
        (4, 4),
        (5, 0),
        (6, 0),
        (7, 1),
        (8, 1),
    ];
    for (tag, length) in (0..=255).flat_map(|tag| (0..300).map(move |length| (tag, length))) {
        let field = field(tag, &vec![0; length]);
        let [alone, after_call] = [vec![], field_of(&Call::Trigger)]
            .map(|before| play(&[heading(0), before, field.clone()].concat(), &mut [0; 10]));
        let expected = match (tag, length) {
            (9, 5) => (26, 256),
            _ if calls.contains(&(tag, length)) => (256, 512),
            _ => (19, 19),
        };
        assert_eq!((alone, after_call), expected, "tag {tag}, length {length}");
    }
}

#[test]
fn the_longest_trace() {
    check_longest(play);
}

/// A longer input is cut and then judged.
#[test]
fn the_program_takes_32768_bytes() {
    assert_eq!(printed(b""), "refused 18\n");
    assert_eq!(printed(&heading(2)), "");
    // 8 + 3 * 10,920 = 32,768: the heading and 10,920 triggers fill the input.
    let mut input = trace_of(0, &[Call::Trigger; 10_920]);
    assert_eq!(input.len(), trace::LONGEST_INPUT);
    assert_eq!(printed(&input).lines().count(), 10_920);
    input.push(0xFF);
    assert_eq!(printed(&input).lines().last(), Some("10920 0 00000000"));
    // One more byte before them cuts the last field.
    let advance = field_of(&Call::Advance { ticks: 0 });
    let cut = [&input[..8], &advance, &input[8..]].concat();
    assert_eq!(printed(&cut), "refused 19\n");
}
