//! What each name of `include/pmc330.h` is by this program: the figures come from its board, its registers, its traces,
//! its correction and its load, and none from the header.

use crate::board::analog::{
    calibration_voltage, code, least_voltage, Answer, Correction, GREATEST_SUM,
};
use crate::board::call::{Call, Calls};
use crate::board::load::load;
use crate::board::registers::{
    Control, Register, Registers, BURST_CONTINUOUS, BURST_SINGLE, DIFFERENTIAL, EACH_STORE,
    LAST_STORE_OF_A_PASS, SCAN_OFF, SINGLE_ENDED, TRIGGER_INPUT, TRIGGER_ONLY, UNIFORM_CONTINUOUS,
    UNIFORM_SINGLE,
};
use crate::board::replay::Replayed;
use crate::board::trace::{
    field, field_of, field_of_answer, heading, play, Field, ANSWER, LONGEST_TRACE,
};
use crate::board::window::added_anew;
use crate::board::{Board, BURST_STEP, CONVERSION, HIGHEST_INPUT, LONGEST_ADVANCE, LOWEST_INPUT};
use crate::cases::script::fields;

const NOTHING: Answer = Answer {
    number: 0,
    value: 0,
};

/// A value as C has it, with its type.
#[derive(Clone, Copy, Debug, PartialEq, Eq)]
pub enum Figure {
    Unsigned(u32),
    Signed(i32),
    /// size_t
    Size(u64),
    /// The bytes of a text, without C's closing 0.
    Text(&'static str),
}

/// What a constant is, or a macro at these arguments.
#[derive(Clone, Debug)]
pub struct Named {
    pub name: &'static str,
    pub arguments: Vec<u64>,
    pub figure: Figure,
}

fn constant(name: &'static str, figure: Figure) -> Named {
    at(name, &[], figure)
}

fn number(name: &'static str, figure: u32) -> Named {
    at(name, &[], Figure::Unsigned(figure))
}

fn at(name: &'static str, arguments: &[u64], figure: Figure) -> Named {
    Named {
        name,
        arguments: arguments.to_vec(),
        figure,
    }
}

/// A macro of one argument, at each of these.
fn each(
    name: &'static str,
    arguments: impl IntoIterator<Item = u32>,
    figure: impl Fn(u32) -> u32,
) -> Vec<Named> {
    let at = |n: u32| at(name, &[n.into()], Figure::Unsigned(figure(n)));
    arguments.into_iter().map(at).collect()
}

/// Every name of the header.
pub fn figures() -> Vec<Named> {
    [
        times(),
        ranges(),
        offsets(),
        slots(),
        interrupt_bits(),
        control_fields(),
        calibrations(),
        register_values(),
        limits(),
        results(),
        replays(),
        refused_accesses(),
        refused_calls(),
        looks(),
        traces(),
        rooms(),
    ]
    .concat()
}

// What the board here says.

/// What a new board of range 1 answers to these calls, in the notation of `script.rs`.
fn answers(calls: &str) -> Vec<Answer> {
    let (mut board, _) = Board::new(1);
    let answer = |field| match field {
        Field::Call(call) => board.call(&call),
        Field::Answered(_) => panic!("no call: {calls}"),
    };
    fields(calls).into_iter().map(answer).collect()
}

fn last_answer(calls: &str) -> Answer {
    *answers(calls).last().expect("a call")
}

/// The number with which the last of these calls is refused, 0 if it is not.
fn refused(calls: &str) -> u32 {
    last_answer(calls).number as u32
}

/// The value of the last of these calls, which are all accepted.
fn value(calls: &str) -> u32 {
    assert!(accepts(calls), "{calls}");
    last_answer(calls).value as u32
}

fn accepts(calls: &str) -> bool {
    answers(calls).iter().all(|answer| answer.number == 0)
}

/// The least number for which this holds.
fn least(holds: impl Fn(u32) -> bool) -> u32 {
    (0..1 << 16).find(|it| holds(*it)).expect("a number")
}

/// The greatest number below 256 for which this holds.
fn greatest(holds: impl Fn(u32) -> bool) -> u32 {
    (0..256).rev().find(|it| holds(*it)).expect("a number")
}

fn times() -> Vec<Named> {
    let takes_another_after = |ticks: u32| {
        let armed = "write 16 04H 0503H; write 16 24H 1; trigger";
        value(&format!("{armed}; advance {ticks}; trigger; read 16 14H")) == 1
    };
    let starts_at = |interval: u32| {
        let scan = format!("write 16 04H 0901H; write 8 09H 1; write 16 0CH {interval}");
        accepts(&format!("{scan}; write 16 24H 1"))
    };
    // A tick is 1/8 microsecond.
    let in_a_microsecond = 8;
    vec![
        // of the meaning of a saved board's bytes (tests/stepping.rs)
        number("PMC330_VERSION", 2),
        number("PMC330_TICK_NANOSECONDS", 1_000 / in_a_microsecond),
        number("PMC330_TICKS_PER_MICROSECOND", in_a_microsecond),
        number("PMC330_CONVERSION_TICKS", CONVERSION as u32),
        number("PMC330_BURST_TICKS", BURST_STEP as u32),
        number("PMC330_TRIGGER_TICKS", least(takes_another_after)),
        number("PMC330_INTERVAL_MIN", least(starts_at)),
    ]
}

fn ranges() -> Vec<Named> {
    // The range with these voltages at its low end and in its middle.
    let range = |low: i32, middle: i32| {
        let voltages = |range| [0, 0x8000].map(|code| least_voltage(range, 0, code));
        (0..4)
            .find(|it| voltages(*it) == [low, middle])
            .expect("a range")
    };
    vec![
        number("PMC330_RANGE_PM5V", range(-5_000_000, 0)),
        number("PMC330_RANGE_PM10V", range(-10_000_000, 0)),
        number("PMC330_RANGE_0_TO_5V", range(0, 2_500_000)),
        number("PMC330_RANGE_0_TO_10V", range(0, 5_000_000)),
    ]
}

/// The offset of a register's low byte.
fn offset(register: Register) -> u32 {
    least(|offset| Register::at(offset) == Some(register))
}

fn offsets() -> Vec<Named> {
    let at = |name, register| number(name, offset(register));
    // The Timer Prescaler and the End Channel are high bytes, the Start Channel is a low one.
    let high = |name, register| number(name, offset(register) + 1);
    let mut named = vec![
        at("PMC330_INTERRUPT", Register::Interrupt),
        at("PMC330_CONTROL", Register::Control),
        high("PMC330_PRESCALER", Register::Prescaler),
        at("PMC330_PRESCALER_WORD", Register::Prescaler),
        at("PMC330_TIMER", Register::Timer),
        at("PMC330_CHANNELS", Register::Channels),
        at("PMC330_START_CHANNEL", Register::Channels),
        high("PMC330_END_CHANNEL", Register::Channels),
        at("PMC330_NEW_DATA_LOW", Register::NewData(0)),
        at("PMC330_NEW_DATA_HIGH", Register::NewData(16)),
        at("PMC330_MISSED_DATA_LOW", Register::MissedData(0)),
        at("PMC330_MISSED_DATA_HIGH", Register::MissedData(16)),
        at("PMC330_START_CONVERT", Register::StartConvert),
    ];
    let gain = |group| offset(Register::Gain(group as usize));
    named.extend(each("PMC330_GAIN", 0..4, gain));
    named
}

fn slots() -> Vec<Named> {
    let mailbox = |slot| offset(Register::Mailbox(slot as usize));
    let half = |slot: u32| slot as usize / 16 * 16;
    let is_mailbox = |offset: &u32| matches!(Register::at(*offset), Some(Register::Mailbox(_)));
    let mailboxes = (0..256).step_by(4).filter(is_mailbox).count() as u32;
    let mut named = vec![number("PMC330_SLOTS", mailboxes)];
    named.extend(each("PMC330_MAILBOX", 0..32, mailbox));
    named.extend(each("PMC330_NEW_DATA", 0..32, |slot| {
        offset(Register::NewData(half(slot)))
    }));
    named.extend(each("PMC330_MISSED_DATA", 0..32, |slot| {
        offset(Register::MissedData(half(slot)))
    }));
    // What its word shows after one store in the slot.
    named.extend(each("PMC330_SLOT_BIT", 0..32, |slot| {
        let word = offset(Register::NewData(half(slot)));
        let stored = format!("write 16 10H {slot:02X}{slot:02X}H; write 16 24H 1; advance 64");
        value(&format!("write 16 04H 0409H; {stored}; read 16 {word}"))
    }));
    named
}

/// Bits of Interrupt by what they do, and the one of Start Convert.
fn interrupt_bits() -> Vec<Named> {
    let pending = "write 16 04H 1401H; write 16 24H 1; advance 64";
    let drops_pending =
        |bit: &u32| value(&format!("{pending}; write 16 00H {bit}; read 16 00H")) & 2 == 0;
    let starts = |bit: &u32| {
        refused(&format!(
            "write 16 04H 0401H; write 16 24H {bit}; write 16 0CH 0"
        )) != 0
    };
    let bits = || (0..16).map(|place| 1_u32 << place);
    vec![
        number(
            "PMC330_INTERRUPT_ENABLE",
            value("write 16 00H FFFFH; read 16 00H"),
        ),
        number(
            "PMC330_INTERRUPT_PENDING",
            value(&format!("{pending}; read 16 00H")),
        ),
        number(
            "PMC330_INTERRUPT_RELEASE",
            bits().find(drops_pending).expect("a bit"),
        ),
        number("PMC330_START", bits().find(starts).expect("a bit")),
    ]
}

/// The Control word with these fields, from bit 0 up: format, trigger, acquisition, scan, timer, interrupt.
fn control(of: [u32; 6]) -> u32 {
    least(|word| {
        let control = Control::of(word);
        let is_straight = u32::from(control.is_straight());
        let has_timer = u32::from(control.has_timer());
        let [trigger, acquisition] = [control.trigger(), control.acquisition()];
        [
            is_straight,
            trigger,
            acquisition,
            control.scan(),
            has_timer,
            control.interrupt(),
        ] == of
    })
}

fn control_fields() -> Vec<Named> {
    let format = |name, code| number(name, control([code, 0, 0, 0, 0, 0]));
    let trigger = |name, code| number(name, control([0, code, 0, 0, 0, 0]));
    let acquisition = |name, code| number(name, control([0, 0, code, 0, 0, 0]));
    let scan = |name, code| number(name, control([0, 0, 0, code, 0, 0]));
    let interrupt = |name, code| number(name, control([0, 0, 0, 0, 0, code]));
    let mut named = vec![
        format("PMC330_FORMAT_TWOS_COMPLEMENT", 0),
        format("PMC330_FORMAT_STRAIGHT", 1),
        format("PMC330_FORMAT_MASK", 1),
        trigger("PMC330_TRIGGER_OFF", 0b00),
        trigger("PMC330_TRIGGER_INPUT", TRIGGER_INPUT),
        trigger("PMC330_TRIGGER_OUTPUT", 0b10),
        trigger("PMC330_TRIGGER_MASK", 0b11),
        acquisition("PMC330_ACQUISITION_DIFFERENTIAL", DIFFERENTIAL),
        acquisition("PMC330_ACQUISITION_SINGLE_ENDED", SINGLE_ENDED),
        acquisition("PMC330_ACQUISITION_MASK", 0b111),
        scan("PMC330_SCAN_OFF", SCAN_OFF),
        scan("PMC330_SCAN_UNIFORM_CONTINUOUS", UNIFORM_CONTINUOUS),
        scan("PMC330_SCAN_UNIFORM_SINGLE", UNIFORM_SINGLE),
        scan("PMC330_SCAN_BURST_CONTINUOUS", BURST_CONTINUOUS),
        scan("PMC330_SCAN_BURST_SINGLE", BURST_SINGLE),
        scan("PMC330_SCAN_EXTERNAL_TRIGGER_ONLY", TRIGGER_ONLY),
        scan("PMC330_SCAN_MASK", 0b111),
        number("PMC330_TIMER_ENABLE", control([0, 0, 0, 0, 1, 0])),
        interrupt("PMC330_INTERRUPT_ON_NONE", 0b00),
        interrupt("PMC330_INTERRUPT_ON_EACH_STORE", EACH_STORE),
        interrupt("PMC330_INTERRUPT_ON_LAST_STORE", LAST_STORE_OF_A_PASS),
        interrupt("PMC330_INTERRUPT_ON_MASK", 0b11),
    ];
    let acquisition = |code| control([0, 0, code, 0, 0, 0]);
    named.extend(each("PMC330_ACQUISITION", 0..8, acquisition));
    named
}

fn calibrations() -> Vec<Named> {
    let calibration = |microvolts| least(|code| calibration_voltage(code) == Some(microvolts));
    vec![
        number("PMC330_CALIBRATION_4900000_UV", calibration(4_900_000)),
        number("PMC330_CALIBRATION_2450000_UV", calibration(2_450_000)),
        number("PMC330_CALIBRATION_1225000_UV", calibration(1_225_000)),
        number("PMC330_CALIBRATION_612500_UV", calibration(612_500)),
        number("PMC330_CALIBRATION_0_UV", calibration(0)),
    ]
}

fn register_values() -> Vec<Named> {
    // 1,024 counts of range 2 at gain 1: so many times more at another.
    let gain = |gain: u32| least(|field| code(2, field, 78_125) == 1_024 * gain);
    let mut named = vec![
        number("PMC330_GAIN_1", gain(1)),
        number("PMC330_GAIN_2", gain(2)),
        number("PMC330_GAIN_4", gain(4)),
        number("PMC330_GAIN_8", gain(8)),
    ];
    // What the two bytes read together, and what the prescaler's byte does with the one below it.
    named.extend(each("PMC330_PRESCALER_FIELD", 0..256, |prescaler| {
        value(&format!("write 8 09H {prescaler}; read 16 08H"))
    }));
    for (start, end) in (0..32).flat_map(|start| [0, 7, 15, 31 - start].map(|end| (start, end))) {
        let word = value(&format!(
            "write 8 10H {start}; write 8 11H {end}; read 16 10H"
        ));
        named.push(at(
            "PMC330_CHANNELS_WORD",
            &[start, end],
            Figure::Unsigned(word),
        ));
    }
    for (channel, gain) in (0..128).map(|place| (place / 4, place % 4)) {
        let word = Figure::Unsigned(gain_word(channel as usize, gain as u32));
        named.push(at("PMC330_GAIN_FIELD", &[channel, gain], word));
    }
    named
}

/// The gain word of a channel with this field there, and 0 at the seven other channels.
fn gain_word(channel: usize, gain: u32) -> u32 {
    least(|word| {
        let mut registers = Registers::all_0();
        registers.gains[channel / 8] = word;
        (0..32).all(|it| registers.gain(it) == if it == channel { gain } else { 0 })
    })
}

fn limits() -> Vec<Named> {
    let takes_input = |channel: u32| accepts(&format!("input {channel} 0"));
    let starts_in_differential = |end: u32| {
        accepts(&format!(
            "write 16 04H 0401H; write 8 11H {end}; write 16 24H 1"
        ))
    };
    vec![
        number("PMC330_CHANNEL_MAX", greatest(takes_input)),
        number(
            "PMC330_CHANNEL_MAX_DIFFERENTIAL",
            greatest(starts_in_differential),
        ),
        constant("PMC330_INPUT_MIN", Figure::Signed(LOWEST_INPUT)),
        constant("PMC330_INPUT_MAX", Figure::Signed(HIGHEST_INPUT)),
        number("PMC330_ADVANCE_MAX", LONGEST_ADVANCE),
        number("PMC330_TRACE_MAX", LONGEST_TRACE as u32),
        number("PMC330_SUM_MAX", GREATEST_SUM),
        number("PMC330_CODE_MAX", code(0, 0, HIGHEST_INPUT)),
    ]
}

fn result_part(name: &'static str, result: u64, figure: u64) -> Named {
    at(name, &[result], Figure::Unsigned(figure as u32))
}

/// The macros that take results apart, at results that hold one thing at a time and everything at once.
fn results() -> Vec<Named> {
    let results = [
        (0, 0),
        (1, 0),
        (0, 28),
        (255, 6),
        (0x89AB_CDEF, 7),
        (0xFFFF_FFFF, 0),
    ];
    let parts = |(value, number)| {
        let result = 256 * value + number;
        [
            result_part("PMC330_NUMBER", result, number),
            result_part("PMC330_VALUE", result, value),
        ]
    };
    results.into_iter().flat_map(parts).collect()
}

fn replays() -> Vec<Named> {
    let most = 0xFF_FFFF;
    let differs = |index, count| (Replayed::Differs { index, count }, [0, index, count]);
    let results = [
        (Replayed::Refused { number: 26 }, [26, 0, 0]),
        (Replayed::Agree { count: 1 }, [0, 0, 1]),
        (Replayed::Agree { count: most }, [0, 0, most]),
        differs(1, 1),
        differs(0xAB_CDEF, 0x12_3456),
        differs(most, most),
    ];
    let parts = |(replayed, [number, index, count]): (Replayed, [u64; 3])| {
        [
            result_part("PMC330_REPLAY_NUMBER", replayed.packed(), number),
            result_part("PMC330_REPLAY_INDEX", replayed.packed(), index),
            result_part("PMC330_REPLAY_COUNT", replayed.packed(), count),
        ]
    };
    results.into_iter().flat_map(parts).collect()
}

/// Each refusal's number is the answer to a call that is wrong in this way alone.
fn refused_accesses() -> Vec<Named> {
    let busy = "write 16 04H 0401H; write 16 24H 1; write 16 0CH 0";
    vec![
        number("PMC330_ACCEPTED", refused("trigger")),
        number("PMC330_BAD_WIDTH", refused("read 24 00H")),
        number("PMC330_BAD_OFFSET", refused("read 16 01H")),
        number("PMC330_UNMAPPED", refused("read 16 28H")),
        number("PMC330_BAD_VALUE", refused("write 16 0CH 10000H")),
        number("PMC330_BAD_DIRECTION", refused("write 16 14H 0")),
        number("PMC330_BUSY", refused(busy)),
        number("PMC330_BAD_CODE", refused("write 16 04H 0010H")),
        number("PMC330_NO_SCAN", refused("write 16 24H 1")),
        number(
            "PMC330_BAD_CHANNELS",
            refused("write 16 04H 0401H; write 8 10H 1; write 16 24H 1"),
        ),
        number(
            "PMC330_BAD_INTERVAL",
            refused("write 16 04H 0901H; write 16 24H 1"),
        ),
        number("PMC330_BAD_CHANNEL", refused("input 32 0")),
        number("PMC330_BAD_VOLTAGE", refused("input 0 55,000,001")),
        number("PMC330_BAD_TICKS", refused("advance 16,777,217")),
        number("PMC330_BAD_RANGE", Board::new(4).1.number as u32),
        number("PMC330_BAD_SLOT", refused("look 32")),
    ]
}

fn refused_calls() -> Vec<Named> {
    let corrected = |low, low_sum, raw| {
        let (range, gain, high, high_sum) = (0, 0, 3, 1);
        Correction {
            range,
            gain,
            high,
            low,
            high_sum,
            low_sum,
            raw,
        }
        .number() as u32
    };
    let played = |field: &[u8]| play(&[&heading(0), field].concat(), &mut []) as u32;
    let loaded = |seed| load(seed, 0, 1, &mut []).number as u32;
    let window = added_anew(9, &[], &mut []);
    vec![
        number("PMC330_BAD_CALIBRATION", corrected(2, 0, 0)),
        number("PMC330_BAD_CODES", corrected(7, 0, 65_536)),
        number("PMC330_BAD_SUMS", corrected(7, 1, 0)),
        number("PMC330_BAD_HEADING", play(&[], &mut []) as u32),
        number("PMC330_BAD_FIELD", played(&[0x01])),
        number("PMC330_SHORT_BUFFER", played(&field_of(&Call::Trigger))),
        number("PMC330_BAD_WINDOW", window.number as u32),
        number("PMC330_STRAY_ANSWER", played(&field_of_answer(NOTHING))),
        number("PMC330_BAD_SEED", loaded(0)),
        number("PMC330_NO_ROOM", loaded(1)),
    ]
}

fn looks() -> Vec<Named> {
    let once = "write 16 04H 0309H; write 16 24H 1; advance 64";
    let twice = format!("{once}; advance 120");
    let seen = |calls: &str| value(&format!("{calls}; look 0"));
    let code = seen(&format!("{once}; clear 0"));
    let mut named = vec![
        number("PMC330_LOOK_NEW", seen(once) - code),
        number("PMC330_LOOK_MISSED", seen(&twice) - seen(once)),
    ];
    let codes = [0, 1, 0xFF, 0x100, 0x7FFF, 0x8000, 0xFFFF];
    for (code, bits) in codes
        .into_iter()
        .flat_map(|code| [0, 1, 3].map(|bits| (code, bits)))
    {
        named.extend(each("PMC330_LOOK_CODE", [65_536 * bits + code], |_| code));
    }
    named
}

/// A field of each call.
fn calls() -> [Vec<u8>; 8] {
    let (width, offset) = (16, 0);
    let calls = [
        Call::Read { width, offset },
        Call::Write {
            width,
            offset,
            value: 0,
        },
        Call::Input {
            channel: 0,
            microvolts: 0,
        },
        Call::Advance { ticks: 0 },
        Call::Trigger,
        Call::Reset,
        Call::Look { slot: 0 },
        Call::Clear { slot: 0 },
    ];
    calls.map(|call| field_of(&call))
}

fn traces() -> Vec<Named> {
    let [read, write, input, advance, trigger, reset, look, clear] = calls();
    let head = field(0, &[]).len() as u32;
    let tag = |name, field: &[u8]| number(name, field[0].into());
    let length = |name, field: &[u8]| number(name, field.len() as u32 - head);
    vec![
        number("PMC330_FIELD_HEAD", head),
        constant("PMC330_HEADING", Figure::Text("A330")),
        number("PMC330_ANSWER_BYTES", ANSWER as u32),
        tag("PMC330_TAG_HEADING", &heading(0)),
        tag("PMC330_TAG_READ", &read),
        tag("PMC330_TAG_WRITE", &write),
        tag("PMC330_TAG_INPUT", &input),
        tag("PMC330_TAG_ADVANCE", &advance),
        tag("PMC330_TAG_TRIGGER", &trigger),
        tag("PMC330_TAG_RESET", &reset),
        tag("PMC330_TAG_LOOK", &look),
        tag("PMC330_TAG_CLEAR", &clear),
        tag("PMC330_TAG_ANSWERED", &field_of_answer(NOTHING)),
        length("PMC330_LENGTH_HEADING", &heading(0)),
        length("PMC330_LENGTH_READ", &read),
        length("PMC330_LENGTH_WRITE", &write),
        length("PMC330_LENGTH_INPUT", &input),
        length("PMC330_LENGTH_ADVANCE", &advance),
        length("PMC330_LENGTH_TRIGGER", &trigger),
        length("PMC330_LENGTH_RESET", &reset),
        length("PMC330_LENGTH_LOOK", &look),
        length("PMC330_LENGTH_CLEAR", &clear),
        length("PMC330_LENGTH_ANSWERED", &field_of_answer(NOTHING)),
    ]
}

/// The heading, and the longest field of any call so many times.
fn rooms() -> Vec<Named> {
    let heading = heading(0).len() as u64;
    let longest = calls().iter().map(Vec::len).max().expect("a call") as u64;
    let room = |calls| Figure::Size(heading + longest * calls);
    [0, 1, 8, 429_496_729, 4_294_967_295]
        .map(|calls| at("PMC330_LOAD_BYTES_MAX", &[calls], room(calls)))
        .to_vec()
}
