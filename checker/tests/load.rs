//! The archive's load against that of the independent program, and as its player plays it.

use checker::archive;
use checker::archive::lent::{lent, Lent};
use checker::archive::stepped::answers_by_functions;
use checker::board::analog::Answer;
use checker::board::call::Call;
use checker::board::load::{call_of, calls_of, is_load_of, load, step, Loader};
use checker::board::trace::{
    self, answer_of_bytes, field_of, fields_of, trace_of, Field, LONGEST_TRACE,
};
use checker::cases::script;
use checker::draw::random::{seed_or, Random};
use checker::judge::coverage::{kind, Coverage, Kind};
use checker::judge::digest::fnv_1a;
use std::collections::HashSet;
use std::ops::RangeInclusive;

const DRAWS: u32 = 200_000;

/// Ranges above 3: also those that a remainder, a narrower number or a sign would let pass.
const GREAT_RANGES: [u32; 9] = [
    4,
    5,
    7,
    255,
    256,
    65_536 + 1,
    (1 << 24) + 2,
    1 << 31,
    u32::MAX,
];

/// What a load is made from.
#[derive(Clone, Copy, Debug)]
struct Stated {
    seed: u32,
    range: u32,
    calls: u32,
}

/// The calls by the words of the data sheet ("Loads").
fn list_of(stated: &Stated) -> Vec<Call> {
    calls_of(stated.seed).take(stated.calls as usize).collect()
}

/// The bytes that a load has if it is not refused.
fn length_of(stated: &Stated) -> usize {
    trace_of(0, &list_of(stated)).len()
}

/// What a load made: its answer, and the larger buffer that the lent one is a part of.
struct Made {
    answer: Answer,
    buffer: Vec<u8>,
}

fn made_by(load: Loader, stated: &Stated, lent: &Lent<u8>) -> Made {
    let mut buffer = lent.buffer.clone();
    let Stated { seed, range, calls } = *stated;
    let answer = load(seed, range, calls, &mut buffer[lent.part.clone()]);
    Made { answer, buffer }
}

/// The same answer of both programs, and the same byte in every place in and around the buffer. Gives what the
/// independent program made.
fn compare(name: &str, stated: &Stated, lent: &Lent<u8>) -> Made {
    let expected = made_by(load, stated, lent);
    let found = made_by(archive::load, stated, lent);
    let room = lent.part.len();
    assert_eq!(
        found.answer, expected.answer,
        "{name}, {stated:?}, {room} bytes: the archive (left)"
    );
    if found.buffer != expected.buffer {
        let mut pairs = found.buffer.iter().zip(&expected.buffer);
        let place = pairs.position(|(found, expected)| found != expected);
        let place = place.expect("a byte that differs");
        panic!(
            "{name}, {stated:?}, {room} bytes: byte {} is {:02X}H, expected {:02X}H",
            place as i64 - lent.part.start as i64,
            found.buffer[place],
            expected.buffer[place]
        );
    }
    expected
}

/// A buffer of so many drawn bytes.
fn drawn_buffer(random: &mut Random, room: usize) -> Lent<u8> {
    let bytes: Vec<u8> = (0..room).map(|_| random.bits() as u8).collect();
    lent(random, &bytes, |bits| bits as u8)
}

// Drawn loads.

/// A drawn load, with what the independent program made of it.
struct Draw {
    stated: Stated,
    /// Its bytes, also where it is refused.
    length: usize,
    room: usize,
    number: u64,
}

#[test]
fn drawn_loads() {
    let seed = seed_or(8);
    let mut random = Random::new(seed);
    let mut coverage = Coverage::new(draw_kinds());
    let mut calls = Coverage::new(call_kinds());
    let mut seeds = HashSet::new();
    for index in 0..DRAWS {
        let draw = compared_draw(&mut random, &format!("seed {seed}, draw {index}"));
        let is_made = draw.number == 0;
        let made = list_of(&draw.stated).into_iter().filter(|_| is_made);
        made.for_each(|call| calls.note(&call));
        if is_made && draw.stated.calls > 0 {
            seeds.insert(draw.stated.seed);
        }
        coverage.note(&draw);
    }
    println!("{DRAWS} loads drawn from seed {seed}\n{}", coverage.table());
    println!("calls of those that are accepted\n{}", calls.table());
    println!("{} different seeds have a call", seeds.len());
    coverage.assert_all_met();
    calls.assert_all_met();
    assert!(seeds.len() >= 100_000, "different seeds");
}

fn compared_draw(random: &mut Random, name: &str) -> Draw {
    let stated = Stated {
        seed: any_seed(random),
        range: any_range(random),
        calls: any_calls(random),
    };
    let length = length_of(&stated);
    let room = any_room(random, length);
    let made = compare(name, &stated, &drawn_buffer(random, room));
    Draw {
        stated,
        length,
        room,
        number: made.answer.number,
    }
}

fn any_seed(random: &mut Random) -> u32 {
    match random.below(40) {
        0 | 1 => 0,
        2 => random.below(100),
        3 => 1 << random.below(32),
        4 => u32::MAX - random.below(3),
        _ => random.bits() as u32,
    }
}

fn any_range(random: &mut Random) -> u32 {
    match random.below(20) {
        0 => random.pick(&GREAT_RANGES),
        // A good range with one bit flipped.
        1 => random.below(4) ^ 1 << random.below(32),
        _ => random.below(4),
    }
}

fn any_calls(random: &mut Random) -> u32 {
    match random.below(400) {
        0 => 1_000 + random.below(3_000),
        1..=8 => 100 + random.below(400),
        9..=28 => 0,
        29..=58 => 1,
        _ => 2 + random.below(40),
    }
}

fn any_room(random: &mut Random, length: usize) -> usize {
    match random.below(20) {
        0 => 0,
        1 => length - 1,
        2 => random.below(length as u32) as usize,
        // All but a short last field, or a part of the last one.
        3 => length - 3 - random.below(4) as usize,
        4..=11 => length,
        12..=14 => length + 1,
        15..=17 => length + 2 + random.below(20) as usize,
        _ => length + 100 + random.below(400) as usize,
    }
}

// What must have been met.

fn draw_kinds() -> Vec<Kind<Draw>> {
    let mut kinds: Vec<Kind<Draw>> = [0, 27, 14, 28].map(number_kind).into();
    kinds.extend(together_kinds());
    kinds.extend((0..=3).map(range_kind).chain(GREAT_RANGES.map(range_kind)));
    kinds.extend(call_count_kinds());
    kinds.extend(room_kinds());
    kinds
}

fn number_kind(number: u64) -> Kind<Draw> {
    let is_met = move |draw: &Draw| draw.number == number;
    kind(format!("number {number}"), 5_000, is_met)
}

/// Refusals for which more than one check is not passed: the first one is said.
fn together_kinds() -> [Kind<Draw>; 4] {
    let is_short = |draw: &Draw| draw.room < draw.length;
    [
        kind("seed 0, range above 3: number 27", 300, |draw: &Draw| {
            draw.number == 27 && draw.stated.range > 3
        }),
        kind("seed 0, short: number 27", 300, move |draw: &Draw| {
            draw.number == 27 && is_short(draw)
        }),
        kind("all three: number 27", 50, move |draw: &Draw| {
            draw.number == 27 && draw.stated.range > 3 && is_short(draw)
        }),
        kind(
            "range above 3, short: number 14",
            300,
            move |draw: &Draw| draw.number == 14 && is_short(draw),
        ),
    ]
}

/// With room for the load and a good seed, so that the range decides.
fn range_kind(range: u32) -> Kind<Draw> {
    let (least, number) = if range <= 3 { (20_000, 0) } else { (300, 14) };
    kind(
        format!("range {range}: number {number}"),
        least,
        move |draw: &Draw| {
            let has_room = draw.room >= draw.length;
            draw.number == number && draw.stated.range == range && has_room
        },
    )
}

/// Accepted loads by how many calls they have.
fn call_count_kinds() -> [Kind<Draw>; 5] {
    let of_counts = |(name, least, counts): (&str, u64, RangeInclusive<u32>)| {
        kind(name, least, move |draw: &Draw| {
            draw.number == 0 && counts.contains(&draw.stated.calls)
        })
    };
    [
        ("0 calls", 2_000, 0..=0),
        ("1 call", 5_000, 1..=1),
        ("2 to 99 calls", 50_000, 2..=99),
        ("100 to 999 calls", 1_000, 100..=999),
        ("1,000 or more calls", 100, 1_000..=u32::MAX),
    ]
    .map(of_counts)
}

/// Are a buffer and a load of these lengths meant?
type Sizes = fn(usize, usize) -> bool;

fn room_kinds() -> [Kind<Draw>; 8] {
    let rooms: [(&str, u64, Sizes); 8] = [
        ("no buffer", 28, |room, _| room == 0),
        ("less than a heading", 28, |room, _| (1..8).contains(&room)),
        ("one byte short", 28, |room, length| room + 1 == length),
        ("a heading, no more", 28, |room, _| room == 8),
        ("many bytes short", 28, |room, length| room + 10 < length),
        ("an exact buffer", 0, |room, length| room == length),
        ("one byte longer", 0, |room, length| room == length + 1),
        ("100 or more longer", 0, |room, length| room >= length + 100),
    ];
    rooms.map(|(name, number, is_met)| {
        let name = format!("{name}: number {number}");
        kind(name, 100, move |draw: &Draw| {
            draw.number == number && is_met(draw.room, draw.length)
        })
    })
}

/// Is such a call meant?
type OneOf = fn(Call) -> bool;

fn call_kinds() -> Vec<Kind<Call>> {
    let kinds: [(&str, OneOf); 6] = [
        ("read", |call| matches!(call, Call::Read { .. })),
        ("write", |call| matches!(call, Call::Write { .. })),
        ("input", |call| matches!(call, Call::Input { .. })),
        ("advance", |call| matches!(call, Call::Advance { .. })),
        ("trigger", |call| call == Call::Trigger),
        ("reset", |call| call == Call::Reset),
    ];
    let of_call = |(name, is_met): (&str, OneOf)| kind(name, 50, move |call: &Call| is_met(*call));
    kinds.into_iter().chain(ARGUMENTS).map(of_call).collect()
}

/// The ends of the arguments; those that are drawn too seldom are among the fields worked by hand.
#[rustfmt::skip]
const ARGUMENTS: [(&str, OneOf); 10] = [
    ("read 00H", |call| matches!(call, Call::Read { offset: 0, .. })),
    ("read FCH", |call| matches!(call, Call::Read { offset: 0xFC, .. })),
    ("write 00H", |call| matches!(call, Call::Write { offset: 0, .. })),
    ("write FCH", |call| matches!(call, Call::Write { offset: 0xFC, .. })),
    ("write 8000H or more", |call| matches!(call, Call::Write { value: 0x8000.., .. })),
    ("input channel 31", |call| matches!(call, Call::Input { channel: 31, .. })),
    ("input below 0", |call| matches!(call, Call::Input { microvolts: ..=-1, .. })),
    ("input above 0", |call| matches!(call, Call::Input { microvolts: 1.., .. })),
    ("advance 0", |call| call == Call::Advance { ticks: 0 }),
    ("advance 4095", |call| call == Call::Advance { ticks: 4_095 }),
];

// Loads typed in.

const PROGRAMS: [(&str, Loader); 2] = [
    ("the archive", archive::load),
    ("the independent program", load),
];

/// The x of seed 1, step by step, and the first x of the usual seed, typed in.
#[test]
fn steps_of_the_manuals() {
    let of_seed_1 = [
        270_369,
        67_634_689,
        2_647_435_461,
        307_599_695,
        2_398_689_233,
        745_495_504,
        632_435_482,
        435_756_210,
    ];
    let mut x = 1;
    for expected in of_seed_1 {
        x = step(x);
        assert_eq!(x, expected);
    }
    assert_eq!(step(2_463_534_242), 723_471_715);
}

/// Seed 1, range 1, 8 calls: 54 bytes, typed in.
const CALLS_OF_SEED_1: &str = "read 16 10H; read 16 00H; advance 1304; reset
    read 16 E8H; read 16 E8H; read 16 8CH; read 16 58H";

/// The same in bytes.
#[rustfmt::skip]
const BYTES_OF_SEED_1: [u8; 54] = [
    0x00, 0x05, 0x00, 0x41, 0x33, 0x33, 0x30, 0x01,
    0x01, 0x03, 0x00, 0x10, 0x10, 0x00,
    0x01, 0x03, 0x00, 0x10, 0x00, 0x00,
    0x04, 0x04, 0x00, 0x18, 0x05, 0x00, 0x00,
    0x06, 0x00, 0x00,
    0x01, 0x03, 0x00, 0x10, 0xE8, 0x00,
    0x01, 0x03, 0x00, 0x10, 0xE8, 0x00,
    0x01, 0x03, 0x00, 0x10, 0x8C, 0x00,
    0x01, 0x03, 0x00, 0x10, 0x58, 0x00,
];

#[test]
fn the_load_of_the_manuals() {
    for (name, load) in PROGRAMS {
        let mut buffer = [0xA5; 60];
        let answer = load(1, 1, 8, &mut buffer);
        let whole = Answer {
            number: 0,
            value: 54,
        };
        assert_eq!(answer, whole, "{name}");
        assert_eq!(buffer[..54], BYTES_OF_SEED_1, "{name}");
        assert_eq!(buffer[54..], [0xA5; 6], "{name}");
        let typed = script::fields(CALLS_OF_SEED_1);
        assert_eq!(fields_of(&buffer[..54]), Ok((1, typed)), "{name}");
    }
}

/// An x, and the field of its call, worked by hand: the ends of each modulus, and the greatest x of each kind.
#[rustfmt::skip]
const FIELDS: [(u32, &[u8]); 28] = [
    // Reads of 04H, 00H, 00H; q = 63, 64 and 536,870,911.
    (8, &[0x01, 0x03, 0x00, 0x10, 0x04, 0x00]),
    (1, &[0x01, 0x03, 0x00, 0x10, 0x00, 0x00]),
    (2, &[0x01, 0x03, 0x00, 0x10, 0x00, 0x00]),
    (504, &[0x01, 0x03, 0x00, 0x10, 0xFC, 0x00]),
    (514, &[0x01, 0x03, 0x00, 0x10, 0x00, 0x00]),
    (0xFFFF_FFFA, &[0x01, 0x03, 0x00, 0x10, 0xFC, 0x00]),
    // The first x of seed 2463534242: q = 90,433,964 is 1379 * 65536 + 59820, and 1413030 * 64 + 44.
    (723_471_715, &[0x02, 0x07, 0x00, 0x10, 0xB0, 0x00, 0xAC, 0xE9, 0x00, 0x00]),
    // Writes with q = 0, 65,535, 65,536, 65,537 and 536,870,911.
    (3, &[0x02, 0x07, 0x00, 0x10, 0x00, 0x00, 0x00, 0x00, 0x00, 0x00]),
    (524_283, &[0x02, 0x07, 0x00, 0x10, 0xFC, 0x00, 0xFF, 0xFF, 0x00, 0x00]),
    (524_291, &[0x02, 0x07, 0x00, 0x10, 0x00, 0x00, 0x00, 0x00, 0x00, 0x00]),
    (524_299, &[0x02, 0x07, 0x00, 0x10, 0x04, 0x00, 0x01, 0x00, 0x00, 0x00]),
    (0xFFFF_FFFB, &[0x02, 0x07, 0x00, 0x10, 0xFC, 0x00, 0xFF, 0xFF, 0x00, 0x00]),
    // Inputs with q = 0, 9,999,999, 10,000,000, 10,000,001, 20,000,000 and 20,000,001: channels 0, 31, 0, 1, 0 and 1.
    (4, &[0x03, 0x05, 0x00, 0x00, 0x80, 0x69, 0x67, 0xFF]),
    (79_999_996, &[0x03, 0x05, 0x00, 0x1F, 0xFF, 0xFF, 0xFF, 0xFF]),
    (80_000_004, &[0x03, 0x05, 0x00, 0x00, 0x00, 0x00, 0x00, 0x00]),
    (80_000_012, &[0x03, 0x05, 0x00, 0x01, 0x01, 0x00, 0x00, 0x00]),
    (160_000_004, &[0x03, 0x05, 0x00, 0x00, 0x80, 0x96, 0x98, 0x00]),
    (160_000_012, &[0x03, 0x05, 0x00, 0x01, 0x80, 0x69, 0x67, 0xFF]),
    // q = 536,870,911 is 26 * 20,000,001 + 16,870,885, so 6,870,885 uV at channel 31.
    (0xFFFF_FFFC, &[0x03, 0x05, 0x00, 0x1F, 0x65, 0xD7, 0x68, 0x00]),
    // Advances with q = 0, 4,095, 4,096, 4,097 and 536,870,911.
    (5, &[0x04, 0x04, 0x00, 0x00, 0x00, 0x00, 0x00]),
    (32_765, &[0x04, 0x04, 0x00, 0xFF, 0x0F, 0x00, 0x00]),
    (32_773, &[0x04, 0x04, 0x00, 0x00, 0x00, 0x00, 0x00]),
    (32_781, &[0x04, 0x04, 0x00, 0x01, 0x00, 0x00, 0x00]),
    (0xFFFF_FFFD, &[0x04, 0x04, 0x00, 0xFF, 0x0F, 0x00, 0x00]),
    (6, &[0x05, 0x00, 0x00]),
    (0xFFFF_FFFE, &[0x05, 0x00, 0x00]),
    (7, &[0x06, 0x00, 0x00]),
    (0xFFFF_FFFF, &[0x06, 0x00, 0x00]),
];

/// The seed from which the first step comes to x: the three xors undone, the last one first.
fn seed_before(x: u32) -> u32 {
    let x = undone(x, |y| y << 5);
    let x = undone(x, |y| y >> 17);
    undone(x, |y| y << 13)
}

/// The y that gives x when it is xored with itself shifted: each round makes at least one bit more right.
fn undone(x: u32, shifted: fn(u32) -> u32) -> u32 {
    (0..32).fold(x, |y, _| x ^ shifted(y))
}

#[test]
fn fields_worked_by_hand() {
    for (x, field) in FIELDS {
        let seed = seed_before(x);
        assert_eq!(step(seed), x);
        check_first_field(seed, field);
    }
    // Seed FFFFFFFFH gives x = 0003E01FH, a reset.
    check_first_field(u32::MAX, &[0x06, 0x00, 0x00]);
}

/// The load of one call, of range 2: the heading, and the call's field.
fn check_first_field(seed: u32, field: &[u8]) {
    for (name, load) in PROGRAMS {
        let mut buffer = vec![0xA5; 8 + field.len()];
        let answer = load(seed, 2, 1, &mut buffer);
        let value = buffer.len() as u64;
        assert_eq!(answer, Answer { number: 0, value }, "{name}: seed {seed}");
        let heading = [0, 5, 0, b'A', b'3', b'3', b'0', 2];
        assert_eq!(buffer, [&heading, field].concat(), "{name}: seed {seed}");
    }
}

/// Each check at the first value that is refused and the last that is not, and in order: seed, range, calls,
/// bytes of the buffer, number, length. Seed 1 as above; FFFFFFFFH gives x = 0003E01FH, a reset.
#[rustfmt::skip]
const CHECKS: [(u32, u32, u32, usize, u64, u64); 42] = [
    (0, 0, 0, 8, 27, 0),
    (0, 3, 8, 100, 27, 0),
    (1, 0, 8, 54, 0, 54),
    (u32::MAX, 1, 1, 11, 0, 11),
    (u32::MAX, 1, 1, 10, 28, 0),
    // Ranges.
    (1, 3, 8, 54, 0, 54),
    (1, 4, 8, 54, 14, 0),
    (1, 255, 8, 54, 14, 0),
    (1, 256, 8, 54, 14, 0),
    (1, 0x8000_0000, 8, 54, 14, 0),
    (1, u32::MAX, 8, 54, 14, 0),
    // No call: the heading alone.
    (1, 0, 0, 0, 28, 0),
    (1, 0, 0, 7, 28, 0),
    (1, 0, 0, 8, 0, 8),
    (1, 0, 0, 9, 0, 8),
    (u32::MAX, 3, 0, 7, 28, 0),
    (u32::MAX, 3, 0, 8, 0, 8),
    // One call and more: one byte short, exact, longer.
    (1, 2, 1, 13, 28, 0),
    (1, 2, 1, 14, 0, 14),
    (1, 2, 1, 15, 0, 14),
    (1, 2, 2, 19, 28, 0),
    (1, 2, 2, 20, 0, 20),
    (1, 2, 3, 26, 28, 0),
    (1, 2, 3, 27, 0, 27),
    (1, 2, 4, 29, 28, 0),
    (1, 2, 4, 30, 0, 30),
    (1, 2, 8, 53, 28, 0),
    (1, 2, 8, 54, 0, 54),
    (1, 2, 8, 55, 0, 54),
    (1, 2, 8, 500, 0, 54),
    (1, 2, 8, 0, 28, 0),
    (1, 2, 8, 8, 28, 0),
    // More than one is not passed.
    (0, 4, 8, 54, 27, 0),
    (0, 3, 8, 10, 27, 0),
    (0, 4, 8, 10, 27, 0),
    (0, u32::MAX, 8, 0, 27, 0),
    (1, 4, 8, 53, 14, 0),
    (1, 4, 0, 0, 14, 0),
    // As many calls as can be said.
    (1, 0, u32::MAX, 100, 28, 0),
    (0, 0, u32::MAX, 100, 27, 0),
    (1, 4, u32::MAX, 100, 14, 0),
    (1, 0, u32::MAX, 0, 28, 0),
];

#[test]
fn checks_in_order() {
    let mut random = Random::new(27);
    for (seed, range, calls, room, number, value) in CHECKS {
        let stated = Stated { seed, range, calls };
        let lent = drawn_buffer(&mut random, room);
        check_answer(&stated, &lent, Answer { number, value });
        compare("checks", &stated, &lent);
    }
}

/// Both programs give the answer, and leave what must stay: all before the buffer, and all past the trace, which has
/// no byte if it is refused.
fn check_answer(stated: &Stated, lent: &Lent<u8>, answer: Answer) {
    for (name, load) in PROGRAMS {
        let made = made_by(load, stated, lent);
        let case = format!("{name}: {stated:?}, {} bytes", lent.part.len());
        assert_eq!(made.answer, answer, "{case}");
        let (before, past) = (lent.part.start, lent.part.start + answer.value as usize);
        assert!(made.buffer[..before] == lent.buffer[..before], "{case}");
        assert!(made.buffer[past..] == lent.buffer[past..], "{case}");
    }
}

// Long loads.

/// The most calls of a seed whose load has at most so many bytes, and how many it has.
fn longest(seed: u32, most: usize) -> (u32, usize) {
    // The kind of a call, and with it the length of its field, is x modulo 8.
    let lengths = [0, 1, 2, 3, 4, 5, 6, 7].map(|x| field_of(&call_of(x)).len());
    let (mut x, mut calls, mut length) = (step(seed), 0, 8);
    while length + lengths[x as usize % 8] <= most {
        length += lengths[x as usize % 8];
        calls += 1;
        x = step(x);
    }
    (calls, length)
}

/// A load of exactly so many bytes: about one seed in six has one.
fn load_of_length(length: usize) -> Stated {
    let of_seed = |seed| {
        let (calls, found) = longest(seed, length);
        let range = 3;
        (found == length).then_some(Stated { seed, range, calls })
    };
    (1..).find_map(of_seed).expect("a seed that has one")
}

const TOO_LONG: Answer = Answer {
    number: 28,
    value: 0,
};

/// Longer than 18's length, so that this is what refuses a load.
fn long_buffer() -> Lent<u8> {
    drawn_buffer(&mut Random::new(18), LONGEST_TRACE + 64)
}

/// Seeds, and the most calls of a load that is accepted; docs/MEASUREMENTS.md names them, the data sheet the first.
const LONGEST_LOADS: [(u32, u32); 4] = [
    (1, 2_739_575),
    (330, 2_739_310),
    (2_463_534_242, 2_739_649),
    (u32::MAX, 2_739_138),
];

#[test]
fn the_longest_load_and_the_next() {
    let lent = long_buffer();
    for (seed, most) in LONGEST_LOADS {
        let (calls, length) = longest(seed, LONGEST_TRACE);
        assert_eq!(calls, most, "seed {seed}");
        let range = seed % 4;
        let made = compare("the longest", &Stated { seed, range, calls }, &lent);
        println!("seed {seed}: {calls} calls, {length} bytes; with one more refused");
        let value = length as u64;
        assert_eq!(made.answer, Answer { number: 0, value });
        let calls = calls + 1;
        let made = compare("the next", &Stated { seed, range, calls }, &lent);
        assert_eq!(made.answer, TOO_LONG);
    }
}

/// 16,777,216 bytes are within 18's length; one byte more is not.
#[test]
fn loads_of_18s_length_and_one_byte_more() {
    let lent = long_buffer();
    let longer = load_of_length(16_777_217);
    assert_eq!(compare("longer", &longer, &lent).answer, TOO_LONG);
    let whole = load_of_length(16_777_216);
    println!("16,777,216 bytes: {whole:?}; one more: {longer:?}");
    // As docs/MEASUREMENTS.md has them.
    assert_eq!((whole.seed, whole.calls), (14, 2_739_164));
    assert_eq!((longer.seed, longer.calls), (5, 2_738_821));
    let made = compare("whole", &whole, &lent);
    let value = 16_777_216;
    assert_eq!(made.answer, Answer { number: 0, value });
    let mut random = Random::new(28);
    let [short, exact] = [16_777_215, 16_777_216].map(|room| drawn_buffer(&mut random, room));
    assert_eq!(compare("short", &whole, &short).answer, TOO_LONG);
    let made = compare("exact", &whole, &exact);
    assert_eq!(made.answer, Answer { number: 0, value });
}

/// Far more calls than 18's length holds. 702,526,000 calls have some 8,000,000 bytes more than 32 bits count.
#[test]
fn numbers_of_calls_beyond_every_trace() {
    let lent = long_buffer();
    for calls in [5_592_403, 16_777_216, 702_526_000, 1 << 31, u32::MAX] {
        let stated = Stated {
            seed: 1,
            range: 0,
            calls,
        };
        assert_eq!(compare("many calls", &stated, &lent).answer, TOO_LONG);
    }
}

// The archive's loads, read back and played.

const LOADS: u32 = 3_000;

/// The archive's load, in a buffer of exactly its length.
fn archive_load(stated: &Stated) -> Vec<u8> {
    let mut trace = vec![0xA5; length_of(stated)];
    let Stated { seed, range, calls } = *stated;
    let answer = archive::load(seed, range, calls, &mut trace);
    let value = trace.len() as u64;
    assert_eq!(answer, Answer { number: 0, value }, "{stated:?}");
    trace
}

fn any_good(random: &mut Random) -> Stated {
    Stated {
        seed: 1 + random.below(u32::MAX),
        range: random.below(4),
        calls: random.below(400),
    }
}

#[test]
fn loads_read_back_are_the_stated_calls() {
    let seed = seed_or(330);
    let mut random = Random::new(seed);
    for _ in 0..LOADS {
        check_read_back(&any_good(&mut random));
    }
}

/// The archive's bytes, read by the independent program, are the range and the stated calls.
fn check_read_back(stated: &Stated) {
    let read_back = fields_of(&archive_load(stated));
    let (range, fields) = read_back.unwrap_or_else(|number| panic!("{stated:?}: {number}"));
    let (expected, calls) = (stated.range, stated.calls as usize);
    assert_eq!((range, fields.len()), (expected, calls), "{stated:?}");
    for (index, (field, call)) in fields.iter().zip(list_of(stated)).enumerate() {
        assert_eq!(*field, Field::Call(call), "{stated:?}, call {}", index + 1);
    }
}

/// The player takes it with 5 answer bytes per call and with more, and not with one fewer. The answers are those of the
/// other player, and those of the same calls made one by one. Gives them.
fn check_played(stated: &Stated, trace: &[u8]) -> Vec<u8> {
    let calls = stated.calls as usize;
    let [mut answers, mut expected] = [0xA5, 0x5A].map(|filling| vec![filling; 5 * calls]);
    if let Some((_, short)) = answers.split_first_mut() {
        assert_eq!(archive::play(trace, short), 20, "{stated:?}");
        assert!(short.iter().all(|byte| *byte == 0xA5), "{stated:?}");
    }
    let result = archive::play(trace, &mut answers);
    assert_eq!(result, 256 * calls as u64, "{stated:?}");
    assert_eq!(trace::play(trace, &mut expected), result, "{stated:?}");
    assert!(answers == expected, "{stated:?}: answers differ");
    let mut longer = vec![0xA5; 5 * calls + 7];
    assert_eq!(archive::play(trace, &mut longer), result, "{stated:?}");
    assert!(longer == [&answers[..], &[0xA5; 7]].concat(), "{stated:?}");
    let stepped = answers_by_functions(stated.range, &list_of(stated));
    assert!(answers == stepped, "{stated:?}: stepped, answers differ");
    answers
}

#[test]
fn drawn_loads_are_played() {
    let seed = seed_or(20);
    let mut random = Random::new(seed);
    let mut coverage = Coverage::new(answer_kinds(&[0, 3, 5, 7, 8], 100));
    for _ in 0..LOADS {
        let stated = any_good(&mut random);
        let answers = check_played(&stated, &archive_load(&stated));
        note(&answers, &mut coverage);
    }
    println!(
        "{LOADS} loads drawn from seed {seed} are played; their answers\n{}",
        coverage.table()
    );
    coverage.assert_all_met();
}

/// The load by which machines are compared, with the digests that docs/MEASUREMENTS.md has.
#[test]
fn the_load_to_compare_machines_by() {
    let stated = Stated {
        seed: 1,
        range: 1,
        calls: 2_000_000,
    };
    let trace = archive_load(&stated);
    assert!(is_load_of(1, &trace));
    assert_eq!(trace.len(), 12_249_503);
    assert_eq!(fnv_1a(&trace), 0xD779_33D9_AF89_000D);
    let answers = check_played(&stated, &trace);
    assert_eq!(fnv_1a(&answers), 0x291C_1A64_729C_39E5);
}

/// What the benchmark asks of a file.
#[test]
fn another_seed_or_another_byte_is_not_the_load() {
    let mut random = Random::new(seed_or(18));
    for _ in 0..LOADS {
        let mut stated = any_good(&mut random);
        stated.calls += 30;
        let mut trace = archive_load(&stated);
        assert!(is_load_of(stated.seed, &trace), "{stated:?}");
        assert!(!is_load_of(stated.seed ^ 1, &trace), "{stated:?}");
        let place = 8 + random.below(trace.len() as u32 - 8) as usize;
        trace[place] ^= 1 << random.below(8);
        assert!(!is_load_of(stated.seed, &trace), "{stated:?}, {place}");
    }
}

/// The header's room for a load: 8 bytes, and for each call as many as the longest field has.
#[test]
fn the_headers_room_is_that_of_the_longest_fields() {
    let lengths = [0, 1, 2, 3, 4, 5, 6, 7].map(|x| field_of(&call_of(x)).len());
    let longest = lengths.into_iter().max().expect("eight lengths");
    for calls in [0, 1, 2, 1_000, 2_739_649, u32::MAX] {
        assert_eq!(archive::load_bytes_max(calls), 8 + longest * calls as usize);
    }
}

/// The longest one. Starts are seldom accepted in a load, and one call in eight is a reset: 6 and 10 are rare.
#[test]
fn a_load_of_18s_length_is_played() {
    let stated = load_of_length(LONGEST_TRACE);
    let mut coverage = Coverage::new(answer_kinds(&[0, 3, 5, 6, 7, 8, 10], 1));
    let answers = check_played(&stated, &archive_load(&stated));
    note(&answers, &mut coverage);
    println!("{stated:?} is played; its answers\n{}", coverage.table());
    coverage.assert_all_met();
}

fn note(answers: &[u8], coverage: &mut Coverage<Answer>) {
    let answers = answers.chunks_exact(5).map(answer_of_bytes);
    answers.for_each(|answer| coverage.note(&answer));
}

fn answer_kinds(numbers: &[u64], least: u64) -> Vec<Kind<Answer>> {
    let of_number = |number: &u64| {
        let number = *number;
        kind(format!("number {number}"), least, move |answer: &Answer| {
            answer.number == number
        })
    };
    let mut kinds: Vec<Kind<Answer>> = numbers.iter().map(of_number).collect();
    let is_other = |answer: &Answer| answer.value != 0;
    kinds.push(kind("another value than 0", least, is_other));
    kinds
}
