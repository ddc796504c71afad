//! The archive's sums over a window against those of the independent program.

use checker::archive;
use checker::archive::lent::{lent, Lent};
use checker::board::analog::Answer;
use checker::board::window::{added_anew, plain, Window, LENGTHS};
use checker::draw::random::{seed_or, Random};
use checker::judge::coverage::{kind, Coverage, Kind};
use std::ops::Range;

const DRAWS: u32 = 150_000;

/// Refused lengths above 40: those that a remainder, a multiple, a narrower number or a sign would
/// let pass.
const GREAT_LENGTHS: [u32; 12] = [
    64,
    80,
    128,
    256,
    256 + 8,
    65_536 + 16,
    (1 << 24) + 32,
    1 << 31,
    (1 << 31) + 32,
    u32::MAX - 31,
    u32::MAX - 7,
    u32::MAX,
];

#[derive(Clone, Copy, Debug, PartialEq)]
enum Shape {
    AllFfffh,
    AllZero,
    Drawn,
    Ramp,
    Spike,
}

const SHAPES: [(&str, Shape); 5] = [
    ("all codes FFFFH", Shape::AllFfffh),
    ("all codes 0", Shape::AllZero),
    ("random codes", Shape::Drawn),
    ("a ramp", Shape::Ramp),
    ("one spike in zeros", Shape::Spike),
];

/// A drawn call, with what the independent program makes of it.
struct Draw {
    length: u32,
    shape: Shape,
    codes: Lent<u16>,
    output: Lent<u32>,
    expected: Made,
}

/// What a call made: its answer, and the buffer that the output is a part of.
struct Made {
    answer: Answer,
    buffer: Vec<u32>,
}

fn made_by(window: Window, length: u32, codes: &Lent<u16>, output: &Lent<u32>) -> Made {
    let mut buffer = output.buffer.clone();
    let codes = &codes.buffer[codes.part.clone()];
    let answer = window(length, codes, &mut buffer[output.part.clone()]);
    Made { answer, buffer }
}

#[test]
fn the_archive_sums_as_the_independent_program_does() {
    let seed = seed_or(21);
    let coverage = compared_on_draws(seed, "the archive", archive::window);
    println!("{DRAWS} runs drawn from seed {seed}\n{}", coverage.table());
    coverage.assert_all_met();
    let accepted = coverage.count("number 0");
    assert!(2 * accepted > u64::from(DRAWS), "most runs are accepted");
}

/// The benchmark measures the archive by it.
#[test]
fn the_plain_loop_sums_as_the_independent_program_does() {
    compared_on_draws(seed_or(21), "the plain loop", plain);
}

fn compared_on_draws(seed: u64, name: &str, window: Window) -> Coverage<Draw> {
    let mut random = Random::new(seed);
    let mut coverage = Coverage::new(all_kinds());
    for index in 0..DRAWS {
        let draw = any_draw(&mut random);
        let made = made_by(window, draw.length, &draw.codes, &draw.output);
        if let Some(difference) = difference(&draw, &made) {
            panic!("seed {seed}, draw {index}, {name}: {difference}");
        }
        coverage.note(&draw);
    }
    coverage
}

/// The first difference from what is expected, in the answer or anywhere in the larger buffer.
fn difference(draw: &Draw, made: &Made) -> Option<String> {
    let call = || {
        let (codes, places) = (draw.codes.part.len(), draw.output.part.len());
        format!(
            "length {}, {codes} codes ({:?}), {places} places",
            draw.length, draw.shape
        )
    };
    let (answer, expected) = (made.answer, draw.expected.answer);
    if answer != expected {
        return Some(format!("{}: {answer:?}, expected {expected:?}", call()));
    }
    let mut pairs = made.buffer.iter().zip(&draw.expected.buffer);
    let place = pairs.position(|(found, expected)| found != expected)?;
    Some(format!(
        "{}: place {} of the output holds {}, expected {}",
        call(),
        place as i64 - draw.output.part.start as i64,
        made.buffer[place],
        draw.expected.buffer[place]
    ))
}

// Cases worked by hand.

/// Length, codes, sums, count.
type Worked = (u32, &'static [u16], &'static [u32], u64);

#[rustfmt::skip]
const WORKED: [Worked; 9] = [
    (8, &[], &[], 0),
    (32, &[65_535], &[65_535], 1),
    (8, &[1, 2, 3, 4, 5, 6, 7], &[1, 3, 6, 10, 15, 21, 28], 7),
    (8, &[1, 2, 3, 4, 5, 6, 7, 8], &[1, 3, 6, 10, 15, 21, 28, 36], 8),
    // 2 to 9 are 44, 3 to 10 are 52.
    (8, &[1, 2, 3, 4, 5, 6, 7, 8, 9, 10], &[1, 3, 6, 10, 15, 21, 28, 36, 44, 52], 8),
    (16, &[1, 2, 3, 4, 5, 6, 7, 8, 9, 10], &[1, 3, 6, 10, 15, 21, 28, 36, 45, 55], 10),
    // One high code is in eight sums and then gone.
    (
        8,
        &[0, 65_535, 0, 0, 0, 0, 0, 0, 0, 0],
        &[0, 65_535, 65_535, 65_535, 65_535, 65_535, 65_535, 65_535, 65_535, 0],
        8,
    ),
    // 2 to 17 are 152, 3 to 18 are 168.
    (
        16,
        &[1, 2, 3, 4, 5, 6, 7, 8, 9, 10, 11, 12, 13, 14, 15, 16, 17, 18],
        &[1, 3, 6, 10, 15, 21, 28, 36, 45, 55, 66, 78, 91, 105, 120, 136, 152, 168],
        16,
    ),
    // Down from 34: 34 to 3 are 592, 33 to 2 are 560, 32 to 1 are 528.
    (
        32,
        &[
            34, 33, 32, 31, 30, 29, 28, 27, 26, 25, 24, 23, 22, 21, 20, 19, 18,
            17, 16, 15, 14, 13, 12, 11, 10, 9, 8, 7, 6, 5, 4, 3, 2, 1,
        ],
        &[
            34, 67, 99, 130, 160, 189, 217, 244, 270, 295, 319, 342, 364, 385, 405, 424, 442,
            459, 475, 490, 504, 517, 529, 540, 550, 559, 567, 574, 580, 585, 589, 592, 560, 528,
        ],
        32,
    ),
];

const PROGRAMS: [(&str, Window); 3] = [
    ("the archive", archive::window),
    ("the independent program", added_anew),
    ("the plain loop", plain),
];

#[test]
fn cases_worked_by_hand() {
    for (length, codes, sums, value) in WORKED {
        for (name, window) in PROGRAMS {
            let mut output = vec![0; codes.len()];
            let answer = window(length, codes, &mut output);
            let case = format!("{name}: length {length}, {codes:?}");
            assert_eq!(answer, Answer { number: 0, value }, "{case}");
            assert_eq!(output, sums, "{case}");
        }
    }
}

/// Each check at the first value that is refused and the last that is not, and in order: length,
/// codes, places, number, value.
const CHECKS: [(u32, usize, usize, u64, u64); 20] = [
    (8, 0, 0, 0, 0),
    (8, 5, 5, 0, 5),
    (16, 16, 16, 0, 16),
    (32, 33, 33, 0, 32),
    (32, 33, 34, 0, 32),
    (8, 1, 0, 20, 0),
    (16, 16, 15, 20, 0),
    (32, 33, 32, 20, 0),
    (0, 5, 5, 21, 0),
    (7, 5, 5, 21, 0),
    (9, 5, 5, 21, 0),
    (15, 5, 5, 21, 0),
    (17, 5, 5, 21, 0),
    (24, 5, 5, 21, 0),
    (31, 5, 5, 21, 0),
    (33, 5, 5, 21, 0),
    (64, 5, 5, 21, 0),
    // Also without a code to sum, and before 20.
    (0, 0, 0, 21, 0),
    (64, 5, 4, 21, 0),
    (u32::MAX, 1, 0, 21, 0),
];

#[test]
fn checks_in_order() {
    for (length, codes, places, number, value) in CHECKS {
        for (name, window) in PROGRAMS {
            let mut output = vec![77; places];
            let answer = window(length, &vec![1; codes], &mut output);
            let case = format!("{name}: length {length}, {codes} codes, {places} places");
            assert_eq!(answer, Answer { number, value }, "{case}");
            let is_kept = output.iter().all(|sum| *sum == 77);
            assert!(is_kept || number == 0, "{case}: a refusal wrote");
        }
    }
}

/// The manuals' programming examples: the code of a calibration run, and the sum of its 32 codes.
const CALIBRATIONS: [(u16, u32); 4] = [
    (32_768, 1_048_576),
    (48_824, 1_562_368),
    (32_112, 1_027_584),
    (64_225, 2_055_200),
];

#[test]
fn a_calibration_run_ends_in_the_sums_of_the_manuals() {
    for (code, sum) in CALIBRATIONS {
        for (name, window) in PROGRAMS {
            let mut output = [0; 32];
            let answer = window(32, &[code; 32], &mut output);
            let full = Answer {
                number: 0,
                value: 32,
            };
            assert_eq!((answer, output[31]), (full, sum), "{name}: code {code}");
        }
    }
}

// Long runs.

/// The sum of a full window of FFFFH, for each length.
const FULL_OF_FFFFH: [(u32, u32); 3] = [(8, 524_280), (16, 1_048_560), (32, 2_097_120)];

#[test]
fn a_million_codes_of_ffffh() {
    let codes = vec![0xFFFF; 1_000_000];
    for (length, sum) in FULL_OF_FFFFH {
        for (name, window) in PROGRAMS {
            let mut output = vec![5; 1_000_001];
            let answer = window(length, &codes, &mut output);
            let value = length.into();
            assert_eq!(answer, Answer { number: 0, value }, "{name}");
            check_ffffh(&format!("{name}, length {length}"), length, sum, &output);
        }
    }
}

/// The sums rise by 65535 while the window fills, and then stay; the one place past the run holds 5.
fn check_ffffh(name: &str, length: u32, sum: u32, output: &[u32]) {
    let (filling, full) = output.split_at(length as usize);
    let rising = (1..=length).map(|held| 65_535 * held);
    assert!(rising.eq(filling.iter().copied()), "{name}: while it fills");
    let (past, full) = full.split_last().expect("a place past the run");
    assert!(
        full.iter().all(|found| *found == sum),
        "{name}: once it is full"
    );
    assert_eq!(*past, 5, "{name}: past the run");
}

/// To go on after a run, put in front of the next one the length - 1 codes that came before it, or all where there were
/// fewer, and pass over their sums: the header says so.
#[test]
fn a_run_in_two_parts() {
    let seed = seed_or(2);
    let mut random = Random::new(seed);
    let codes = codes_of(&mut random, Shape::Drawn, 300);
    for length in LENGTHS {
        let mut whole = [0; 300];
        archive::window(length, &codes, &mut whole);
        for end in 0..=300 {
            let in_front = end.min(length as usize - 1);
            let next = &codes[end - in_front..];
            let mut sums = vec![0; next.len()];
            archive::window(length, next, &mut sums);
            let name = format!("seed {seed}, length {length}, a run of {end} and the next");
            assert!(sums[in_front..] == whole[end..], "{name}");
        }
    }
}

// What is drawn.

fn any_draw(random: &mut Random) -> Draw {
    let length = any_length(random);
    let count = any_count(random, length);
    let (_, shape) = random.pick(&SHAPES);
    let codes = codes_of(random, shape, count);
    let codes = lent(random, &codes, |bits| bits as u16);
    let places = any_places(random, count);
    let output: Vec<u32> = (0..places).map(|_| random.bits() as u32).collect();
    let output = lent(random, &output, |bits| bits as u32);
    let expected = made_by(added_anew, length, &codes, &output);
    Draw {
        length,
        shape,
        codes,
        output,
        expected,
    }
}

fn any_length(random: &mut Random) -> u32 {
    match random.below(20) {
        0..=15 => random.pick(&LENGTHS),
        16 | 17 => random.below(41),
        18 => random.pick(&GREAT_LENGTHS),
        // A good length with one bit flipped.
        _ => random.pick(&LENGTHS) ^ 1 << random.below(32),
    }
}

/// How many codes a run has. Beside a refused length as if it were one of the three.
fn any_count(random: &mut Random, length: u32) -> u32 {
    let full = if LENGTHS.contains(&length) {
        length
    } else {
        random.pick(&LENGTHS)
    };
    match random.below(400) {
        0 => 2_000 + random.below(7_000),
        1..=12 => 100 + random.below(700),
        13..=32 => 0,
        33..=112 => 1 + random.below(full - 1),
        113..=152 => full,
        153..=192 => full + 1,
        _ => full + 2 + random.below(3 * full),
    }
}

fn codes_of(random: &mut Random, shape: Shape, count: u32) -> Vec<u16> {
    // A ramp ends at 65535 at most.
    let most = 65_535 / count.max(1);
    let (start, step) = (random.below(most + 1), 1 + random.below(most));
    let spike = random.below(count.max(1));
    let code = |place| match shape {
        Shape::AllFfffh => 0xFFFF,
        Shape::AllZero => 0,
        Shape::Drawn => random.bits() as u16,
        Shape::Ramp => (start + step * place) as u16,
        Shape::Spike if place == spike => 0xFFFF,
        Shape::Spike => 0,
    };
    (0..count).map(code).collect()
}

fn any_places(random: &mut Random, count: u32) -> u32 {
    match random.below(20) {
        0 => 0,
        1 => count.saturating_sub(1),
        2 => random.below(count + 1),
        3..=10 => count,
        11..=13 => count + 1,
        14..=16 => count + 2 + random.below(40),
        _ => count + 100 + random.below(400),
    }
}

// What must have been met.

fn all_kinds() -> Vec<Kind<Draw>> {
    let mut kinds = length_kinds();
    kinds.extend(LENGTHS.into_iter().flat_map(run_kinds));
    kinds.extend(LENGTHS.into_iter().flat_map(shape_kinds));
    kinds.extend(output_kinds());
    for number in [0, 20, 21] {
        let name = format!("number {number}");
        kinds.push(drawn_kind(name, 10_000, number, |_| true));
    }
    kinds
}

/// A kind of draw that is answered with this number.
fn drawn_kind(
    name: impl Into<String>,
    least: u64,
    number: u64,
    is_met: impl Fn(&Draw) -> bool + 'static,
) -> Kind<Draw> {
    kind(name, least, move |draw: &Draw| {
        draw.expected.answer.number == number && is_met(draw)
    })
}

/// Every length to 40 and the marked ones beyond, with outputs that are long enough, so that the length
/// decides.
fn length_kinds() -> Vec<Kind<Draw>> {
    let is_long_enough = |draw: &Draw| draw.output.part.len() >= draw.codes.part.len();
    let of_length = move |length| {
        let is_good = [8, 16, 32].contains(&length);
        let (least, number) = if is_good { (20_000, 0) } else { (150, 21) };
        let name = format!("length {length}: number {number}");
        drawn_kind(name, least, number, move |draw| {
            draw.length == length && is_long_enough(draw)
        })
    };
    let mut kinds: Vec<Kind<Draw>> = (0..=40).chain(GREAT_LENGTHS).map(of_length).collect();
    kinds.push(drawn_kind(
        "a length with one bit of 8, 16 or 32 flipped: number 21",
        2_000,
        21,
        |draw| {
            let flipped = |good: &u32| (good ^ draw.length).count_ones() == 1;
            LENGTHS.iter().any(flipped)
        },
    ));
    kinds
}

/// Accepted runs by how many codes they have.
fn run_kinds(length: u32) -> Vec<Kind<Draw>> {
    let full = length as usize;
    let runs = [
        ("an empty run", 500, 0..1),
        ("a run shorter than N", 5_000, 1..full),
        ("a run of N", 2_000, full..full + 1),
        ("a run of N + 1", 2_000, full + 1..full + 2),
        ("a run of some hundreds", 500, 200..1_000),
        ("a run of several thousand", 30, 2_000..10_000),
    ];
    let of_run = |(name, least, counts): (&str, u64, Range<usize>)| {
        drawn_kind(format!("N = {length}: {name}"), least, 0, move |draw| {
            draw.length == length && counts.contains(&draw.codes.part.len())
        })
    };
    runs.map(of_run).into()
}

/// Accepted runs by their codes, long enough that codes leave the window.
fn shape_kinds(length: u32) -> Vec<Kind<Draw>> {
    let of_shape = |(name, shape)| {
        let name = format!("N = {length}, more codes than N: {name}");
        drawn_kind(name, 2_000, 0, move |draw| {
            let is_longer = draw.codes.part.len() > length as usize;
            draw.length == length && draw.shape == shape && is_longer
        })
    };
    SHAPES.map(of_shape).into()
}

/// Are an output and a run of these lengths meant?
type Sizes = fn(usize, usize) -> bool;

fn output_kinds() -> Vec<Kind<Draw>> {
    let outputs: [(&str, u64, Sizes); 8] = [
        ("output and run empty", 0, |o, run| o == 0 && run == 0),
        ("output empty, run not", 20, |o, run| o == 0 && run > 0),
        ("output one short", 20, |o, run| o + 1 == run),
        ("output two or more short", 20, |o, run| o + 2 <= run),
        ("output exact", 0, |o, run| o == run),
        ("output one longer", 0, |o, run| o == run + 1),
        ("output 100 or more longer", 0, |o, run| o >= run + 100),
        ("bad length, output short", 21, |o, run| o < run),
    ];
    let of_output = |(name, number, is_met): (&str, u64, Sizes)| {
        let name = format!("{name}: number {number}");
        drawn_kind(name, 1_000, number, move |draw| {
            is_met(draw.output.part.len(), draw.codes.part.len())
        })
    };
    outputs.map(of_output).into()
}
