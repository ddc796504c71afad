//! The archive's code of a voltage against the independent one.

use checker::archive;
use checker::board::analog::{code, exact_code, least_voltage};
use checker::board::fraction::Fraction;
use checker::draw::random::{seed_or, Random};
use checker::judge::coverage::{kind, Coverage, Kind};

const DRAWS: u32 = 1_500_000;

/// Both ends of the type, both ends of an input and one beyond, and the voltages around 0.
const MARKED_VOLTAGES: [i32; 11] = [
    i32::MIN,
    i32::MAX,
    -35_000_001,
    -35_000_000,
    55_000_000,
    55_000_001,
    -10_000_000,
    10_000_000,
    0,
    -1,
    1,
];

/// A drawn call, with what the independent program says of it.
struct Draw {
    range: u32,
    gain: u32,
    microvolts: i32,
    exact: Fraction,
    code: u32,
}

#[test]
fn the_archive_codes_as_the_independent_program_does() {
    let seed = seed_or(16);
    let mut random = Random::new(seed);
    let mut coverage = Coverage::new(all_kinds());
    for index in 0..DRAWS {
        let draw = any_draw(&mut random);
        let archive = archive::code(draw.range, draw.gain, draw.microvolts);
        assert_eq!(
            archive, draw.code,
            "seed {seed}, draw {index}, range {}, gain {}, {} uV: \
             the archive (left) is not as expected (right)",
            draw.range, draw.gain, draw.microvolts
        );
        coverage.note(&draw);
    }
    println!("{DRAWS} codes drawn from seed {seed}\n{}", coverage.table());
    coverage.assert_all_met();
    let inside = coverage.count("strictly inside");
    assert!(2 * inside > u64::from(DRAWS), "most codes lie inside");
}

/// Every voltage at which a code begins, with one microvolt on each side. A code is never narrower
/// than 9 uV, so the next microvolt still has it.
#[test]
fn every_step_of_every_range_and_gain() {
    let mut steps = 0;
    for setting in 0..16 {
        let (range, gain) = (setting / 4, setting % 4);
        for expected in 1..=65_535 {
            let step = least_voltage(range, gain, expected);
            same_code(range, gain, step - 1, expected - 1);
            same_code(range, gain, step, expected);
            same_code(range, gain, step + 1, expected);
            steps += 1;
        }
    }
    println!("{steps:>9}  steps, each with one microvolt on both sides");
    assert_eq!(steps, 16 * 65_535);
}

fn same_code(range: u32, gain: u32, microvolts: i32, expected: u32) {
    let archive = archive::code(range, gain, microvolts);
    let independent = code(range, gain, microvolts);
    assert!(
        archive == expected && independent == expected,
        "range {range}, gain {gain}, {microvolts} uV: expected {expected}, \
         the archive says {archive}, the independent program {independent}"
    );
}

// What is drawn.

fn any_draw(random: &mut Random) -> Draw {
    let (range, gain) = (random.below(4), random.below(4));
    let microvolts = any_voltage(random, range, gain);
    Draw {
        range: same_remainder(random, range),
        gain: same_remainder(random, gain),
        microvolts,
        exact: exact_code(range, gain, microvolts),
        code: code(range, gain, microvolts),
    }
}

/// Of range and gain only the remainder by 4 counts: now and then a greater number stands for it.
fn same_remainder(random: &mut Random, field: u32) -> u32 {
    match random.below(20) {
        0 => field + 4,
        1 => u32::MAX - 3 + field,
        2 => field + 4 * random.below(1 << 30),
        _ => field,
    }
}

fn any_voltage(random: &mut Random, range: u32, gain: u32) -> i32 {
    let (bottom, top) = ends(range, gain);
    match random.below(20) {
        0..=12 => random.between(bottom, top) as i32,
        13 => random.between(-35_000_000, 55_000_000) as i32,
        14 => random.between(i64::from(i32::MIN), i64::from(i32::MAX)) as i32,
        15 => (bottom + random.between(-2, 2)) as i32,
        16 => (top + random.between(-2, 2)) as i32,
        // Codes that begin at a whole number of microvolts are multiples of 256 and more.
        17 => least_voltage(range, gain, 256 * random.below(256)),
        _ => random.pick(&MARKED_VOLTAGES),
    }
}

/// The voltages at which the code reaches 0 and 65536, before limiting.
fn ends(range: u32, gain: u32) -> (i64, i64) {
    let bottom = least_voltage(range, gain, 0);
    let top = least_voltage(range, gain, 65_536);
    (i64::from(bottom), i64::from(top))
}

// What must have been met.

fn all_kinds() -> Vec<Kind<Draw>> {
    let mut kinds = setting_kinds();
    for voltage in MARKED_VOLTAGES {
        kinds.push(kind(format!("{voltage} uV"), 2_000, move |draw: &Draw| {
            draw.microvolts == voltage
        }));
    }
    kinds.extend(limit_kinds());
    kinds
}

fn setting_kinds() -> Vec<Kind<Draw>> {
    let mut kinds = Vec::new();
    for range in 0..4 {
        for gain in 0..4 {
            let name = format!("range {range}, gain {gain}, inside");
            kinds.push(kind(name, 10_000, move |draw: &Draw| {
                draw.range == range && draw.gain == gain && is_inside(draw)
            }));
        }
    }
    kinds.push(kind("range above 3, inside", 10_000, |draw: &Draw| {
        draw.range > 3 && is_inside(draw)
    }));
    kinds.push(kind("gain above 3, inside", 10_000, |draw: &Draw| {
        draw.gain > 3 && is_inside(draw)
    }));
    kinds
}

fn limit_kinds() -> Vec<Kind<Draw>> {
    let minus_one = Fraction::new(-1, 1);
    let above = Fraction::new(65_536, 1);
    vec![
        kind("strictly inside", 10_000, is_inside),
        kind("exactly a whole code, inside", 10_000, |draw: &Draw| {
            draw.exact.is_whole() && is_inside(draw)
        }),
        kind("exactly 0", 2_000, |draw: &Draw| {
            draw.exact == Fraction::new(0, 1)
        }),
        kind("exactly 65536, limited", 2_000, move |draw: &Draw| {
            draw.exact == above
        }),
        kind(
            "less than one code below 0, limited",
            2_000,
            move |draw: &Draw| draw.exact.rounded_down() == -1 && draw.exact != minus_one,
        ),
        kind("in the last code", 2_000, |draw: &Draw| {
            draw.exact.rounded_down() == 65_535
        }),
        kind("limited at 0", 10_000, |draw: &Draw| {
            draw.exact.rounded_down() < 0
        }),
        kind("limited at 65535", 10_000, |draw: &Draw| {
            draw.exact.rounded_down() > 65_535
        }),
    ]
}

fn is_inside(draw: &Draw) -> bool {
    0 < draw.code && draw.code < 65_535
}
