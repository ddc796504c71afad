//! The archive's two-point correction against the independent one, on drawn inputs.

use checker::archive;
use checker::board::analog::{calibration_voltage, code, Answer, Correction, GREATEST_SUM};
use checker::board::fraction::Fraction;
use checker::draw::random::{seed_or, Random};
use checker::judge::coverage::{kind, Coverage, Kind};

const DRAWS: u32 = 2_500_000;
const CALIBRATIONS: [u32; 5] = [3, 4, 5, 6, 7];

/// A drawn call, with what the independent program says of it.
struct Draw {
    call: Correction,
    answer: Answer,
    /// The value before rounding; none if the call is refused.
    exact: Option<Fraction>,
}

#[test]
fn the_archive_corrects_as_the_independent_program_does() {
    let seed = seed_or(330);
    let mut random = Random::new(seed);
    let ideals = ideal_calibrations();
    let mut coverage = Coverage::new(all_kinds());
    let mut settings = Settings::new();
    for index in 0..DRAWS {
        let call = any_call(&mut random, &ideals);
        let draw = examined(call);
        let archive = archive::corrected(&call);
        assert_eq!(
            archive, draw.answer,
            "seed {seed}, draw {index}, {call:?}: the archive (left) is not as expected (right)"
        );
        coverage.note(&draw);
        settings.note(&call);
    }
    let table = coverage.table();
    println!("{DRAWS} corrections drawn from seed {seed}\n{table}");
    coverage.assert_all_met();
    settings.assert_all_met(1_000);
    let inside = coverage.count("strictly inside");
    let accepted = coverage.count("number 0");
    assert!(2 * inside > accepted, "most accepted answers lie inside");
}

fn examined(call: Correction) -> Draw {
    let answer = call.answer();
    let exact = (answer.number == 0).then(|| call.exact());
    Draw {
        call,
        answer,
        exact,
    }
}

// What is drawn.

fn any_call(random: &mut Random, ideals: &[Correction]) -> Correction {
    match random.below(100) {
        0..=49 => realistic(random, ideals),
        50..=79 => any_in_range(random),
        80..=85 => close_sums(random),
        86..=87 => tie(random),
        88..=93 => at_the_limits(random),
        _ => spoiled(random, ideals),
    }
}

/// Every range, gain and pair whose calibration voltages are both inside the range, with the sums
/// of an ideal board.
fn ideal_calibrations() -> Vec<Correction> {
    let mut ideals = Vec::new();
    for setting in 0..4 * 4 * 25 {
        let mut call = with_setting(setting);
        call.high_sum = 32 * ideal_code(&call, call.high);
        call.low_sum = 32 * ideal_code(&call, call.low);
        if call.meets_15() && call.meets_17() && call.high_sum < GREATEST_SUM {
            ideals.push(call);
        }
    }
    ideals
}

/// One of the 4 * 4 * 25 ranges, gains and ordered pairs of calibration codes; all else 0.
fn with_setting(setting: u32) -> Correction {
    Correction {
        range: setting / 100,
        gain: setting / 25 % 4,
        high: 3 + setting / 5 % 5,
        low: 3 + setting % 5,
        high_sum: 0,
        low_sum: 0,
        raw: 0,
    }
}

fn ideal_code(call: &Correction, calibration: u32) -> u32 {
    let voltage = calibration_voltage(calibration).expect("codes 3 to 7 are calibrations");
    code(call.range, call.gain, voltage)
}

/// Sums that a slightly wrong board with some noise could give, and any raw code.
fn realistic(random: &mut Random, ideals: &[Correction]) -> Correction {
    let mut call = random.pick(ideals);
    call.high_sum = near(random, call.high_sum, 3_200, GREATEST_SUM);
    call.low_sum = near(random, call.low_sum, 3_200, GREATEST_SUM);
    call.raw = random.below(65_536);
    call
}

/// A number at most `distance` from the center, from 0 to most.
fn near(random: &mut Random, center: u32, distance: i64, most: u32) -> u32 {
    let drawn = i64::from(center) + random.between(-distance, distance);
    drawn.clamp(0, i64::from(most)) as u32
}

/// Any setting, also with a refused pair, and any sums, mostly in the right order.
fn any_in_range(random: &mut Random) -> Correction {
    let mut call = with_setting(random.below(400));
    let sums = [
        random.below(GREATEST_SUM + 1),
        random.below(GREATEST_SUM + 1),
    ];
    call.high_sum = sums[0];
    call.low_sum = sums[1];
    if sums[0] < sums[1] && !random.one_in(8) {
        (call.high_sum, call.low_sum) = (sums[1], sums[0]);
    }
    call.raw = random.below(65_536);
    call
}

/// A setting that question 15 lets pass.
fn good_setting(random: &mut Random) -> Correction {
    loop {
        let call = with_setting(random.below(400));
        if call.meets_15() {
            return call;
        }
    }
}

/// Sums that are equal or one apart, in either order.
fn close_sums(random: &mut Random) -> Correction {
    let mut call = good_setting(random);
    call.low_sum = random.between(1, i64::from(GREATEST_SUM) - 1) as u32;
    call.high_sum = call.low_sum - 1 + random.below(3);
    let distance = random.pick(&[1, 65_535]);
    call.raw = near(random, call.low_sum / 32, distance, 65_535);
    call
}

/// A value that ends in exactly .5. In units of 12,500 uV the value is
///     power / 25 * (g * (VH - VL) * (32 * raw - low sum) / (high sum - low sum) + VL * g - z)
/// with a power of two. Here 32 * raw - low sum is part * odd, and high sum - low sum is part times one
/// factor 2 more than the rest brings. One of 25 odd numbers in a row makes the 25 go away.
fn tie(random: &mut Random) -> Correction {
    let mut call = good_setting(random);
    let twos = twos_of_a_tie(&call);
    let part = random.below(GREATEST_SUM >> twos) | 1;
    let difference = part << twos;
    let most = i64::from(GREATEST_SUM - difference);
    let part = i64::from(part);
    let odd = random.between(-60_000, 60_000) | 1;
    let near_raw = (random.between(0, most) + part * odd) / 32;
    call.raw = near_raw.clamp(0, 65_535) as u32;
    for step in 0..25 {
        let low_sum = 32 * i64::from(call.raw) - part * (odd + 2 * step);
        call.low_sum = low_sum.clamp(0, most) as u32;
        call.high_sum = call.low_sum + difference;
        if call.exact().is_tie() {
            break;
        }
    }
    call
}

/// How many factors 2 the difference of the sums needs for a tie.
fn twos_of_a_tie(call: &Correction) -> u32 {
    let high = calibration_voltage(call.high).expect("a good setting");
    let low = calibration_voltage(call.low).expect("a good setting");
    let of_the_voltages = ((high - low) / 12_500).trailing_zeros();
    // 65536 * 12500 / s is 2048 / 25, 1024 / 25, 4096 / 25, 2048 / 25.
    let of_the_range = [11, 10, 12, 11][call.range as usize];
    of_the_range + call.gain + of_the_voltages + 1
}

/// A good setting, with sums and raw at the ends of what question 16 lets pass, and beyond.
fn at_the_limits(random: &mut Random) -> Correction {
    let most = GREATEST_SUM;
    let sums = [
        0,
        1,
        31,
        32,
        most - 32,
        most - 1,
        most,
        most,
        most + 1,
        u32::MAX,
    ];
    let mut call = good_setting(random);
    call.high_sum = random.pick(&sums);
    call.low_sum = random.pick(&sums);
    call.raw = random.pick(&[0, 0, 1, 65_534, 65_535, 65_535, 65_536, u32::MAX]);
    call
}

/// A realistic call with one to three fields made wrong.
fn spoiled(random: &mut Random, ideals: &[Correction]) -> Correction {
    let beyond_three = [4, 5, 7, 8, 255, 256, 65_536, u32::MAX];
    let no_calibration = [0, 1, 2, 8, 11, 15, 256 + 3, u32::MAX];
    let beyond_sums = [GREATEST_SUM + 1, GREATEST_SUM + 32, 1 << 31, u32::MAX];
    let mut call = realistic(random, ideals);
    for _ in 0..1 + random.below(3) {
        match random.below(9) {
            0 => call.range = random.pick(&beyond_three),
            1 => call.gain = random.pick(&beyond_three),
            2 => call.high = random.pick(&no_calibration),
            3 => call.low = random.pick(&no_calibration),
            4 => (call.high, call.low) = (call.low, call.high),
            5 => call.high_sum = random.pick(&beyond_sums),
            6 => call.low_sum = random.pick(&beyond_sums),
            7 => call.raw = random.pick(&[65_536, 65_537, 1 << 31, u32::MAX]),
            _ => (call.high_sum, call.low_sum) = (call.low_sum, call.high_sum),
        }
    }
    call
}

// What must have been met.

/// Counts each of the 400 settings where questions 16 and 17 are met, so that the setting decides.
struct Settings {
    counts: [u64; 400],
}

impl Settings {
    fn new() -> Settings {
        Settings { counts: [0; 400] }
    }

    fn note(&mut self, call: &Correction) {
        let pair = CALIBRATIONS.contains(&call.high) && CALIBRATIONS.contains(&call.low);
        if pair && call.range <= 3 && call.gain <= 3 && call.meets_16() && call.meets_17() {
            let place = 100 * call.range + 25 * call.gain + 5 * (call.high - 3) + call.low - 3;
            self.counts[place as usize] += 1;
        }
    }

    fn assert_all_met(&self, least: u64) {
        let met = self.counts.iter().min().expect("400 settings");
        println!("{met:>9}  least count of a range, gain and ordered pair (400 settings)");
        assert!(*met >= least, "some setting was met only {met} times");
    }
}

fn all_kinds() -> Vec<Kind<Draw>> {
    let mut kinds = setting_kinds();
    kinds.extend(wrong_setting_kinds());
    kinds.extend(sum_and_raw_kinds());
    kinds.extend(answer_kinds());
    kinds
}

/// Ranges and gains of accepted calls, and pairs of calls in which only the pair can offend.
fn setting_kinds() -> Vec<Kind<Draw>> {
    let mut kinds = Vec::new();
    for range in 0..4 {
        let name = format!("range {range}, accepted");
        kinds.push(accepted_kind(name, move |call| call.range == range));
    }
    for gain in 0..4 {
        let name = format!("gain {gain}, accepted");
        kinds.push(accepted_kind(name, move |call| call.gain == gain));
    }
    for high in CALIBRATIONS {
        for low in CALIBRATIONS {
            let number = if high < low { 0 } else { 15 };
            let name = format!("pair high {high}, low {low}: number {number}");
            kinds.push(kind(name, 5_000, move |draw: &Draw| {
                let is_pair = draw.call.high == high && draw.call.low == low;
                is_pair && draw.answer.number == number && draw.call.meets_17()
            }));
        }
    }
    kinds
}

fn wrong_setting_kinds() -> Vec<Kind<Draw>> {
    vec![
        refused_kind("range 4", 15, |call| call.range == 4),
        refused_kind("range u32::MAX", 15, |call| call.range == u32::MAX),
        refused_kind("gain 4", 15, |call| call.gain == 4),
        refused_kind("gain u32::MAX", 15, |call| call.gain == u32::MAX),
        refused_kind("high code below 3", 15, |call| call.high < 3),
        refused_kind("high code above 7", 15, |call| call.high > 7),
        refused_kind("high code u32::MAX", 15, |call| call.high == u32::MAX),
        refused_kind("low code below 3", 15, |call| call.low < 3),
        refused_kind("low code above 7", 15, |call| call.low > 7),
        refused_kind("low code u32::MAX", 15, |call| call.low == u32::MAX),
    ]
}

fn sum_and_raw_kinds() -> Vec<Kind<Draw>> {
    const BEYOND: u32 = GREATEST_SUM + 1;
    vec![
        refused_kind("sums equal", 17, |call| call.high_sum == call.low_sum),
        refused_kind("high sum one below low", 17, |call| {
            call.high_sum.checked_add(1) == Some(call.low_sum)
        }),
        accepted_kind("high sum one above low, accepted", |call| {
            call.high_sum == call.low_sum + 1
        }),
        accepted_kind("low sum 0, accepted", |call| call.low_sum == 0),
        refused_kind("high sum 0", 17, |call| call.high_sum == 0),
        accepted_kind("high sum 2,097,120, accepted", |call| {
            call.high_sum == GREATEST_SUM
        }),
        refused_kind("low sum 2,097,120", 17, |call| call.low_sum == GREATEST_SUM),
        refused_kind("high sum 2,097,121", 16, |call| call.high_sum == BEYOND),
        refused_kind("low sum 2,097,121", 16, |call| call.low_sum == BEYOND),
        accepted_kind("raw 0, accepted", |call| call.raw == 0),
        accepted_kind("raw 65,535, accepted", |call| call.raw == 65_535),
        refused_kind("raw 65,536", 16, |call| call.raw == 65_536),
        refused_kind("raw u32::MAX", 16, |call| call.raw == u32::MAX),
    ]
}

fn answer_kinds() -> Vec<Kind<Draw>> {
    let mut kinds = Vec::new();
    for number in [0, 15, 16, 17] {
        kinds.push(kind(
            format!("number {number}"),
            10_000,
            move |draw: &Draw| draw.answer.number == number,
        ));
    }
    // Calls that fail two questions show that they are asked in order.
    kinds.push(refused_kind("15 and 16 both fail", 15, |call| {
        !call.meets_16()
    }));
    kinds.push(refused_kind("15 and 17 both fail", 15, |call| {
        !call.meets_17()
    }));
    kinds.push(refused_kind("16 and 17 both fail", 16, |call| {
        !call.meets_17()
    }));
    kinds.push(exact_kind("ends in exactly .5", |exact| exact.is_tie()));
    kinds.push(exact_kind(
        "ends in exactly .5, rounded up to 1..65535",
        |exact| exact.is_tie() && (1..=65_535).contains(&exact.nearest()),
    ));
    kinds.push(exact_kind("limited at 0", |exact| exact.nearest() < 0));
    kinds.push(exact_kind("limited at 65535", |exact| {
        exact.nearest() > 65_535
    }));
    kinds.push(exact_kind("strictly inside", |exact| {
        (1..65_535).contains(&exact.nearest())
    }));
    kinds
}

fn accepted_kind(
    name: impl Into<String>,
    is_met: impl Fn(&Correction) -> bool + 'static,
) -> Kind<Draw> {
    kind(name, 2_000, move |draw: &Draw| {
        draw.answer.number == 0 && is_met(&draw.call)
    })
}

fn refused_kind(name: &str, number: u64, is_met: fn(&Correction) -> bool) -> Kind<Draw> {
    kind(
        format!("{name}: number {number}"),
        2_000,
        move |draw: &Draw| draw.answer.number == number && is_met(&draw.call),
    )
}

fn exact_kind(name: &str, is_met: fn(&Fraction) -> bool) -> Kind<Draw> {
    kind(name, 5_000, move |draw: &Draw| {
        draw.exact.as_ref().is_some_and(is_met)
    })
}
