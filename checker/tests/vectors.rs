//! Figures typed in from the manuals, and bench cases worked by hand, checked against the independent program and
//! against the archive.

use checker::archive;
use checker::board::analog::{calibration_voltage, code, in_twos_complement, Answer, Correction};

/// The gain field of a printed gain.
fn field_of(gain: u32) -> u32 {
    [1, 2, 4, 8]
        .iter()
        .position(|known| *known == gain)
        .expect("a gain is 1, 2, 4 or 8") as u32
}

/// The acquisition code of a printed calibration voltage.
fn calibration_of(microvolts: i32) -> u32 {
    (3..=7)
        .find(|code| calibration_voltage(*code) == Some(microvolts))
        .expect("a calibration voltage")
}

fn check_code(source: &str, range: u32, gain: u32, microvolts: i32, expected: u32) {
    let field = field_of(gain);
    let name = format!("{source}: range {range}, gain {gain}, {microvolts} uV");
    let independent = code(range, field, microvolts);
    let archive = archive::code(range, field, microvolts);
    assert_eq!(independent, expected, "{name}: the independent program");
    assert_eq!(archive, expected, "{name}: the archive");
}

fn check_answer(source: &str, call: Correction, number: u64, value: u64) {
    let expected = Answer { number, value };
    let name = format!("{source}: {call:?}");
    assert_eq!(call.answer(), expected, "{name}: the independent program");
    assert_eq!(archive::corrected(&call), expected, "{name}: the archive");
}

/// A correction by its fields: range, gain field, high, low, high sum, low sum, raw.
fn corr(fields: [u32; 7]) -> Correction {
    let [range, gain, high, low, high_sum, low_sum, raw] = fields;
    Correction {
        range,
        gain,
        high,
        low,
        high_sum,
        low_sum,
        raw,
    }
}

/// Ideal codes of the manuals: point, range, printed volts as uV, printed code, the code by the formula, least uV of
/// the printed code.
const IDEAL_CODES: [(&str, u32, i32, u32, u32, i32); 16] = [
    ("+FS - 1 LSB", 1, 9_999_695, 0xFFFF, 0xFFFF, 9_999_695),
    ("+FS - 1 LSB", 3, 9_999_847, 0xFFFF, 0xFFFE, 9_999_848),
    ("+FS - 1 LSB", 0, 4_999_847, 0xFFFF, 0xFFFE, 4_999_848),
    ("+FS - 1 LSB", 2, 4_999_924, 0xFFFF, 0xFFFF, 4_999_924),
    ("Midscale", 1, 0, 0x8000, 0x8000, 0),
    ("Midscale", 3, 5_000_000, 0x8000, 0x8000, 5_000_000),
    ("Midscale", 0, 0, 0x8000, 0x8000, 0),
    ("Midscale", 2, 2_500_000, 0x8000, 0x8000, 2_500_000),
    ("Mid - 1 LSB", 1, -305, 0x7FFF, 0x7FFF, -305),
    ("Mid - 1 LSB", 3, 4_999_847, 0x7FFF, 0x7FFE, 4_999_848),
    ("Mid - 1 LSB", 0, -153, 0x7FFF, 0x7FFE, -152),
    ("Mid - 1 LSB", 2, 2_499_924, 0x7FFF, 0x7FFF, 2_499_924),
    ("- FS", 1, -10_000_000, 0x0000, 0x0000, -10_000_000),
    ("- FS", 3, 0, 0x0000, 0x0000, 0),
    ("- FS", 0, -5_000_000, 0x0000, 0x0000, -5_000_000),
    ("- FS", 2, 0, 0x0000, 0x0000, 0),
];

#[test]
fn ideal_codes_of_the_manuals() {
    let mut met = 0;
    for (point, range, printed, printed_code, by_formula, least) in IDEAL_CODES {
        let source = format!("ideal code, {point}");
        check_code(&source, range, 1, printed, by_formula);
        check_code(&source, range, 1, least, printed_code);
        if printed_code > 0 {
            check_code(&source, range, 1, least - 1, printed_code - 1);
        }
        if by_formula == printed_code {
            met += 1;
        }
    }
    assert_eq!(
        met, 12,
        "twelve of the sixteen printed points meet the formula"
    );
}

/// Table 3.6 of the PMC330 manual: two's complement, straight binary. The archive has no call for it.
#[test]
fn formats_of_the_manuals() {
    let rows = [
        (0x7FFF, 0xFFFF),
        (0x0000, 0x8000),
        (0xFFFF, 0x7FFF),
        (0x8000, 0x0000),
    ];
    for (twos_complement, straight) in rows {
        assert_eq!(in_twos_complement(straight), twos_complement);
    }
}

/// Programming example 1 of the manuals, range 1, gain 1: input uV, code (step 3), corrected (step 4).
const EXAMPLE_1: [(i32, u32, u64); 4] = [
    (0, 32_768, 32_768),
    (2_500_000, 40_960, 40_960),
    (-7_300_000, 8_847, 8_847),
    (9_999_999, 65_535, 65_535),
];

#[test]
fn programming_example_1() {
    check_code("example 1, step 1", 1, 1, 0, 1_048_576 / 32);
    check_code("example 1, step 2", 1, 1, 4_900_000, 1_562_368 / 32);
    for (input, raw, corrected) in EXAMPLE_1 {
        check_code("example 1, step 3", 1, 1, input, raw);
        let call = corr([1, 0, 3, 7, 1_562_368, 1_048_576, raw]);
        check_answer("example 1, step 4", call, 0, corrected);
    }
}

/// Programming example 2 of the manuals, step 3, range 3, gain 8: channel, code, corrected. The input is 100,000 *
/// (channel - 2) uV.
const EXAMPLE_2: [(i32, u32, u64); 11] = [
    (3, 5_242, 5_243),
    (4, 10_485, 10_486),
    (5, 15_728, 15_729),
    (6, 20_971, 20_972),
    (7, 26_214, 26_215),
    (8, 31_457, 31_458),
    (9, 36_700, 36_701),
    (10, 41_943, 41_944),
    (11, 47_185, 47_185),
    (12, 52_428, 52_428),
    (13, 57_671, 57_671),
];

#[test]
fn programming_example_2() {
    check_code("example 2, step 1", 3, 8, 612_500, 1_027_584 / 32);
    check_code("example 2, step 2", 3, 8, 1_225_000, 2_055_200 / 32);
    for (channel, raw, corrected) in EXAMPLE_2 {
        check_code("example 2, step 3", 3, 8, 100_000 * (channel - 2), raw);
        let call = corr([3, 3, 5, 6, 2_055_200, 1_027_584, raw]);
        check_answer("example 2, step 3", call, 0, corrected);
    }
}

/// Table 3.9 of the manuals, recommended pairs: range, gain, low uV, high uV, low code, high code, and raw 0, the
/// low code, 32768, the high code and 65535 corrected.
type RecommendedPair = (u32, u32, i32, i32, u32, u32, [u64; 5]);

#[rustfmt::skip]
const RECOMMENDED_PAIRS: [RecommendedPair; 16] = [
    (0, 1, 0, 4_900_000, 32_768, 64_880, [0, 32_768, 32_768, 64_881, 65_535]),
    (0, 2, 0, 2_450_000, 32_768, 64_880, [0, 32_768, 32_768, 64_881, 65_535]),
    (0, 4, 0, 1_225_000, 32_768, 64_880, [0, 32_768, 32_768, 64_881, 65_535]),
    (0, 8, 0, 612_500, 32_768, 64_880, [0, 32_768, 32_768, 64_881, 65_535]),
    (1, 1, 0, 4_900_000, 32_768, 48_824, [0, 32_768, 32_768, 48_824, 65_535]),
    (1, 2, 0, 4_900_000, 32_768, 64_880, [0, 32_768, 32_768, 64_881, 65_535]),
    (1, 4, 0, 2_450_000, 32_768, 64_880, [0, 32_768, 32_768, 64_881, 65_535]),
    (1, 8, 0, 1_225_000, 32_768, 64_880, [0, 32_768, 32_768, 64_881, 65_535]),
    (2, 1, 612_500, 4_900_000, 8_028, 64_225, [0, 8_028, 32_768, 64_225, 65_535]),
    (2, 2, 612_500, 2_450_000, 16_056, 64_225, [0, 16_056, 32_768, 64_225, 65_535]),
    (2, 4, 612_500, 1_225_000, 32_112, 64_225, [1, 32_113, 32_769, 64_225, 65_535]),
    (2, 8, 0, 612_500, 0, 64_225, [0, 0, 32_768, 64_225, 65_535]),
    (3, 1, 612_500, 4_900_000, 4_014, 32_112, [0, 4_014, 32_769, 32_113, 65_535]),
    (3, 2, 612_500, 4_900_000, 8_028, 64_225, [0, 8_028, 32_768, 64_225, 65_535]),
    (3, 4, 612_500, 2_450_000, 16_056, 64_225, [0, 16_056, 32_768, 64_225, 65_535]),
    (3, 8, 612_500, 1_225_000, 32_112, 64_225, [1, 32_113, 32_769, 64_225, 65_535]),
];

#[test]
fn recommended_calibration_pairs() {
    for (range, gain, low, high, low_code, high_code, corrected) in RECOMMENDED_PAIRS {
        check_code("recommended pair, low code", range, gain, low, low_code);
        check_code("recommended pair, high code", range, gain, high, high_code);
        let raws = [0, low_code, 32_768, high_code, 65_535];
        for (raw, expected) in raws.into_iter().zip(corrected) {
            let call = Correction {
                range,
                gain: field_of(gain),
                high: calibration_of(high),
                low: calibration_of(low),
                high_sum: 32 * high_code,
                low_sum: 32 * low_code,
                raw,
            };
            check_answer("recommended pair, corrected", call, 0, expected);
        }
    }
}

/// Ties and limits: the correction, its value.
const TIES_AND_LIMITS: [([u32; 7], u64); 4] = [
    ([0, 0, 3, 7, 1_048_576, 0, 6_425], 39_065),
    ([0, 0, 3, 7, 1_048_576, 0, 19_275], 51_658),
    ([0, 0, 3, 7, 1, 0, 65_535], 65_535),
    ([0, 0, 3, 7, 2_097_120, 2_097_119, 0], 0),
];

#[test]
fn ties_and_limits() {
    for (fields, value) in TIES_AND_LIMITS {
        check_answer("ties and limits", corr(fields), 0, value);
    }
    // The first two are exact ties, and the last two lie far outside.
    let ends_in_half = |row: usize| corr(TIES_AND_LIMITS[row].0).exact().is_tie();
    assert!(ends_in_half(0) && ends_in_half(1));
    assert!(corr(TIES_AND_LIMITS[2].0).exact().rounded_down() > 67_000_000_000);
    assert!(corr(TIES_AND_LIMITS[3].0).exact().rounded_down() < -67_000_000_000);
}

/// Bench cases: range, gain, uV, code.
const BENCH_CODES: [(u32, u32, i32, u32); 5] = [
    (1, 1, 0, 0x8000),
    (1, 1, -1, 0x7FFF),
    (1, 1, 10_000_000, 0xFFFF),
    (3, 8, 612_500, 32_112),
    (3, 8, 1_225_000, 64_225),
];

/// Bench case: raw, corrected, with the last two of those codes as sums 1,027,584 and 2,055,200.
const BENCH_SUMS: [(u32, u64); 3] = [(32_112, 32_113), (64_225, 64_225), (0, 1)];

#[test]
fn bench_cases() {
    for (range, gain, microvolts, expected) in BENCH_CODES {
        check_code("bench case", range, gain, microvolts, expected);
    }
    assert_eq!(in_twos_complement(code(1, 0, -1)), 0xFFFF);
    for (raw, corrected) in BENCH_SUMS {
        let call = corr([3, 3, 5, 6, 2_055_200, 1_027_584, raw]);
        check_answer("bench case", call, 0, corrected);
    }
}

/// Questions 15 to 17, at the last value that passes and the first that does not, and in order.
const QUESTIONS: [([u32; 7], u64); 15] = [
    ([4, 0, 3, 7, 2, 1, 0], 15),
    ([0, 4, 3, 7, 2, 1, 0], 15),
    ([0, 0, 2, 7, 2, 1, 0], 15),
    ([0, 0, 8, 7, 2, 1, 0], 15),
    ([0, 0, 3, 2, 2, 1, 0], 15),
    ([0, 0, 3, 8, 2, 1, 0], 15),
    ([0, 0, 5, 5, 2, 1, 0], 15),
    ([0, 0, 6, 5, 2, 1, 0], 15),
    ([0, 0, 3, 7, 2_097_121, 1, 0], 16),
    ([0, 0, 3, 7, 2, 2_097_121, 0], 16),
    ([0, 0, 3, 7, 2, 1, 65_536], 16),
    ([0, 0, 3, 7, 1, 1, 0], 17),
    ([0, 0, 3, 7, 1, 2, 0], 17),
    // 15 comes before 16 and 17, and 16 before 17.
    ([4, 0, 3, 7, 1, 2_097_121, 65_536], 15),
    ([0, 0, 3, 7, 1, 1, 65_536], 16),
];

#[test]
fn questions_in_order() {
    for (fields, number) in QUESTIONS {
        check_answer("questions", corr(fields), number, 0);
    }
}
