//! Code of a voltage and two-point correction.

use crate::board::fraction::{whole, Fraction};

/// The voltage of a calibration code, bits 5-3 of Control, in microvolts; none for the other codes.
pub fn calibration_voltage(code: u32) -> Option<i32> {
    match code {
        0b011 => Some(4_900_000),
        0b100 => Some(2_450_000),
        0b101 => Some(1_225_000),
        0b110 => Some(612_500),
        0b111 => Some(0),
        _ => None,
    }
}

/// z: the low end of each range, in microvolts.
const LOW_ENDS: [i32; 4] = [-5_000_000, -10_000_000, 0, 0];

/// s: the width of each range, in microvolts.
const WIDTHS: [i32; 4] = [10_000_000, 20_000_000, 5_000_000, 10_000_000];

/// g: gain fields 0 to 3 mean gain 1, 2, 4, 8.
const GAINS: [i32; 4] = [1, 2, 4, 8];

/// z, s and g of a range and a gain field.
fn figures(range: u32, gain: u32) -> [i32; 3] {
    let range = range as usize;
    [LOW_ENDS[range], WIDTHS[range], GAINS[gain as usize]]
}

fn limited(count: i128) -> u32 {
    count.clamp(0, 65_535) as u32
}

/// The code of a voltage before it is rounded: (v * g - z) * 65536 / s.
pub fn exact_code(range: u32, gain: u32, microvolts: i32) -> Fraction {
    let [z, s, g] = figures(range, gain).map(whole);
    (whole(microvolts) * g - z) * whole(65_536) / s
}

/// The straight-binary code of a voltage: rounded down, then limited.
pub fn code(range: u32, gain: u32, microvolts: i32) -> u32 {
    limited(exact_code(range, gain, microvolts).rounded_down())
}

/// The same code without fractions, for the board: it takes one at every beginning. What is below 0
/// is limited to 0 before it is divided, and then rounding down is what division does.
pub fn code_in_whole_numbers(range: u32, gain: u32, microvolts: i32) -> u32 {
    let [z, s, g] = figures(range, gain).map(i64::from);
    let top = (i64::from(microvolts) * g - z) * 65_536;
    (top.max(0) / s).min(65_535) as u32
}

/// The least whole microvolts whose exact code is not below the given one: where the code steps.
pub fn least_voltage(range: u32, gain: u32, code: u32) -> i32 {
    let [z, s, g] = figures(range, gain).map(whole);
    let exact = (whole(code) * s / whole(65_536) + z) / g;
    i32::try_from(exact.rounded_up()).expect("every step lies between -10 V and 10 V")
}

/// A straight-binary code in two's complement format: bit 15 is flipped.
pub fn in_twos_complement(code: u32) -> u32 {
    code ^ 0x8000
}

/// What a two-point correction is given. `high` and `low` are acquisition codes.
#[derive(Clone, Copy, Debug)]
pub struct Correction {
    pub range: u32,
    pub gain: u32,
    pub high: u32,
    pub low: u32,
    pub high_sum: u32,
    pub low_sum: u32,
    pub raw: u32,
}

/// The answer to a call: number 0 is accepted; the value of a refused call is 0.
#[derive(Clone, Copy, Debug, PartialEq, Eq)]
pub struct Answer {
    pub number: u64,
    pub value: u64,
}

/// The greatest sum of 32 codes.
pub const GREATEST_SUM: u32 = 2_097_120;

impl Correction {
    /// 15. Are range and gain at most 3, both codes 011 to 111, VH above VL?
    pub fn meets_15(&self) -> bool {
        let voltages = (
            calibration_voltage(self.high),
            calibration_voltage(self.low),
        );
        match voltages {
            (Some(high), Some(low)) => self.range <= 3 && self.gain <= 3 && high > low,
            _ => false,
        }
    }

    /// 16. Are sums at most 2,097,120 and raw at most 65,535?
    pub fn meets_16(&self) -> bool {
        self.high_sum <= GREATEST_SUM && self.low_sum <= GREATEST_SUM && self.raw <= 65_535
    }

    /// 17. Is the high sum above the low?
    pub fn meets_17(&self) -> bool {
        self.high_sum > self.low_sum
    }

    /// The first question that is not met, else 0.
    pub fn number(&self) -> u64 {
        if !self.meets_15() {
            15
        } else if !self.meets_16() {
            16
        } else if !self.meets_17() {
            17
        } else {
            0
        }
    }

    /// The corrected count before it is rounded; only for a correction that is not refused.
    pub fn exact(&self) -> Fraction {
        let [z, s, g] = figures(self.range, self.gain).map(whole);
        let high_voltage = voltage_of(self.high);
        let low_voltage = voltage_of(self.low);
        let high_count = whole(self.high_sum) / whole(32);
        let low_count = whole(self.low_sum) / whole(32);
        let slope = g * (high_voltage - low_voltage) / (high_count - low_count);
        whole(65_536) / s * (slope * (whole(self.raw) - low_count) + low_voltage * g - z)
    }

    /// The corrected count, rounded to the nearest, halves up, and limited; or the first question that is not met.
    pub fn answer(&self) -> Answer {
        let number = self.number();
        let value = if number == 0 {
            u64::from(limited(self.exact().nearest()))
        } else {
            0
        };
        Answer { number, value }
    }
}

fn voltage_of(code: u32) -> Fraction {
    whole(calibration_voltage(code).expect("question 15 asks for a calibration code"))
}

#[cfg(test)]
mod tests {
    use super::*;
    use crate::draw::random::Random;

    /// On every side of every step of every range and gain, and on drawn voltages.
    #[test]
    fn both_codes_are_the_same() {
        let mut random = Random::new(15);
        for (range, gain) in (0..16).map(|i| (i / 4, i % 4)) {
            for step in 0..=65_535 {
                let least = least_voltage(range, gain, step);
                let drawn = random.between(-35_000_000, 55_000_000) as i32;
                for microvolts in [least - 1, least, drawn] {
                    assert_eq!(
                        code_in_whole_numbers(range, gain, microvolts),
                        code(range, gain, microvolts),
                        "range {range}, gain {gain}, {microvolts} uV"
                    );
                }
            }
        }
    }
}
