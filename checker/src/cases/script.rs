//! Lists of calls with the answers expected, in the notation of `examples/`, with several calls on a line:
//!
//! ```text
//! write 16 10H 0300H; write 16 04H 0401H; write 16 24H 1
//! advance 64 = 1             # accepted, with value 1
//! write 16 0CH 8 refused 6   # not accepted: number 6
//! read 16 80H to 8CH = 8000H # four reads, of each fourth offset
//! look 5 = 18000H            # slot 5 has the code 8000H, and New
//! ```
//!
//! A call with nothing after it is accepted with value 0. A trailing H marks hexadecimal.
//!
//! A recording has calls alone, and after those whose answer is recorded `answered NUMBER VALUE`, as in `examples/`.

use crate::board::analog::Answer;
use crate::board::call::Call;
use crate::board::trace::Field;
use std::fmt::Display;
use std::str::FromStr;

/// A call and the answer expected.
#[derive(Clone, Copy, Debug, PartialEq, Eq)]
pub struct Step {
    pub call: Call,
    pub expected: Answer,
}

/// The steps of a script: calls stand on lines of their own or between semicolons.
pub fn steps(script: &str) -> Vec<Step> {
    texts(script).flat_map(steps_of).collect()
}

/// The fields of a recording, wherever its answers stand.
pub fn fields(script: &str) -> Vec<Field> {
    let fields_of = |text: &str| match text.split_whitespace().collect::<Vec<&str>>()[..] {
        ["answered", question, value] => vec![Field::Answered(Answer {
            number: number::<u8>(question).into(),
            value: number::<u32>(value).into(),
        })],
        ref words => {
            let calls = calls_of(words).unwrap_or_else(|| panic!("no call: {text}"));
            calls.into_iter().map(Field::Call).collect()
        }
    };
    texts(script).flat_map(fields_of).collect()
}

/// What stands on lines or between semicolons, without comments.
fn texts(script: &str) -> impl Iterator<Item = &str> {
    let lines = script.lines().filter_map(|line| line.split('#').next());
    let texts = lines.flat_map(|line| line.split(';')).map(str::trim);
    texts.filter(|text| !text.is_empty())
}

fn steps_of(text: &str) -> Vec<Step> {
    let words: Vec<&str> = text.split_whitespace().collect();
    let (words, expected) = match words[..] {
        [ref call @ .., "=", value] => (call, accepted(number(value))),
        [ref call @ .., "refused", question] => (call, refused(number(question))),
        _ => (&words[..], accepted(0)),
    };
    let calls = calls_of(words).unwrap_or_else(|| panic!("no call: {text}"));
    let step = |call| Step { call, expected };
    calls.into_iter().map(step).collect()
}

fn accepted(value: u64) -> Answer {
    Answer { number: 0, value }
}

fn refused(number: u64) -> Answer {
    Answer { number, value: 0 }
}

fn calls_of(words: &[&str]) -> Option<Vec<Call>> {
    let call = match *words {
        ["read", width, first, "to", last] => {
            let offsets = (number(first)..=number::<u16>(last)).step_by(4);
            let width = number(width);
            return Some(offsets.map(|offset| Call::Read { width, offset }).collect());
        }
        ["read", width, offset] => Call::Read {
            width: number(width),
            offset: number(offset),
        },
        ["write", width, offset, value] => Call::Write {
            width: number(width),
            offset: number(offset),
            value: number(value),
        },
        ["input", channel, microvolts] => Call::Input {
            channel: number(channel),
            microvolts: number(microvolts),
        },
        ["advance", ticks] => Call::Advance {
            ticks: number(ticks),
        },
        ["trigger"] => Call::Trigger,
        ["reset"] => Call::Reset,
        ["look", slot] => Call::Look { slot: number(slot) },
        ["clear", slot] => Call::Clear { slot: number(slot) },
        _ => return None,
    };
    Some(vec![call])
}

/// A number as it is written: `1FF8H`, `16,777,216` or `-1`.
fn number<Number: FromStr + TryFrom<u64>>(word: &str) -> Number
where
    Number::Err: Display,
{
    let digits = word.replace(',', "");
    match digits.strip_suffix('H') {
        Some(digits) => {
            let read = u64::from_str_radix(digits, 16).ok();
            let narrow = read.and_then(|read| Number::try_from(read).ok());
            narrow.unwrap_or_else(|| panic!("no number, or too wide: {word}"))
        }
        None => digits
            .parse()
            .unwrap_or_else(|error| panic!("{word}: {error}")),
    }
}

#[cfg(test)]
mod tests {
    use super::*;

    #[test]
    fn calls_and_answers_are_read() {
        let script = "
            read 16 80H to 88H = 8000H   # three
            input 3 -35,000,001 refused 12; trigger
            write 32 24H 00010000H
            look 31 = 18000H; clear 255 refused 22
        ";
        let expected = [
            ("read 16 80H", 0, 0x8000),
            ("read 16 84H", 0, 0x8000),
            ("read 16 88H", 0, 0x8000),
            ("input 3 -35000001", 12, 0),
            ("trigger", 0, 0),
            ("write 32 24H 10000H", 0, 0),
            ("look 31", 0, 0x1_8000),
            ("clear 255", 22, 0),
        ];
        let steps = steps(script);
        assert_eq!(steps.len(), expected.len());
        for (step, (call, number, value)) in steps.iter().zip(expected) {
            assert_eq!(step.call.to_string(), call);
            assert_eq!(step.expected, Answer { number, value });
        }
    }

    #[test]
    fn recorded_answers_are_read() {
        let script = "
            trigger; answered 255 FFFFFFFFH # any five bytes
            read 16 28H
            answered 3 0; answered 0AH 70,000
        ";
        let answered = |number, value| Field::Answered(Answer { number, value });
        let read = Call::Read {
            width: 16,
            offset: 0x28,
        };
        let expected = [
            Field::Call(Call::Trigger),
            answered(255, 0xFFFF_FFFF),
            Field::Call(read),
            answered(3, 0),
            answered(10, 70_000),
        ];
        assert_eq!(fields(script), expected);
    }

    #[test]
    #[should_panic(expected = "no call: answered 0")]
    fn half_an_answer_is_noticed() {
        fields("trigger; answered 0");
    }

    #[test]
    #[should_panic(expected = "no call: raed 16 80H")]
    fn a_slip_is_noticed() {
        steps("raed 16 80H = 0");
    }

    #[test]
    #[should_panic(expected = "too wide: 1FFH")]
    fn a_width_beyond_its_place_is_noticed() {
        steps("read 1FFH 80H = 0");
    }
}
