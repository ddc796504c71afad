//! Replaying a bench recording: the trace is run, and what the board answers is held against what
//! the recording says that it answered. And the text of the program that does it.

use crate::board::analog::Answer;
use crate::board::call::{Call, Calls};
use crate::board::trace::{
    answer_of_bytes, asked, first_field, handed_on, new_board, Field, LONGEST_INPUT,
};
use std::fmt;

/// What comes of a replay.
#[derive(Clone, Copy, Debug, PartialEq, Eq)]
pub enum Replayed {
    Refused {
        number: u64,
    },
    /// All agree: how many were compared.
    Agree {
        count: u64,
    },
    /// The index, from 1, of the first call whose answer is not equal to the recorded one, and how many were compared,
    /// with this one.
    Differs {
        index: u64,
        count: u64,
    },
}

impl Replayed {
    /// As C gets it: number + 2^8 * index + 2^32 * count.
    pub fn packed(&self) -> u64 {
        match *self {
            Replayed::Refused { number } => number,
            Replayed::Agree { count } => count << 32,
            Replayed::Differs { index, count } => count << 32 | index << 8,
        }
    }

    /// What C gets, taken apart.
    pub fn unpacked(result: u64) -> Replayed {
        let (number, index, count) = (result & 0xFF, result >> 8 & 0xFF_FFFF, result >> 32);
        match (number, index) {
            (0, 0) => Replayed::Agree { count },
            (0, _) => Replayed::Differs { index, count },
            _ => Replayed::Refused { number },
        }
    }
}

/// As the program prints it.
impl fmt::Display for Replayed {
    fn fmt(&self, out: &mut fmt::Formatter) -> fmt::Result {
        match *self {
            Replayed::Refused { number } => write!(out, "refused {number}"),
            Replayed::Agree { count } => write!(out, "agree {count}"),
            Replayed::Differs { index, count } => write!(out, "differs {index} {count}"),
        }
    }
}

/// The same number, and the same low 16 bits of value.
#[inline]
pub fn is_equal(answer: Answer, recorded: Answer) -> bool {
    answer.number == recorded.number && answer.value % 65_536 == recorded.value % 65_536
}

/// Runs the trace on a new board, with no buffer, so that question 20 isn't asked.
pub fn replay(trace: &[u8]) -> Replayed {
    let (range, mut bytes, _) = match asked(trace) {
        Ok(asked) => asked,
        Err(number) => return Replayed::Refused { number },
    };
    let mut board = new_board(range);
    let mut last = Answer {
        number: 0,
        value: 0,
    };
    let (mut index, mut count) = (0, 0);
    while let Some((tag, body, rest)) = first_field(bytes) {
        if let Some(answer) = handed_on(tag, body, |call| board.call(&call)) {
            index += 1;
            last = answer;
        } else {
            count += 1;
            if !is_equal(last, answer_of_bytes(body)) {
                return Replayed::Differs { index, count };
            }
        }
        bytes = rest;
    }
    Replayed::Agree { count }
}

/// What the program `pmc330_replay` prints for its standard input, of which it takes the first 32,768 bytes.
pub fn replayed(input: &[u8]) -> String {
    format!("{}\n", replay(&input[..input.len().min(LONGEST_INPUT)]))
}

// The same from lists, for answers that come from elsewhere.

/// What comes of a replay of an accepted recording, by the answers to its calls and the recorded ones, or
/// none, of each.
pub fn verdict(answers: &[Answer], recorded: &[Option<Answer>]) -> Replayed {
    assert_eq!(answers.len(), recorded.len(), "one of each a call");
    let differs = |place: &usize| recorded[*place].is_some_and(|it| !is_equal(answers[*place], it));
    let count_of = |recorded: &[Option<Answer>]| recorded.iter().flatten().count() as u64;
    match (0..answers.len()).find(differs) {
        None => Replayed::Agree {
            count: count_of(recorded),
        },
        Some(place) => Replayed::Differs {
            index: place as u64 + 1,
            count: count_of(&recorded[..=place]),
        },
    }
}

/// The calls as fields, each followed by its recorded answer, if it has one.
pub fn recording(calls: &[Call], recorded: &[Option<Answer>]) -> Vec<Field> {
    let fields = |(call, answer): (&Call, &Option<Answer>)| {
        let answered = answer.map(Field::Answered);
        [Some(Field::Call(*call)), answered].into_iter().flatten()
    };
    calls.iter().zip(recorded).flat_map(fields).collect()
}
