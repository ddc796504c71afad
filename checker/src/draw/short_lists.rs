//! Every short list of a few kinds of fields, and what must come of it, found from the kinds alone.

use crate::board::replay::Replayed;
use crate::board::trace::heading;

/// What is put in a list. On a new board a trigger is ignored: it answers 0 and 0. A look at slot 32 answers 22.
#[derive(Clone, Copy, Debug, PartialEq, Eq)]
enum Kind {
    Trigger,
    BadLook,
    /// A recorded answer: right after a trigger.
    AcceptedAnswer,
    /// A recorded answer: right after the look.
    RefusedAnswer,
    /// A recorded answer that is right after neither.
    WrongAnswer,
    /// No field that 19 admits.
    Bad,
    /// A recorded answer of another length, which is none.
    LongAnswer,
}

use Kind::{AcceptedAnswer, Bad, BadLook, LongAnswer, RefusedAnswer, Trigger, WrongAnswer};

const KINDS: [Kind; 7] = [
    Trigger,
    BadLook,
    AcceptedAnswer,
    RefusedAnswer,
    WrongAnswer,
    Bad,
    LongAnswer,
];

/// The fields of the longest lists.
const LONGEST: u32 = 5;

impl Kind {
    fn bytes(self) -> &'static [u8] {
        match self {
            Trigger => &[0x05, 0, 0],
            BadLook => &[0x07, 1, 0, 32],
            // Upper bytes that do not count.
            AcceptedAnswer => &[0x09, 5, 0, 0, 0, 0, 0xFF, 0x80],
            RefusedAnswer => &[0x09, 5, 0, 22, 0, 0, 1, 0],
            WrongAnswer => &[0x09, 5, 0, 0, 0, 1, 0, 0],
            Bad => &[0x0B, 0, 0],
            LongAnswer => &[0x09, 6, 0, 0, 0, 0, 0, 0, 0],
        }
    }

    fn is_call(self) -> bool {
        matches!(self, Trigger | BadLook)
    }

    fn is_answer(self) -> bool {
        matches!(self, AcceptedAnswer | RefusedAnswer | WrongAnswer)
    }

    fn is_right_after(self, call: Kind) -> bool {
        matches!(
            (call, self),
            (Trigger, AcceptedAnswer) | (BadLook, RefusedAnswer)
        )
    }
}

/// What must come of a list.
pub struct Expected {
    pub replayed: Replayed,
    pub calls: usize,
}

impl Expected {
    /// What a player must give with so many bytes in its buffer.
    pub fn played(&self, room: usize) -> u64 {
        match self.replayed {
            Replayed::Refused { number } => number,
            _ if room < 5 * self.calls => 20,
            _ => 256 * self.calls as u64,
        }
    }
}

fn expected(list: &[Kind]) -> Expected {
    let calls = list.iter().filter(|kind| kind.is_call()).count();
    let refused = |number| Expected {
        replayed: Replayed::Refused { number },
        calls,
    };
    let previous = |place: usize| place.checked_sub(1).map(|before| list[before]);
    let is_stray = |place: &usize| {
        let is_after_call = previous(*place).is_some_and(Kind::is_call);
        list[*place].is_answer() && !is_after_call
    };
    if list.iter().any(|kind| matches!(kind, Bad | LongAnswer)) {
        return refused(19);
    }
    if (0..list.len()).any(|place| is_stray(&place)) {
        return refused(26);
    }
    let is_wrong = |place: &usize| {
        let is_right = |call| list[*place].is_right_after(call);
        list[*place].is_answer() && !previous(*place).is_some_and(is_right)
    };
    let count_in = |list: &[Kind]| list.iter().filter(|kind| kind.is_answer()).count() as u64;
    let replayed = match (0..list.len()).find(is_wrong) {
        None => Replayed::Agree {
            count: count_in(list),
        },
        Some(place) => Replayed::Differs {
            index: list[..place].iter().filter(|kind| kind.is_call()).count() as u64,
            count: count_in(&list[..=place]),
        },
    };
    Expected { replayed, calls }
}

/// Hands on the trace of each list, with what must come of it.
pub fn each_short_list(mut to: impl FnMut(&[u8], Expected)) {
    let kinds = KINDS.len() as u32;
    for length in 0..=LONGEST {
        for number in 0..kinds.pow(length) {
            let digit = |place| KINDS[(number / kinds.pow(place) % kinds) as usize];
            let list: Vec<Kind> = (0..length).map(digit).collect();
            let fields: Vec<&[u8]> = list.iter().map(|kind| kind.bytes()).collect();
            to(&[heading(0), fields.concat()].concat(), expected(&list));
        }
    }
}
