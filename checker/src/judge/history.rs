//! What is followed of a board from call to call, to count what lists of calls meet.

use crate::board::analog::Answer;
use crate::board::call::Step;
use crate::board::Board;
use crate::judge::before_arming::{self, Arming};
use crate::judge::looks::{self, Slots};

/// What came before on a board.
#[derive(Clone, Copy, Debug, Default)]
pub struct History {
    slots: Slots,
    arming: Arming,
}

/// A call, with what came before it.
#[derive(Clone, Debug)]
pub struct Noted {
    pub looks: looks::Noted,
    pub arming: before_arming::Noted,
}

impl History {
    /// Notes a call that was made on the board.
    pub fn note(&mut self, step: Step, answer: Answer, before: &Board, after: &Board) -> Noted {
        Noted {
            looks: self.slots.note(step, answer, before, after),
            arming: self.arming.note(step, answer, before, after),
        }
    }
}
