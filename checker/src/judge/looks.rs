//! Looks and clears: what they met, and which stores came after them; the kinds that lists of
//! calls must reach; and that a mailbox read leaves the board that a look and then a clear leave.

use crate::board::analog::Answer;
use crate::board::call::{Call, Step};
use crate::board::registers::{Registers, TRIGGER_ONLY};
use crate::board::Board;
use crate::judge::before_arming::arms_by_trigger;
use crate::judge::coverage::{kind, Kind};
use std::fmt::Debug;
use std::ops::Range;

/// New and Missed of every slot, slot 0 in bit 0.
#[derive(Clone, Copy, Debug)]
struct Bits {
    new: u32,
    missed: u32,
}

impl Bits {
    fn of(board: &Board) -> Bits {
        Bits {
            new: board.new_bits(),
            missed: board.missed(),
        }
    }
}

/// The slots of a board, slot 0 in bit 0, that were looked at or cleared while New, with no store in
/// them since. A cycle start or a reset begins anew, but not a trigger before arming, which clears no bit.
#[derive(Clone, Copy, Debug, Default)]
pub struct Slots {
    looked: u32,
    cleared: u32,
}

/// A call, as far as it concerns looks and clears.
#[derive(Clone, Copy, Debug)]
pub struct Noted {
    step: Step,
    answer: Answer,
    /// The scan field of the cycle that ran before the call, if one did.
    cycle: Option<u32>,
    before: Bits,
    after: Bits,
    /// Slots with a store in the call, and those with one only.
    stored: u32,
    stored_once: u32,
    /// Before the call.
    slots: Slots,
}

impl Slots {
    /// Notes a call that was made on the board.
    pub fn note(&mut self, step: Step, answer: Answer, before: &Board, after: &Board) -> Noted {
        let arms = arms_by_trigger(&step, before, after);
        let (stored, stored_once) = if arms {
            let slot = 1 << before.registers().start;
            (slot, slot)
        } else {
            let conversions = stored_in(&step, answer, before, after);
            slots_of(before.registers(), conversions)
        };
        let noted = Noted {
            step,
            answer,
            cycle: scan_of_cycle(before),
            before: Bits::of(before),
            after: Bits::of(after),
            stored,
            stored_once,
            slots: *self,
        };
        let starts = before.is_idle() && !after.is_idle() && !arms;
        if starts || matches!(step, Step::Reset | Step::Open { .. }) {
            *self = Slots::default();
        }
        self.looked &= !stored;
        self.cleared &= !stored;
        let if_new = |slot: u32| noted.before.new & 1 << slot;
        match step {
            Step::Look { slot } if answer.number == 0 => self.looked |= if_new(slot),
            Step::Clear { slot } if answer.number == 0 => self.cleared |= if_new(slot),
            _ => (),
        }
        noted
    }
}

/// The scan field of the cycle that runs, if one does.
pub fn scan_of_cycle(board: &Board) -> Option<u32> {
    board.cycle().map(|_| board.registers().control.scan())
}

/// The conversions stored in a call: k of the first, and of the first not stored. The store of a trigger
/// before arming is none of them.
pub fn stored_in(step: &Step, answer: Answer, before: &Board, after: &Board) -> Range<u64> {
    let Some(cycle) = before.cycle() else {
        return 0..0;
    };
    let count = match (step, after.cycle()) {
        (Step::Advance { .. }, _) => answer.value,
        (Step::Trigger, Some(after)) => after.stored - cycle.stored,
        _ => 0,
    };
    cycle.stored..cycle.stored + count
}

/// The slots with a store among these, and those with one only.
fn slots_of(registers: &Registers, conversions: Range<u64>) -> (u32, u32) {
    let (mut any, mut more) = (0, 0);
    // 64 of them put two in every slot of the scan.
    for k in conversions.take(64) {
        let slot = 1 << registers.slot_of(k);
        more |= any & slot;
        any |= slot;
    }
    (any, any & !more)
}

// The kinds that must be met.

impl Noted {
    /// What stands above the code in the value of an accepted look: 1 for New, 3 for Missed too.
    fn seen(&self) -> Option<u64> {
        match self.step {
            Step::Look { .. } if self.answer.number == 0 => Some(self.answer.value >> 16),
            _ => None,
        }
    }

    /// The bits of a slot before an accepted clear of it, likewise.
    fn cleared(&self) -> Option<u32> {
        match self.step {
            Step::Clear { slot } if self.answer.number == 0 => {
                let Bits { new, missed } = self.before;
                Some(new >> slot & 1 | (missed >> slot & 1) << 1)
            }
            _ => None,
        }
    }

    /// One store in a slot that was looked at while New, and it sets Missed.
    fn misses_after_look(&self) -> bool {
        let set = self.after.missed & !self.before.missed;
        self.slots.looked & self.stored_once & set != 0
    }

    /// One store in a slot that was cleared while New, and it sets New only.
    fn is_new_after_clear(&self) -> bool {
        let set = self.after.new & !self.after.missed;
        self.slots.cleared & self.stored_once & set != 0
    }
}

/// Each with this least count. `of` finds the call in what is drawn.
pub fn kinds<Draw: 'static>(
    least: u64,
    of: fn(&Draw) -> Option<&Noted>,
) -> impl Iterator<Item = Kind<Draw>> {
    let met = move |name: &str, is_met: fn(&Noted) -> bool| {
        kind(name, least, move |draw| of(draw).is_some_and(is_met))
    };
    let is_step = move |step: Step| {
        kind(step.to_string(), least, move |draw| {
            of(draw).is_some_and(|noted| noted.step == step)
        })
    };
    let kinds = [
        met("look while a cycle runs", |noted| {
            noted.cycle.is_some() && noted.seen().is_some()
        }),
        met("clear while a cycle runs", |noted| {
            noted.cycle.is_some() && noted.cleared().is_some()
        }),
        met("look while armed", |noted| {
            noted.cycle == Some(TRIGGER_ONLY) && noted.seen().is_some()
        }),
        met("clear while armed", |noted| {
            noted.cycle == Some(TRIGGER_ONLY) && noted.cleared().is_some()
        }),
        met("look of a clean slot", |noted| noted.seen() == Some(0)),
        met("look of a New code, not Missed", |noted| {
            noted.seen() == Some(1)
        }),
        met("look of a Missed code", |noted| noted.seen() == Some(3)),
        met("clear of a clean slot", |noted| noted.cleared() == Some(0)),
        met("clear of a New slot, not Missed", |noted| {
            noted.cleared() == Some(1)
        }),
        met("clear of a Missed slot", |noted| noted.cleared() == Some(3)),
        met("look between two stores of a slot", |noted| {
            noted.slots.looked & noted.stored != 0
        }),
        met("clear between two stores of a slot", |noted| {
            noted.slots.cleared & noted.stored != 0
        }),
        met("look of a New slot, then a store: Missed", |noted| {
            noted.misses_after_look()
        }),
        met("clear of a New slot, then a store: New only", |noted| {
            noted.is_new_after_clear()
        }),
    ];
    let looks = [31, 32, 255].map(|slot| Step::Look { slot });
    let clears = [31, 32, 255].map(|slot| Step::Clear { slot });
    let steps = looks.into_iter().chain(clears).map(is_step);
    kinds.into_iter().chain(steps)
}

// A read is a look and then a clear.

/// The reads of a mailbox: width, and which byte is the first.
const READS: [(u8, u16); 4] = [(8, 0), (8, 1), (16, 0), (32, 0)];

/// A mailbox read leaves the board as a look and then a clear do, and its value is the code. Each read of a slot on a
/// copy of the board, and look and clear on another.
pub fn check_reads<B: Clone + PartialEq + Debug>(
    board: &B,
    slot: u8,
    call: impl Fn(&mut B, &Call) -> Answer,
    name: &str,
) {
    let mut cleared = board.clone();
    let look = call(&mut cleared, &Call::Look { slot });
    assert!(cleared == *board, "{name}, look {slot} changes {board:?}");
    let clear = call(&mut cleared, &Call::Clear { slot });
    assert_eq!((look.number, clear.number, clear.value), (0, 0, 0));
    let code = look.value & 0xFFFF;
    for (width, byte) in READS {
        let mut read = board.clone();
        let offset = 0x80 + 4 * u16::from(slot) + byte;
        let answer = call(&mut read, &Call::Read { width, offset });
        let covered = match (width, byte) {
            (8, 0) => code & 0xFF,
            (8, _) => code >> 8,
            _ => code,
        };
        let name = || format!("{name}, read {width} {offset:02X}H of {board:?}");
        assert_eq!((answer.number, answer.value), (0, covered), "{}", name());
        assert!(
            read == cleared,
            "{}: it leaves {read:?}, look and clear {cleared:?}",
            name()
        );
    }
}

#[cfg(test)]
mod tests {
    use super::*;
    use crate::board::call::Calls;
    use crate::cases::script::steps;
    use crate::judge::coverage::Coverage;

    /// How often each kind is met in a list on a new board.
    fn counted(script: &str) -> Coverage<Noted> {
        let mut coverage = Coverage::new(kinds(0, |noted: &Noted| Some(noted)).collect());
        let (mut board, mut slots) = (Board::new(1).0, Slots::default());
        for step in steps(script) {
            let before = board.clone();
            assert_eq!(board.call(&step.call), step.expected, "{}", step.call);
            coverage.note(&slots.note(Step::of(&step.call), step.expected, &before, &board));
        }
        coverage
    }

    #[test]
    fn stores_after_looks_and_clears() {
        let coverage = counted(
            "
            look 0 = 0; write 16 04H 0309H; write 16 24H 1; advance 64 = 1; look 1 = 0
            advance 120 = 1; look 0 = 38000H; clear 0; look 0 = 8000H   # a look and a clear, while New
            advance 120 = 1; look 0 = 18000H; look 0 = 18000H           # New only
            advance 120 = 1; clear 0                                    # Missed
            advance 240 = 2; look 0 = 38000H; read 16 80H = 8000H       # two stores after a clear
            advance 120 = 1; look 0 = 18000H; write 16 04H 0; write 16 04H 0309H
            write 16 24H 1; look 0 = 8000H; advance 64 = 1              # a start after a look
            look 0 = 18000H; reset; look 0 = 0; clear 32 refused 22; look 255 refused 22
            ",
        );
        let expected = [
            ("look between two stores of a slot", 3),
            ("clear between two stores of a slot", 2),
            ("look of a New slot, then a store: Missed", 1),
            ("clear of a New slot, then a store: New only", 1),
            ("look while a cycle runs", 9),
            ("clear while a cycle runs", 2),
            ("look of a clean slot", 5),
            ("look of a New code, not Missed", 4),
            ("look of a Missed code", 2),
            ("clear of a Missed slot", 2),
            ("clear of a clean slot", 0),
            ("clear 32", 1),
            ("look 255", 1),
        ];
        for (name, count) in expected {
            assert_eq!(coverage.count(name), count, "{name}");
        }
    }

    /// The store of such a trigger may come after a look or a clear of before, for it clears no bit; and one may come
    /// between it and the next.
    #[test]
    fn stores_of_triggers_before_arming() {
        let coverage = counted(
            "
            write 16 04H 0409H; write 16 24H 1; advance 64 = 1; look 0 = 18000H
            write 16 04H 050BH; trigger; look 0 = 38000H            # Missed after a look
            advance 64; trigger; clear 0; write 16 04H 000BH; write 16 04H 050BH
            trigger; look 0 = 18000H; advance 64; trigger           # New only after a clear, then Missed
            ",
        );
        let expected = [
            ("look between two stores of a slot", 3),
            ("clear between two stores of a slot", 1),
            ("look of a New slot, then a store: Missed", 2),
            ("clear of a New slot, then a store: New only", 1),
        ];
        for (name, count) in expected {
            assert_eq!(coverage.count(name), count, "{name}");
        }
    }
}
