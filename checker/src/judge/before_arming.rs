//! Triggers before arming: what they found on the board, and what came after them; the kinds that
//! lists of calls must reach.

use crate::board::analog::Answer;
use crate::board::call::Step;
use crate::board::registers::{
    Registers, EACH_STORE, LAST_STORE_OF_A_PASS, TRIGGER_INPUT, TRIGGER_ONLY,
};
use crate::board::{Board, Cycle};
use crate::judge::coverage::{kind, Kind};
use crate::judge::looks::scan_of_cycle;

/// Is this a trigger on an idle board in external trigger only mode that begins an armed cycle?
pub fn arms_by_trigger(step: &Step, before: &Board, after: &Board) -> bool {
    *step == Step::Trigger && before.is_idle() && scan_of_cycle(after) == Some(TRIGGER_ONLY)
}

/// How a cycle came to its end.
#[derive(Clone, Copy, Debug, PartialEq, Eq)]
enum End {
    /// By the last store of a single mode.
    Finished,
    /// Stopped in scan 001 to 100, with a conversion in progress.
    InProgress,
    /// Stopped, and it was begun by a trigger before arming.
    BegunByTrigger,
    Stopped,
}

/// What came before on a board, since it was new or reset.
#[derive(Clone, Copy, Debug, Default)]
pub struct Arming {
    /// The format in force when the last code was taken, true for straight; none if no code was taken.
    taken: Option<bool>,
    /// Has the reset forgotten a code?
    has_forgotten: bool,
    /// The end of the last cycle that ended.
    last_end: Option<End>,
    /// Was the cycle that runs begun by a trigger before arming?
    is_begun_by_trigger: bool,
    /// What was done to the Start Channel's slot since that trigger.
    is_looked_at: bool,
    is_cleared: bool,
    is_read: bool,
}

/// A call, with what came before it.
#[derive(Clone, Debug)]
pub struct Noted {
    step: Step,
    answer: Answer,
    before: Board,
    after: Board,
    arming: Arming,
}

impl Arming {
    /// Notes a call that was made on the board.
    pub fn note(&mut self, step: Step, answer: Answer, before: &Board, after: &Board) -> Noted {
        let noted = Noted {
            step,
            answer,
            before: before.clone(),
            after: after.clone(),
            arming: *self,
        };
        if answer.number == 0 {
            self.follow(&noted);
        }
        noted
    }

    fn follow(&mut self, noted: &Noted) {
        match noted.step {
            Step::Open { .. } => *self = Arming::default(),
            Step::Reset => {
                *self = Arming {
                    has_forgotten: self.taken.is_some(),
                    ..Arming::default()
                }
            }
            _ => {
                self.follow_codes(noted);
                self.follow_cycles(noted);
                self.follow_slot(noted);
            }
        }
    }

    /// Control's format stays as it is while a cycle runs.
    fn follow_codes(&mut self, noted: &Noted) {
        let is_begun = noted.after.cycle().is_some_and(|cycle| cycle.begun > 0);
        let is_store = matches!(noted.step, Step::Advance { .. }) && noted.answer.value > 0;
        if is_begun || is_store {
            self.taken = Some(noted.is_straight());
        }
    }

    fn follow_cycles(&mut self, noted: &Noted) {
        if noted.arms() {
            self.is_begun_by_trigger = true;
            (self.is_looked_at, self.is_cleared, self.is_read) = (false, false, false);
        }
        if let (Some(cycle), true) = (noted.cycle(), noted.after.is_idle()) {
            self.last_end = Some(match noted.step {
                Step::Advance { .. } => End::Finished,
                _ if self.is_begun_by_trigger => End::BegunByTrigger,
                _ if noted.scan() != TRIGGER_ONLY && cycle.begun > cycle.stored => End::InProgress,
                _ => End::Stopped,
            });
            self.is_begun_by_trigger = false;
        }
    }

    fn follow_slot(&mut self, noted: &Noted) {
        let start = noted.registers().start;
        match noted.step {
            Step::Look { slot } if slot == start => self.is_looked_at = true,
            Step::Clear { slot } if slot == start => self.is_cleared = true,
            Step::Read { offset, .. } if offset / 4 == 0x20 + start => self.is_read = true,
            _ => (),
        }
    }
}

// The kinds that must be met.

impl Noted {
    /// Is this a trigger before arming that begins a cycle?
    pub fn arms(&self) -> bool {
        arms_by_trigger(&self.step, &self.before, &self.after)
    }

    fn registers(&self) -> &Registers {
        self.before.registers()
    }

    fn scan(&self) -> u32 {
        self.registers().control.scan()
    }

    fn is_straight(&self) -> bool {
        self.registers().control.is_straight()
    }

    fn is_differential(&self) -> bool {
        self.registers().control.is_differential()
    }

    /// The cycle that ran before the call.
    fn cycle(&self) -> Option<Cycle> {
        self.before.cycle()
    }

    /// A trigger that leaves an idle board idle in external trigger only mode, with trigger field 01 or not.
    fn is_ignored_while_idle(&self, is_field_01: bool) -> bool {
        let is_trigger = self.step == Step::Trigger && self.scan() == TRIGGER_ONLY;
        let is_field = self.registers().control.trigger() == TRIGGER_INPUT;
        is_trigger && is_field == is_field_01 && self.before.is_idle() && self.after.is_idle()
    }

    /// The first conversion of a cycle that a trigger before arming began comes to be stored.
    fn stores_first_conversion(&self) -> bool {
        let stored = |cycle: Option<Cycle>| cycle.map(|cycle| cycle.stored);
        let is_first = stored(self.cycle()) == Some(0) && stored(self.after.cycle()) == Some(1);
        self.arming.is_begun_by_trigger && is_first
    }

    /// A conversion of an odd pass comes to be stored in such a cycle, differential.
    fn stores_odd_pass(&self) -> bool {
        let (Some(before), Some(after)) = (self.cycle(), self.after.cycle()) else {
            return false;
        };
        let is_odd = before.stored / self.registers().channels_in_a_pass() % 2 == 1;
        let is_store = after.stored > before.stored && self.is_differential();
        self.arming.is_begun_by_trigger && is_store && is_odd
    }

    /// Interrupt field, one channel or more, and pending before and after, in a cycle or at its beginning.
    fn is_interrupt(&self, field: u32, is_one_channel: bool, pending: (bool, bool)) -> bool {
        let is_field = self.registers().control.interrupt() == field;
        let is_pass = (self.registers().channels_in_a_pass() == 1) == is_one_channel;
        is_field && is_pass && pending == (self.before.is_pending(), self.after.is_pending())
    }

    /// The bit of the Start Channel's slot among New or Missed bits.
    fn start_bit(&self, bits: u32) -> bool {
        bits >> self.registers().start & 1 == 1
    }

    /// The bits of all other slots.
    fn other_bits(&self, bits: u32) -> u32 {
        bits & !(1 << self.registers().start)
    }

    /// A write in such a cycle: is it to Start Convert, and its number.
    fn is_write(&self, is_start_convert: bool, number: u64) -> bool {
        let is_offset = match self.step {
            Step::Write { offset, .. } => (offset / 4 == 0x24 / 4) == is_start_convert,
            _ => false,
        };
        self.arming.is_begun_by_trigger && is_offset && self.answer.number == number
    }

    /// A trigger so many ticks after the one before arming, with none taken in between, and how many
    /// conversions are then begun.
    fn is_second_trigger(&self, ticks: u64, begun: u64) -> bool {
        let is_first_left = self.arming.is_begun_by_trigger && self.step == Step::Trigger;
        let last = |cycle: Cycle| (cycle.begun == 1).then_some(cycle.last_taken)?;
        let is_so_long = self.cycle().and_then(last) == self.before.tick().checked_sub(ticks);
        let is_begun = self.after.cycle().is_some_and(|cycle| cycle.begun == begun);
        is_first_left && is_so_long && is_begun
    }
}

type Named = (&'static str, fn(&Noted) -> bool);

/// What it stores, and what came before.
const CODES: [Named; 9] = [
    (
        "trigger before arming, no code since reset, straight",
        |noted| noted.arms() && noted.arming.taken.is_none() && noted.is_straight(),
    ),
    (
        "trigger before arming, no code since reset, two's complement",
        |noted| noted.arms() && noted.arming.taken.is_none() && !noted.is_straight(),
    ),
    (
        "trigger before arming, the reset has forgotten a code",
        |noted| noted.arms() && noted.arming.taken.is_none() && noted.arming.has_forgotten,
    ),
    ("trigger before arming, an older code", |noted| {
        noted.arms() && noted.arming.taken.is_some()
    }),
    (
        "trigger before arming, after a stop with a conversion in progress",
        |noted| noted.arms() && noted.arming.last_end == Some(End::InProgress),
    ),
    (
        "trigger before arming, after a finished single scan",
        |noted| noted.arms() && noted.arming.last_end == Some(End::Finished),
    ),
    (
        "trigger before arming, after a stop of a cycle so begun",
        |noted| noted.arms() && noted.arming.last_end == Some(End::BegunByTrigger),
    ),
    (
        "trigger before arming, the code taken in the other format",
        |noted| noted.arms() && noted.arming.taken == Some(!noted.is_straight()),
    ),
    (
        "trigger before arming, it stores another code than it takes",
        |noted| noted.arms() && noted.before.code_last_taken() != noted.after.code_last_taken(),
    ),
];

const IGNORED: [Named; 3] = [
    (
        "trigger on an idle board in scan 101, Start above End: ignored",
        |noted| {
            noted.is_ignored_while_idle(true) && noted.registers().start > noted.registers().end
        },
    ),
    (
        "trigger on an idle board in scan 101, differential End above 15: ignored",
        |noted| {
            let is_met = noted.registers().start <= noted.registers().end;
            noted.is_ignored_while_idle(true) && is_met
        },
    ),
    (
        "trigger on an idle board in scan 101, field 00 or 10: ignored",
        |noted| noted.is_ignored_while_idle(false),
    ),
];

const INTERRUPTS: [Named; 6] = [
    (
        "trigger before arming, m = 1, interrupt 10: pending stays 0",
        |noted| noted.arms() && noted.is_interrupt(LAST_STORE_OF_A_PASS, true, (false, false)),
    ),
    (
        "the next store, m = 1, interrupt 10: pending set",
        |noted| {
            noted.stores_first_conversion()
                && noted.is_interrupt(LAST_STORE_OF_A_PASS, true, (false, true))
        },
    ),
    (
        "trigger before arming, m > 1, interrupt 10: pending stays 0",
        |noted| noted.arms() && noted.is_interrupt(LAST_STORE_OF_A_PASS, false, (false, false)),
    ),
    (
        "trigger before arming, m = 1, interrupt 01: pending set",
        |noted| noted.arms() && noted.is_interrupt(EACH_STORE, true, (false, true)),
    ),
    (
        "trigger before arming, m > 1, interrupt 01: pending set",
        |noted| noted.arms() && noted.is_interrupt(EACH_STORE, false, (false, true)),
    ),
    ("trigger before arming, pending stays 1", |noted| {
        noted.arms() && noted.before.is_pending() && noted.after.is_pending()
    }),
];

const BITS: [Named; 6] = [
    ("trigger before arming, differential", |noted| {
        noted.arms() && noted.is_differential()
    }),
    (
        "a store of an odd pass in its cycle, differential",
        Noted::stores_odd_pass,
    ),
    ("trigger before arming, another slot stays New", |noted| {
        noted.arms() && noted.other_bits(noted.before.new_bits() & noted.after.new_bits()) != 0
    }),
    (
        "trigger before arming, another slot stays Missed",
        |noted| noted.arms() && noted.other_bits(noted.before.missed() & noted.after.missed()) != 0,
    ),
    (
        "trigger before arming, Start's slot was New and becomes Missed",
        |noted| {
            let sets = noted.start_bit(noted.after.missed() & !noted.before.missed());
            noted.arms() && noted.start_bit(noted.before.new_bits()) && sets
        },
    ),
    (
        "trigger before arming, Start's slot was clean and is New only",
        |noted| {
            let sets = noted.start_bit(noted.after.new_bits() & !noted.before.new_bits());
            noted.arms() && sets && !noted.start_bit(noted.after.missed())
        },
    ),
];

/// What comes after it.
const LATER: [Named; 11] = [
    ("look after its store, then the next: Missed", |noted| {
        let is_taken = noted.arming.is_cleared || noted.arming.is_read;
        let is_missed = noted.start_bit(noted.after.missed());
        noted.stores_first_conversion() && noted.arming.is_looked_at && !is_taken && is_missed
    }),
    ("clear after its store, then the next: New only", |noted| {
        let is_missed = noted.start_bit(noted.after.missed());
        noted.stores_first_conversion() && noted.arming.is_cleared && !is_missed
    }),
    (
        "mailbox read after its store, then the next: New only",
        |noted| {
            let is_missed = noted.start_bit(noted.after.missed());
            noted.stores_first_conversion() && noted.arming.is_read && !is_missed
        },
    ),
    ("trigger 63 ticks after it: ignored", |noted| {
        noted.is_second_trigger(63, 1)
    }),
    ("trigger 64 ticks after it: taken", |noted| {
        noted.is_second_trigger(64, 2)
    }),
    ("Start Convert refused with 6 in its cycle", |noted| {
        noted.is_write(true, 6)
    }),
    ("another write refused with 6 in its cycle", |noted| {
        noted.is_write(false, 6)
    }),
    (
        "Start Convert without bit 0 accepted in its cycle",
        |noted| noted.is_write(true, 0),
    ),
    ("Interrupt written in its cycle", |noted| {
        noted.is_write(false, 0) && !noted.after.is_idle()
    }),
    ("a stop of its cycle", |noted| {
        noted.is_write(false, 0) && noted.after.is_idle()
    }),
    ("a reset in its cycle", |noted| {
        noted.arming.is_begun_by_trigger && noted.step == Step::Reset
    }),
];

/// Each with this least count. `of` finds the call in what is drawn.
pub fn kinds<Draw: 'static>(
    least: u64,
    of: fn(&Draw) -> Option<&Noted>,
) -> impl Iterator<Item = Kind<Draw>> {
    let named = CODES.into_iter().chain(IGNORED).chain(INTERRUPTS);
    named
        .chain(BITS)
        .chain(LATER)
        .map(move |(name, is_met)| kind(name, least, move |draw| of(draw).is_some_and(is_met)))
}

#[cfg(test)]
mod tests {
    use super::*;
    use crate::board::call::Calls;
    use crate::cases::script::steps;
    use crate::judge::coverage::Coverage;

    /// How often each kind is met in a list on a new board.
    fn counted(script: &str) -> Coverage<Noted> {
        let mut coverage = Coverage::new(kinds(0, |noted: &Noted| Some(noted)).collect());
        let (mut board, mut arming) = (Board::new(1).0, Arming::default());
        for step in steps(script) {
            let before = board.clone();
            assert_eq!(board.call(&step.call), step.expected, "{}", step.call);
            let made = Step::of(&step.call);
            coverage.note(&arming.note(made, step.expected, &before, &board));
        }
        coverage
    }

    fn check(script: &str, expected: &[(&str, u64)]) {
        let coverage = counted(script);
        for (name, count) in expected {
            assert_eq!(coverage.count(name), *count, "{name}");
        }
    }

    #[test]
    fn codes_of_before() {
        check(
            "
            write 16 04H 050BH; trigger; write 16 04H 000BH     # straight, none taken
            write 16 04H 050AH; trigger; reset                  # the same again, in the other format
            write 16 04H 050AH; trigger; reset                  # two's complement, none taken, one forgotten
            write 16 04H 0409H; write 16 24H 1; advance 64 = 1; write 16 04H 050BH; trigger   # finished
            write 16 04H 000AH; write 16 04H 0308H; write 16 24H 1; advance 63
            write 16 04H 0008H; write 16 04H 050BH; trigger     # a conversion in progress
            write 16 04H 000BH; write 16 04H 0309H; write 16 24H 1; advance 64 = 1
            write 16 04H 0009H; write 16 04H 050BH; trigger     # none in progress
            ",
            &[
                ("trigger before arming, no code since reset, straight", 1),
                ("trigger before arming, no code since reset, two's complement", 1),
                ("trigger before arming, the reset has forgotten a code", 1),
                ("trigger before arming, an older code", 4),
                ("trigger before arming, after a stop of a cycle so begun", 1),
                ("trigger before arming, after a finished single scan", 1),
                ("trigger before arming, after a stop with a conversion in progress", 1),
                ("trigger before arming, the code taken in the other format", 2),
                ("trigger before arming, it stores another code than it takes", 2),
                ("a stop of its cycle", 3),
                ("a reset in its cycle", 2),
            ],
        );
    }

    #[test]
    fn ignored_ones_and_bits() {
        check(
            "
            write 16 04H 0503H; write 16 10H 0001H; trigger; write 16 10H 1000H; trigger; trigger
            write 16 04H 0501H; trigger; write 16 04H 0301H; write 16 10H 0100H; write 16 24H 1
            advance 184 = 2; write 16 04H 0; trigger; write 16 04H 0503H; trigger   # slots 0 and 1 New
            advance 64; trigger; advance 64; trigger; advance 64; trigger           # slots 0, 1 and 16
            write 16 04H 0; write 16 04H 0503H; write 16 10H 0202H; trigger         # a clean one
            ",
            &[
                ("trigger on an idle board in scan 101, Start above End: ignored", 1),
                ("trigger on an idle board in scan 101, differential End above 15: ignored", 2),
                ("trigger on an idle board in scan 101, field 00 or 10: ignored", 1),
                ("trigger before arming, differential", 2),
                ("a store of an odd pass in its cycle, differential", 1),
                ("trigger before arming, another slot stays New", 2),
                ("trigger before arming, another slot stays Missed", 1),
                ("trigger before arming, Start's slot was New and becomes Missed", 1),
                ("trigger before arming, Start's slot was clean and is New only", 1),
                ("trigger 64 ticks after it: taken", 1),
            ],
        );
    }

    #[test]
    fn interrupts() {
        check(
            "
            write 16 04H 250BH; trigger; advance 64; trigger; advance 64; trigger
            write 16 04H 200BH; write 16 04H 250BH; trigger                         # pending was 1
            write 16 04H 200BH; write 16 00H 8000H; write 16 04H 150BH; trigger; write 16 00H 8000H
            write 16 04H 000BH; write 16 04H 150BH; write 16 10H 0100H; trigger; write 16 00H 8000H
            write 16 04H 000BH; write 16 04H 250BH; trigger
            ",
            &[
                (
                    "trigger before arming, m = 1, interrupt 10: pending stays 0",
                    1,
                ),
                ("the next store, m = 1, interrupt 10: pending set", 1),
                (
                    "trigger before arming, m > 1, interrupt 10: pending stays 0",
                    1,
                ),
                ("trigger before arming, m = 1, interrupt 01: pending set", 1),
                ("trigger before arming, m > 1, interrupt 01: pending set", 1),
                ("trigger before arming, pending stays 1", 1),
                ("Interrupt written in its cycle", 2),
            ],
        );
    }

    #[test]
    fn what_comes_after() {
        let again = "write 16 04H 000BH; clear 0; write 16 04H 050BH; trigger";
        let script = format!(
            "
            write 16 04H 050BH; trigger; look 0 = 10000H; advance 63; trigger; advance 1; trigger
            {again}; clear 0; advance 64; trigger; clear 0; advance 64; trigger
            {again}; read 8 80H = 0; look 0 = 8000H; advance 65; trigger
            {again}; look 1 = 0; clear 16; read 16 84H = 0; advance 64; trigger
            write 16 24H 1 refused 6; write 8 25H 1; write 16 24H 2; write 16 0CH 1 refused 6
            write 16 04H 0; write 16 04H 050BH; write 16 24H 1; write 16 24H 1 refused 6
            "
        );
        check(
            &script,
            &[
                ("look after its store, then the next: Missed", 1),
                ("clear after its store, then the next: New only", 1),
                ("mailbox read after its store, then the next: New only", 1),
                ("trigger 63 ticks after it: ignored", 1),
                ("trigger 64 ticks after it: taken", 3),
                ("Start Convert refused with 6 in its cycle", 1),
                ("another write refused with 6 in its cycle", 1),
                ("Start Convert without bit 0 accepted in its cycle", 2),
                ("a stop of its cycle", 4),
            ],
        );
    }
}
