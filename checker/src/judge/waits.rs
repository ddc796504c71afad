//! How long a channel waits for its next store (data sheet, "How long a channel waits"): the stores of the archive's
//! board, found from outside, and those of the schedule.
//!
//! A wait goes from T, or from a store of the channel, to its next store. One that is unfinished at the end counts as
//! if the store came at the next tick. So the longest wait is one tick more than the longest span without a store of
//! the channel, and that any span of so many ticks contains a store says that no wait is longer than that.

use crate::archive::stepped::SteppedBoard;
use crate::board::analog::Answer;
use crate::board::call::{Call, Calls};
use crate::board::registers::{Control, Registers, BURST_CONTINUOUS, UNIFORM_CONTINUOUS};
use crate::board::Board;

/// A store: its tick, since the board was new or reset, and its slot.
#[derive(Clone, Copy, Debug, PartialEq, Eq)]
pub struct Stored {
    pub tick: u64,
    pub slot: usize,
}

/// What a running cycle scans, by what was written.
#[derive(Clone, Copy, Debug, PartialEq, Eq)]
pub struct Scan {
    pub control: Control,
    /// The first channel.
    pub first: usize,
    /// m: the channels in a pass.
    pub m: u64,
    /// I and D, in ticks.
    pub interval: u64,
    pub delay: u64,
}

impl Scan {
    /// The scan that the registers say.
    pub fn of(registers: &Registers) -> Scan {
        Scan {
            control: registers.control,
            first: registers.start as usize,
            m: registers.channels_in_a_pass(),
            interval: registers.interval(),
            delay: registers.delay(),
        }
    }

    /// The longest wait is stated for these two modes only.
    pub fn is_continuous(&self) -> bool {
        matches!(self.control.scan(), UNIFORM_CONTINUOUS | BURST_CONTINUOUS)
    }

    /// The ticks of a pass: m x I in uniform mode and 120 x m + D in burst mode.
    pub fn pass(&self) -> u64 {
        if self.control.is_uniform() {
            self.m * self.interval
        } else {
            120 * self.m + self.delay
        }
    }

    /// A pass and 64 ticks: any span of so many contains a store of every scanned channel.
    pub fn longest_wait_allowed(&self) -> u64 {
        self.pass() + 64
    }

    /// Slots of a differential channel are stored in turn: any two passes plus 64 ticks have a store in each.
    pub fn longest_wait_allowed_of_a_slot(&self) -> u64 {
        2 * self.pass() + 64
    }

    /// By the schedule: conversion k of a cycle that started at this tick. It is stored 64 ticks after it begins.
    fn scheduled_store(&self, start: u64, k: u64) -> Stored {
        let (pass, place) = (k / self.m, k % self.m);
        let begins = if self.control.is_uniform() {
            (k + 1) * self.interval
        } else {
            pass * (120 * self.m + self.delay) + 120 * place
        };
        let is_in_second_half = self.control.is_differential() && pass % 2 == 1;
        let half = if is_in_second_half { 16 } else { 0 };
        Stored {
            tick: start + begins + 64,
            slot: self.first + place as usize + half,
        }
    }

    /// Those up to a tick, if the cycle is not ended by then.
    pub fn scheduled(&self, start: u64, end: u64) -> Vec<Stored> {
        let stores = (0..).map(|k| self.scheduled_store(start, k));
        stores.take_while(|stored| stored.tick <= end).collect()
    }

    /// The channel that a slot is of.
    pub fn channel_of(&self, slot: usize) -> usize {
        if self.control.is_differential() {
            slot % 16
        } else {
            slot
        }
    }
}

/// The longest wait of a channel or a slot.
#[derive(Clone, Copy, Debug, PartialEq, Eq)]
pub struct Wait {
    /// T, or the tick of a store.
    pub from: u64,
    pub ticks: u64,
}

/// A call of a list, and the tick at which it was made.
#[derive(Clone, Copy, Debug)]
pub struct Called {
    pub tick: u64,
    pub call: Call,
    pub number: u64,
}

/// The part of a list that is measured: from the call that started a cycle on.
#[derive(Clone, Debug)]
pub struct Part {
    /// Which one it is, for failures.
    pub name: String,
    pub scan: Scan,
    /// T.
    pub start: u64,
    /// The last tick that was advanced to.
    pub end: u64,
    /// The archive's.
    pub stores: Vec<Stored>,
    pub calls: Vec<Called>,
    /// How many calls of the list came before.
    pub calls_before: usize,
}

impl Part {
    /// The ticks of the measured part.
    pub fn ticks(&self) -> u64 {
        self.end - self.start
    }

    /// The longest wait of each channel, the first of the scan first.
    pub fn waits_of_channels(&self, stores: &[Stored]) -> Vec<Wait> {
        let m = self.scan.m as usize;
        self.longest_waits(stores, m, |slot| self.place_of(slot))
    }

    /// The longest wait of each slot of a differential scan: those of its channels in order, then 16 more.
    pub fn waits_of_slots(&self, stores: &[Stored]) -> Vec<Wait> {
        let m = self.scan.m as usize;
        let place_of = |slot| self.place_of(slot) + slot / 16 * m;
        self.longest_waits(stores, 2 * m, place_of)
    }

    /// The place in a pass of the channel that a slot is of.
    fn place_of(&self, slot: usize) -> usize {
        let place = self.scan.channel_of(slot).checked_sub(self.scan.first);
        let place = place.filter(|place| (*place as u64) < self.scan.m);
        place.unwrap_or_else(|| panic!("{}: a store in slot {slot}, {:?}", self.name, self.scan))
    }

    fn longest_waits(
        &self,
        stores: &[Stored],
        places: usize,
        place_of: impl Fn(usize) -> usize,
    ) -> Vec<Wait> {
        let none = Wait {
            from: self.start,
            ticks: 0,
        };
        let (mut longest, mut last) = (vec![none; places], vec![self.start; places]);
        let ends = (0..places).map(|place| (place, self.end + 1));
        let stores = stores
            .iter()
            .map(|stored| (place_of(stored.slot), stored.tick));
        for (place, tick) in stores.chain(ends) {
            let wait = Wait {
                from: last[place],
                ticks: tick - last[place],
            };
            if wait.ticks > longest[place].ticks {
                longest[place] = wait;
            }
            last[place] = tick;
        }
        longest
    }
}

// The stores of an advance, from outside.

/// An advance of up to so many ticks is made tick by tick to find its stores.
const BY_SINGLE_TICKS: u32 = 100;

/// Copies of a board that go through an advance in small steps: a store is seen on the marked one, where no slot
/// is New before it. The plain one is only advanced.
struct Walk<'a> {
    /// The list, for failures.
    name: &'a str,
    marked: SteppedBoard,
    plain: SteppedBoard,
    tick: u64,
}

impl Walk<'_> {
    fn new<'a>(name: &'a str, board: &SteppedBoard, tick: u64) -> Walk<'a> {
        let mut marked = *board;
        (0..32).for_each(|slot| assert_eq!(marked.clear(slot), 0));
        Walk {
            name,
            marked,
            plain: *board,
            tick,
        }
    }

    /// The stores in so many ticks.
    fn stores(&mut self, ticks: u32) -> Vec<Stored> {
        if ticks <= BY_SINGLE_TICKS {
            return (0..ticks).filter_map(|_| self.single_tick()).collect();
        }
        let mut stores = Vec::new();
        let mut left = ticks;
        loop {
            let next = self.marked.next_store();
            if next == 0 || next > left {
                self.pass_without_store(left);
                return stores;
            }
            self.pass_without_store(next - 1);
            left -= next;
            let stored = self.single_tick();
            stores.push(
                stored.unwrap_or_else(|| panic!("{}: no store at tick {}", self.name, self.tick)),
            );
        }
    }

    fn pass_without_store(&mut self, ticks: u32) {
        for board in [&mut self.marked, &mut self.plain] {
            assert_eq!(
                board.advance(ticks),
                0,
                "{}: no store is to come in {ticks} ticks from tick {} on",
                self.name,
                self.tick
            );
        }
        self.tick += u64::from(ticks);
    }

    /// At most one store comes in a tick. Its slot is the only one that is New.
    fn single_tick(&mut self) -> Option<Stored> {
        let result = self.marked.advance(1);
        let plain = self.plain.advance(1);
        let (name, tick) = (self.name, self.tick);
        assert_eq!(
            plain, result,
            "{name}, after tick {tick}: plain (left), marked"
        );
        self.tick += 1;
        let [low, high] = [0x14, 0x18].map(|offset| self.marked.read(16, offset) / 256);
        let new = low | high << 16;
        let (stores, slots) = (result / 256, u64::from(new.count_ones()));
        assert!(
            result % 256 == 0 && stores <= 1 && slots == stores,
            "{}, tick {}: {stores} stores, New {new:08X}H",
            self.name,
            self.tick
        );
        let slot = new.trailing_zeros();
        (stores == 1).then(|| {
            assert_eq!(self.marked.clear(slot), 0);
            Stored {
                tick: self.tick,
                slot: slot as usize,
            }
        })
    }
}

/// The stores that an advance made, which led from one board to the other. Many short advances end where it did:
/// in all bytes, and with the clears in all but the bits.
fn stores_between(
    name: &str,
    before: &SteppedBoard,
    after: &SteppedBoard,
    tick: u64,
    ticks: u32,
) -> Vec<Stored> {
    let mut walk = Walk::new(name, before, tick);
    let stores = walk.stores(ticks);
    assert!(
        walk.plain == *after && walk.marked.is_same_but_for_bits(after),
        "{name}: advance {ticks} from tick {tick} on leaves another board than many short ones"
    );
    stores
}

// Lists of calls.

/// The archive's board and the independent one, with the same calls on both.
pub struct Watch {
    /// The list, for failures.
    name: String,
    archive: SteppedBoard,
    pub independent: Board,
    pub range: u32,
    /// Since the board was new or reset: the ticks of accepted advances.
    tick: u64,
    pub calls: Vec<Call>,
    part: Option<Part>,
    /// The first answer in which the two differ, also to a look where a measured part ends.
    pub difference: Option<String>,
}

impl Watch {
    /// New boards of a range, by a name for failures.
    pub fn new(name: &str, range: u32) -> Watch {
        let mut archive = SteppedBoard::filled(0xA5);
        assert_eq!(archive.open(range), 0, "a board has a range of 0 to 3");
        Watch {
            name: name.into(),
            archive,
            independent: Board::new(range).0,
            range,
            tick: 0,
            calls: Vec::new(),
            part: None,
            difference: None,
        }
    }

    /// Makes a call on both boards, and finds the stores in it.
    pub fn make(&mut self, call: Call) -> Answer {
        let (before, tick) = (self.archive, self.tick);
        let answer = self.archive.answer(&call);
        let expected = self.independent.call(&call);
        self.compare(&call, answer, expected);
        self.calls.push(call);
        let is_accepted = answer.number == 0;
        match call {
            Call::Advance { ticks } if is_accepted => self.tick += u64::from(ticks),
            Call::Reset if is_accepted => self.tick = 0,
            _ => (),
        }
        let Some(part) = &mut self.part else {
            return answer;
        };
        let number = answer.number;
        part.calls.push(Called { tick, call, number });
        if let (Call::Advance { ticks }, true) = (call, is_accepted) {
            let stores = stores_between(&part.name, &before, &self.archive, tick, ticks);
            let made = stores.len() as u64;
            assert_eq!(made, answer.value, "{}, {call} at tick {tick}", part.name);
            part.stores.extend(stores);
        }
        answer
    }

    /// Not a failure yet: what is measured is looked at first.
    fn compare(&mut self, call: &Call, answer: Answer, expected: Answer) {
        if answer != expected && self.difference.is_none() {
            self.difference = Some(format!(
                "{}, call {}, {call}: the archive answers {answer:?}, expected {expected:?}",
                self.name,
                self.calls.len() + 1
            ));
        }
    }

    /// The cycle that runs is measured from its T, the tick now.
    pub fn begin(&mut self) {
        assert!(self.independent.cycle().is_some(), "no cycle runs");
        self.part = Some(Part {
            name: format!("{}, scan from tick {} on", self.name, self.tick),
            scan: Scan::of(self.independent.registers()),
            start: self.tick,
            end: self.tick,
            stores: Vec::new(),
            calls: Vec::new(),
            calls_before: self.calls.len(),
        });
    }

    /// The measured part ends here; both boards show the same then.
    pub fn end(&mut self) -> Part {
        for slot in 0..32 {
            let call = Call::Look { slot };
            let answer = self.archive.answer(&call);
            let expected = self.independent.call(&call);
            self.compare(&call, answer, expected);
        }
        let part = self.part.take().expect("begun");
        Part {
            end: self.tick,
            ..part
        }
    }
}
