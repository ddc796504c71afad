//! Boards that a simulator holds, stepped beside independent ones: four of each, with calls to them in
//! any order, and boards that are saved, restored and swapped in between. After every call the answer, the
//! request line, the next store and the bytes of a refusal or a look are compared, and now and then, and after
//! each trigger before arming, every register and slot.

use crate::archive::answer_of;
use crate::archive::stepped::{changes_what_it_may, SteppedBoard};
use crate::board::analog::Answer;
use crate::board::call::{Calls, Step};
use crate::board::registers::TRIGGER_ONLY;
use crate::board::{Board, LONGEST_ADVANCE};
use crate::draw::generator::next_calls;
use crate::draw::random::Random;
use crate::judge::before_arming;
use crate::judge::coverage::{kind, Coverage, Kind};
use crate::judge::history::{History, Noted};
use crate::judge::looks::{self, check_reads, scan_of_cycle};

/// Boards that are stepped in turn.
const PLACES: usize = 4;

/// What a board shows without a call.
#[derive(Clone, Copy, Debug, PartialEq, Eq)]
pub struct Seen {
    line: u32,
    next_store: u32,
}

/// A call that was made and compared.
pub struct Made {
    pub step: Step,
    pub answer: Answer,
    before: Seen,
    after: Seen,
    /// The scan field of the cycle that ran before and after the call, if one did.
    cycle_before: Option<u32>,
    cycle_after: Option<u32>,
    noted: Noted,
}

/// What is done with the boards.
pub enum Moment {
    Made(Box<Made>),
    Saved,
    /// Copied back, to a place where another board was or the same one.
    Restored {
        is_other: bool,
    },
    Swapped,
    /// Reads were compared with look and clear, of every slot.
    Reads,
}

/// A board of the archive, and the independent one that it must answer as.
#[derive(Clone)]
struct Pair {
    archive: SteppedBoard,
    independent: Board,
    history: History,
}

struct Boards<'a> {
    /// Seed and list, for failures.
    name: String,
    random: Random,
    calls: u32,
    /// Side by side in memory: a call that writes beside its own board hits another.
    archive: [SteppedBoard; PLACES],
    independent: [Board; PLACES],
    /// What came before on each.
    histories: [History; PLACES],
    saved: Vec<Pair>,
    coverage: &'a mut Coverage<Moment>,
}

/// Makes a drawn list of at least so many calls; each list is drawn for itself. Gives their number.
pub fn step_a_list(seed: u64, list: u32, calls: u32, coverage: &mut Coverage<Moment>) -> u32 {
    let own_seed = Random::new(seed).bits() ^ u64::from(list);
    let mut boards = Boards {
        name: format!("seed {seed}, list {list}"),
        random: Random::new(Random::new(own_seed).bits()),
        calls: 0,
        archive: [SteppedBoard::filled(0xA5); PLACES],
        independent: std::array::from_fn(|_| Board::new(0).0),
        histories: [History::default(); PLACES],
        saved: Vec::new(),
        coverage,
    };
    for place in 0..PLACES {
        let range = boards.random.below(4);
        boards.make(place, Step::Open { range });
    }
    while boards.calls < calls {
        boards.turn();
    }
    for place in 0..PLACES {
        boards.compare_all(place);
    }
    boards.calls
}

// One call, and what is compared after it.

fn seen_of_archive(board: &SteppedBoard) -> Seen {
    Seen {
        line: board.line(),
        next_store: board.next_store(),
    }
}

fn seen_of_independent(board: &Board) -> Seen {
    Seen {
        line: board.request_line().into(),
        next_store: board.next_store(),
    }
}

impl Boards<'_> {
    fn make(&mut self, place: usize, step: Step) {
        let archive_before = self.archive;
        let independent = &mut self.independent[place];
        let independent_before = independent.clone();
        let answer = answer_of(self.archive[place].step(&step));
        let expected = independent.step(&step);
        let after = seen_of_independent(independent);
        self.calls += 1;
        let seen = seen_of_archive(&self.archive[place]);
        assert!(
            (answer, seen) == (expected, after),
            "{}, call {}, board {place}, {step}: the archive answers {answer:?}, then {seen:?}, \
             expected {expected:?}, then {after:?}",
            self.name,
            self.calls
        );
        self.check_what_changed(place, &step, answer, &archive_before);
        let independent = &self.independent[place];
        let noted = self.histories[place].note(step, answer, &independent_before, independent);
        // Its store shows in no answer.
        if noted.arming.arms() {
            self.compare_all(place);
        }
        self.coverage.note(&Moment::Made(Box::new(Made {
            step,
            answer,
            before: seen_of_independent(&independent_before),
            after,
            cycle_before: scan_of_cycle(&independent_before),
            cycle_after: scan_of_cycle(independent),
            noted,
        })));
    }

    /// The other boards are as they were, and this one but for what the call may change.
    fn check_what_changed(
        &self,
        place: usize,
        step: &Step,
        answer: Answer,
        before: &[SteppedBoard; PLACES],
    ) {
        for (other, is_before) in before.iter().enumerate() {
            let may_change = other == place && answer.number == 0;
            let is_left = if may_change {
                changes_what_it_may(step, is_before, &self.archive[other])
            } else {
                self.archive[other] == *is_before
            };
            assert!(
                is_left,
                "{}, call {}, board {place}, {step}: number {}, but board {other} has changed",
                self.name, self.calls, answer.number
            );
        }
    }

    /// Every slot, register and mailbox, from copies: neither board changes. Mailboxes are read last.
    fn compare_all(&self, place: usize) {
        let mut archive = self.archive[place];
        let mut independent = self.independent[place].clone();
        let looks = (0..32).map(|slot| Step::Look { slot });
        let offsets = (0..256).step_by(4);
        let reads = offsets.map(|offset| Step::Read { width: 16, offset });
        for step in looks.chain(reads) {
            assert_eq!(
                answer_of(archive.step(&step)),
                independent.step(&step),
                "{}, after call {}, copy of board {place}, {step}: the archive (left)",
                self.name,
                self.calls
            );
        }
    }

    /// Reads beside look and clear, of every slot, on copies of the archive's board.
    fn compare_reads(&mut self, place: usize) {
        let name = format!("{}, after call {}, board {place}", self.name, self.calls);
        for slot in 0..32 {
            check_reads(&self.archive[place], slot, SteppedBoard::answer, &name);
        }
        self.coverage.note(&Moment::Reads);
    }
}

// What is done next.

impl Boards<'_> {
    fn turn(&mut self) {
        let place = self.any_place();
        match self.random.below(64) {
            0 => {
                let range = self.any_range();
                self.make(place, Step::Open { range });
            }
            1 => self.save(place),
            2 => self.restore(place),
            3 => self.swap(place),
            4 => self.compare_all(place),
            5 => self.compare_reads(place),
            6..=13 => self.jump(place),
            14..=18 => {
                let step = beyond_a_trace(&mut self.random);
                self.make(place, step);
            }
            _ => self.steered(place),
        }
    }

    fn any_place(&mut self) -> usize {
        self.random.below(PLACES as u32) as usize
    }

    fn any_range(&mut self) -> u32 {
        let bits = self.random.bits() as u32;
        self.random.pick(&[0, 1, 2, 3, 4, 5, 256, 65_537, bits])
    }

    /// Calls that suit what the board is doing.
    fn steered(&mut self, place: usize) {
        let own = Random::new(self.random.bits());
        for call in next_calls(own, &self.independent[place]) {
            self.make(place, Step::of(&call));
        }
    }

    /// To the next store, or to a tick before it or after it: the archive says where it is.
    fn jump(&mut self, place: usize) {
        let ticks = match self.archive[place].next_store() {
            0 => LONGEST_ADVANCE,
            next => next - 1 + self.random.below(3),
        };
        self.make(place, Step::Advance { ticks });
    }

    fn save(&mut self, place: usize) {
        if self.saved.len() == PLACES {
            self.saved.remove(0);
        }
        self.saved.push(Pair {
            archive: self.archive[place],
            independent: self.independent[place].clone(),
            history: self.histories[place],
        });
        self.coverage.note(&Moment::Saved);
    }

    /// In any place, and more than once perhaps.
    fn restore(&mut self, place: usize) {
        if self.saved.is_empty() {
            return;
        }
        let which = self.random.below(self.saved.len() as u32) as usize;
        let Pair {
            archive,
            independent,
            history,
        } = self.saved[which].clone();
        let is_other = self.archive[place] != archive;
        self.archive[place] = archive;
        self.independent[place] = independent;
        self.histories[place] = history;
        self.coverage.note(&Moment::Restored { is_other });
    }

    fn swap(&mut self, place: usize) {
        let other = self.any_place();
        self.archive.swap(place, other);
        self.independent.swap(place, other);
        self.histories.swap(place, other);
        if place != other {
            self.coverage.note(&Moment::Swapped);
        }
    }
}

/// An argument whose low bits alone would be a good one.
pub fn beyond_a_trace(random: &mut Random) -> Step {
    let far = 1 << random.between(16, 31);
    let beyond_a_byte = random.pick(&[1 << 8, 1 << 9, far]);
    let width = random.pick(&[8, 16, 32]);
    let offset = random.pick(&[0x00, 0x04, 0x0C, 0x14, 0x24, 0x40, 0x80, 0xFC]);
    let (channel, microvolts) = (random.below(32), random.pick(&[0, 1_000_000, -1]));
    let value = 1;
    let any_slot = random.below(32) + beyond_a_byte;
    let slot = random.pick(&[any_slot, any_slot, any_slot, 1 << 8, u32::MAX]);
    match random.below(7) {
        0 => Step::Read {
            width: width + beyond_a_byte,
            offset,
        },
        1 => Step::Write {
            width: width + beyond_a_byte,
            offset,
            value,
        },
        2 => Step::Read {
            width,
            offset: offset + far,
        },
        3 => Step::Write {
            width,
            offset: offset + far,
            value,
        },
        4 => Step::Input {
            channel: channel + beyond_a_byte,
            microvolts,
        },
        5 => Step::Look { slot },
        _ => Step::Clear { slot },
    }
}

// The kinds that drawn lists must reach.

fn made(name: &str, least: u64, is_met: fn(&Made) -> bool) -> Kind<Moment> {
    kind(name, least, move |moment| match moment {
        Moment::Made(made) => is_met(made),
        _ => false,
    })
}

impl Made {
    fn ticks(&self) -> Option<u32> {
        match self.step {
            Step::Advance { ticks } if self.answer.number == 0 => Some(ticks),
            _ => None,
        }
    }

    /// An advance by so many ticks more than those to the next store that was to come.
    fn is_jump(&self, more: i64) -> bool {
        let next = i64::from(self.before.next_store);
        next > 0 && self.ticks().map(i64::from) == Some(next + more)
    }

    fn begins_a_cycle(&self) -> bool {
        self.cycle_before.is_none() && self.cycle_after.is_some()
    }
}

fn kinds_of_numbers() -> impl Iterator<Item = Kind<Moment>> {
    (0..=14).chain([22]).map(|number| {
        let is_met = move |moment: &Moment| match moment {
            Moment::Made(made) => made.answer.number == number,
            _ => false,
        };
        kind(format!("number {number}"), 500, is_met)
    })
}

fn kinds_of_arguments() -> Vec<Kind<Moment>> {
    vec![
        made("width beyond a byte", 500, |made| match made.step {
            Step::Read { width, .. } | Step::Write { width, .. } => width > 0xFF,
            _ => false,
        }),
        made("offset beyond 16 bits", 500, |made| match made.step {
            Step::Read { offset, .. } | Step::Write { offset, .. } => offset > 0xFFFF,
            _ => false,
        }),
        made(
            "channel beyond a byte",
            200,
            |made| matches!(made.step, Step::Input { channel, .. } if channel > 0xFF),
        ),
        made(
            "range beyond a byte",
            100,
            |made| matches!(made.step, Step::Open { range } if range > 0xFF),
        ),
        made(
            "look of a slot beyond a byte",
            500,
            |made| matches!(made.step, Step::Look { slot } if slot > 0xFF),
        ),
        made(
            "clear of a slot beyond a byte",
            500,
            |made| matches!(made.step, Step::Clear { slot } if slot > 0xFF),
        ),
        made("look of slot 256", 100, |made| {
            made.step == Step::Look { slot: 256 }
        }),
        made("clear of slot 256", 100, |made| {
            made.step == Step::Clear { slot: 256 }
        }),
        made("look of slot 4,294,967,295", 100, |made| {
            made.step == Step::Look { slot: u32::MAX }
        }),
        made("clear of slot 4,294,967,295", 100, |made| {
            made.step == Step::Clear { slot: u32::MAX }
        }),
    ]
}

fn kinds_of_jumps() -> Vec<Kind<Moment>> {
    vec![
        made("advance to the next store", 1_000, |made| made.is_jump(0)),
        made("advance to a tick before it", 1_000, |made| {
            made.is_jump(-1)
        }),
        made("advance to a tick after it", 1_000, |made| made.is_jump(1)),
        made("longest advance, no store to come", 1_000, |made| {
            made.before.next_store == 0 && made.ticks() == Some(LONGEST_ADVANCE)
        }),
        made("next store more than 1,000,000 ticks away", 1_000, |made| {
            made.after.next_store > 1_000_000
        }),
        made("advance with more than one store", 1_000, |made| {
            made.ticks().is_some() && made.answer.value > 1
        }),
    ]
}

fn kinds_of_cycles() -> Vec<Kind<Moment>> {
    let names = ["uniform continuous", "uniform single"];
    let more = ["burst continuous", "burst single"];
    let running = names.into_iter().chain(more).zip(1..).map(|(name, scan)| {
        kind(
            format!("next store to come, {name}"),
            1_000,
            move |moment: &Moment| match moment {
                Moment::Made(made) => made.after.next_store > 0 && made.cycle_after == Some(scan),
                _ => false,
            },
        )
    });
    let others = [
        made("none to come, armed", 1_000, |made| {
            made.after.next_store == 0 && made.cycle_after == Some(TRIGGER_ONLY)
        }),
        made("none to come, idle", 1_000, |made| {
            made.after.next_store == 0 && made.cycle_after.is_none()
        }),
        made("cycle started by a trigger, scan 001 to 100", 50, |made| {
            let is_timed = made.cycle_after != Some(TRIGGER_ONLY);
            made.begins_a_cycle() && made.step == Step::Trigger && is_timed
        }),
        made("cycle armed by Start Convert", 300, |made| {
            let is_armed = made.cycle_after == Some(TRIGGER_ONLY);
            made.begins_a_cycle() && made.step != Step::Trigger && is_armed
        }),
        made("cycle ended by its last store", 500, |made| {
            made.cycle_before.is_some() && made.cycle_after.is_none() && made.ticks().is_some()
        }),
        made("running board opened anew", 50, |made| {
            made.cycle_before.is_some()
                && made.answer.number == 0
                && matches!(made.step, Step::Open { .. })
        }),
    ];
    running.chain(others).collect()
}

fn kinds_of_the_line() -> Vec<Kind<Moment>> {
    vec![
        made("request line 1", 1_000, |made| made.after.line == 1),
        made("request line goes to 1", 100, |made| {
            made.before.line < made.after.line
        }),
        made("request line goes to 0", 100, |made| {
            made.before.line > made.after.line
        }),
        made("trigger brings it to 1", 50, |made| {
            made.before.line < made.after.line && made.step == Step::Trigger
        }),
    ]
}

fn kinds_of_copies() -> Vec<Kind<Moment>> {
    vec![
        kind("board saved", 500, |moment| matches!(moment, Moment::Saved)),
        kind("board restored over another", 500, |moment| {
            matches!(moment, Moment::Restored { is_other: true })
        }),
        kind("boards swapped", 500, |moment| {
            matches!(moment, Moment::Swapped)
        }),
        kind("reads beside look and clear, all slots", 500, |moment| {
            matches!(moment, Moment::Reads)
        }),
    ]
}

fn look_of(moment: &Moment) -> Option<&looks::Noted> {
    match moment {
        Moment::Made(made) => Some(&made.noted.looks),
        _ => None,
    }
}

fn arming_of(moment: &Moment) -> Option<&before_arming::Noted> {
    match moment {
        Moment::Made(made) => Some(&made.noted.arming),
        _ => None,
    }
}

/// Each with the least count for the test's calls.
pub fn all_kinds() -> Vec<Kind<Moment>> {
    kinds_of_numbers()
        .chain(kinds_of_arguments())
        .chain(kinds_of_jumps())
        .chain(kinds_of_cycles())
        .chain(kinds_of_the_line())
        .chain(kinds_of_copies())
        .chain(looks::kinds(300, look_of))
        .chain(before_arming::kinds(300, arming_of))
        .collect()
}
