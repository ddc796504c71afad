//! What the calls of made-up traces did, found by looking at the independent board before and after
//! each of them, and the kinds of calls that those traces must reach.

use crate::board::analog::Answer;
use crate::board::call::{Call, Calls, Step};
use crate::board::registers::{
    Control, Register, Registers, BURST_CONTINUOUS, BURST_SINGLE, EACH_STORE, LAST_STORE_OF_A_PASS,
    SCAN_OFF, TRIGGER_INPUT, TRIGGER_ONLY, UNIFORM_CONTINUOUS, UNIFORM_SINGLE,
};
use crate::board::{Board, Cycle, LONGEST_ADVANCE};
use crate::draw::generator::{pass_length, MARKED_ADVANCES};
use crate::judge::before_arming::{self, arms_by_trigger};
use crate::judge::coverage::{kind, Kind};
use crate::judge::history::{History, Noted};
use crate::judge::looks::{self, stored_in};
use std::fmt::Write;
use std::ops::Range;

/// One call of a trace, with the board before and after it.
pub struct Moment {
    pub call: Call,
    pub answer: Answer,
    pub before: Board,
    pub after: Board,
    noted: Noted,
}

/// Plays a call on the board, with what came before.
pub fn played(board: &mut Board, history: &mut History, call: &Call) -> Moment {
    let before = board.clone();
    let answer = board.call(call);
    let noted = history.note(Step::of(call), answer, &before, board);
    Moment {
        call: *call,
        answer,
        before,
        after: board.clone(),
        noted,
    }
}

impl Moment {
    fn registers(&self) -> &Registers {
        self.before.registers()
    }

    fn control(&self) -> Control {
        self.registers().control
    }

    fn is_accepted(&self) -> bool {
        self.answer.number == 0
    }

    /// The cycle that ran before the call.
    fn cycle(&self) -> Option<Cycle> {
        self.before.cycle()
    }

    /// Did a cycle with conversions that begin by themselves run before the call?
    fn is_in_timed_cycle(&self) -> bool {
        self.cycle().is_some() && self.control().scan() != TRIGGER_ONLY
    }

    /// Could a trigger be taken, if enough ticks have passed?
    fn is_armed(&self) -> bool {
        let control = self.control();
        let is_open = control.scan() == TRIGGER_ONLY && control.trigger() == TRIGGER_INPUT;
        self.cycle().is_some() && is_open
    }

    fn is_trigger(&self) -> bool {
        self.call == Call::Trigger
    }

    /// Ticks since the last trigger taken, if one comes now.
    fn trigger_distance(&self) -> Option<u64> {
        let last = self.cycle()?.last_taken?;
        (self.is_trigger() && self.is_armed()).then(|| self.before.tick() - last)
    }

    /// The ticks of an accepted advance.
    fn ticks(&self) -> Option<u32> {
        match self.call {
            Call::Advance { ticks } if self.is_accepted() => Some(ticks),
            _ => None,
        }
    }

    /// The conversions stored in the call: k of the first, and of the first not stored. The store of a
    /// trigger before arming is counted apart.
    pub fn stored(&self) -> Range<u64> {
        stored_in(
            &Step::of(&self.call),
            self.answer,
            &self.before,
            &self.after,
        )
    }

    fn stores(&self) -> bool {
        !self.stored().is_empty()
    }

    /// The last pass with a store in the call.
    fn last_pass(&self) -> Option<u64> {
        let last = self.stored().last()?;
        Some(last / self.registers().channels_in_a_pass())
    }

    /// Did a conversion of an odd pass come to be stored?
    fn stores_odd_pass(&self) -> bool {
        let is_odd = |k: u64| k / self.registers().channels_in_a_pass() % 2 == 1;
        // 64 conversions make two passes at least, and one of the two is odd.
        self.stored().take(64).any(is_odd)
    }

    /// Is this a cycle start? A trigger before arming is none.
    fn starts(&self) -> bool {
        self.before.is_idle() && !self.after.is_idle() && !self.arms_by_trigger()
    }

    /// Is this a trigger that begins an armed cycle?
    pub fn arms_by_trigger(&self) -> bool {
        arms_by_trigger(&Step::of(&self.call), &self.before, &self.after)
    }

    fn is_in_flight(&self) -> bool {
        let in_flight = |cycle: Cycle| cycle.begun > cycle.stored;
        self.is_in_timed_cycle() && self.cycle().is_some_and(in_flight)
    }

    fn sets_pending(&self) -> bool {
        !self.before.is_pending() && self.after.is_pending()
    }

    fn releases_pending(&self) -> bool {
        let is_write = matches!(self.call, Call::Write { .. });
        is_write && self.before.is_pending() && !self.after.is_pending()
    }

    fn sets_missed(&self) -> bool {
        self.after.missed() & !self.before.missed() != 0
    }

    /// Did the cycle that runs start more than 2^32 ticks ago?
    fn is_long_after_start(&self) -> bool {
        let is_long = |cycle: Cycle| self.after.tick() - cycle.start > 1 << 32;
        self.after.cycle().is_some_and(is_long)
    }
}

const SCANS: [(u32, &str); 5] = [
    (UNIFORM_CONTINUOUS, "uniform continuous"),
    (UNIFORM_SINGLE, "uniform single"),
    (BURST_CONTINUOUS, "burst continuous"),
    (BURST_SINGLE, "burst single"),
    (TRIGGER_ONLY, "external trigger only"),
];

fn met(
    name: impl Into<String>,
    least: u64,
    is_met: impl Fn(&Moment) -> bool + 'static,
) -> Kind<Moment> {
    kind(name, least, is_met)
}

/// Every kind of call that the made-up traces must reach, with the least count.
pub fn all_kinds() -> Vec<Kind<Moment>> {
    let mut kinds = call_kinds();
    kinds.extend(number_kinds());
    kinds.extend(border_kinds());
    kinds.extend(scan_kinds());
    kinds.extend(store_kinds());
    kinds.extend(interrupt_kinds());
    kinds.extend(advance_kinds());
    kinds.extend(trigger_kinds());
    kinds.extend(ending_kinds());
    kinds.extend(look_kinds(100));
    kinds.extend(arming_kinds(80));
    kinds
}

fn call_kinds() -> Vec<Kind<Moment>> {
    let of = |name: &str, is_call: fn(&Call) -> bool| {
        met(format!("{name} accepted"), 500, move |moment| {
            moment.is_accepted() && is_call(&moment.call)
        })
    };
    vec![
        of("read", |call| matches!(call, Call::Read { .. })),
        of("write", |call| matches!(call, Call::Write { .. })),
        of("input", |call| matches!(call, Call::Input { .. })),
        of("advance", |call| matches!(call, Call::Advance { .. })),
        of("trigger", |call| *call == Call::Trigger),
        of("reset", |call| *call == Call::Reset),
        of("look", |call| matches!(call, Call::Look { .. })),
        of("clear", |call| matches!(call, Call::Clear { .. })),
    ]
}

/// 14 is the answer to a new board, and question 18 keeps a trace with such a range from playing.
fn number_kinds() -> Vec<Kind<Moment>> {
    let of = |number| {
        met(format!("number {number}"), 200, move |moment| {
            moment.answer.number == number
        })
    };
    (0..=13).chain([22]).map(of).collect()
}

/// Starts on both sides of questions 9 and 10.
fn border_kinds() -> Vec<Kind<Moment>> {
    let is_refused = |moment: &Moment, number| moment.answer.number == number;
    let has_delay_or_is_uniform =
        |moment: &Moment| moment.control().has_delay() || moment.control().is_uniform();
    vec![
        met("9 for Start one above End", 50, move |moment| {
            let registers = moment.registers();
            is_refused(moment, 9) && registers.start == registers.end + 1
        }),
        met("9 for differential End 16", 20, move |moment| {
            let is_differential = moment.control().is_differential();
            is_refused(moment, 9) && is_differential && moment.registers().end == 16
        }),
        met("a start with differential End 15", 200, |moment| {
            let is_differential = moment.control().is_differential();
            moment.starts() && is_differential && moment.registers().end == 15
        }),
        met("10 for I = 63", 100, move |moment| {
            is_refused(moment, 10) && moment.registers().interval() == 63
        }),
        met("a start with I = 64", 500, move |moment| {
            let is_64 = moment.registers().interval() == 64;
            moment.starts() && is_64 && has_delay_or_is_uniform(moment)
        }),
        met("10 for a timer that is off", 20, move |moment| {
            is_refused(moment, 10) && !moment.control().has_timer()
        }),
    ]
}

fn scan_kinds() -> Vec<Kind<Moment>> {
    let mut kinds = Vec::new();
    for (scan, name) in SCANS {
        let is = move |moment: &Moment| moment.control().scan() == scan;
        kinds.push(met(format!("{name}, with a store"), 1_000, move |moment| {
            is(moment) && moment.stores()
        }));
        kinds.push(met(
            format!("{name}, by Start Convert"),
            300,
            move |moment| is(moment) && moment.starts() && !moment.is_trigger(),
        ));
        // In external trigger only mode it is no cycle start.
        let begins = move |moment: &Moment| moment.starts() || moment.arms_by_trigger();
        kinds.push(met(format!("{name}, by a trigger"), 100, move |moment| {
            is(moment) && begins(moment) && moment.is_trigger()
        }));
    }
    for scan in [UNIFORM_CONTINUOUS, BURST_CONTINUOUS, TRIGGER_ONLY] {
        let name = format!("a store of the third pass or later, scan {scan:03b}");
        kinds.push(met(name, 500, move |moment| {
            moment.control().scan() == scan && moment.last_pass() >= Some(2)
        }));
    }
    kinds.push(met(
        "burst continuous with a delay, a store",
        300,
        |moment| moment.control().has_delay() && moment.stores(),
    ));
    for scan in [UNIFORM_CONTINUOUS, BURST_CONTINUOUS, TRIGGER_ONLY] {
        let name = format!("differential, second half, scan {scan:03b}");
        kinds.push(met(name, 300, move |moment| {
            let control = moment.control();
            let is = control.scan() == scan && control.is_differential();
            is && moment.stores_odd_pass()
        }));
    }
    kinds
}

fn store_kinds() -> Vec<Kind<Moment>> {
    let mut kinds = Vec::new();
    for acquisition in [0, 1, 3, 4, 5, 6, 7] {
        let name = format!("acquisition {acquisition:03b}, with a store");
        kinds.push(met(name, 500, move |moment| {
            moment.stores() && moment.control().acquisition() == acquisition
        }));
    }
    for (is_straight, name) in [(true, "straight binary"), (false, "two's complement")] {
        kinds.push(met(format!("{name}, with a store"), 2_000, move |moment| {
            moment.stores() && moment.control().is_straight() == is_straight
        }));
    }
    kinds.push(met("a store on the tick of a beginning", 500, |moment| {
        // I = 64, and not the last store of a single mode.
        let is_fastest = moment.control().is_uniform() && moment.registers().interval() == 64;
        is_fastest && moment.stores() && !moment.after.is_idle()
    }));
    kinds.push(met("Missed set", 1_000, Moment::sets_missed));
    kinds.push(met("32 channels, with a store", 300, |moment| {
        moment.stores() && moment.registers().channels_in_a_pass() == 32
    }));
    kinds.push(met(
        "a mailbox read between the marked codes",
        2_000,
        |moment| {
            let is_mailbox = matches!(
                moment.call,
                Call::Read {
                    offset: 0x80..,
                    width: 16
                }
            );
            let is_marked = matches!(moment.answer.value, 0 | 0x7FFF | 0x8000 | 0xFFFF);
            moment.is_accepted() && is_mailbox && !is_marked
        },
    ));
    kinds
}

fn interrupt_kinds() -> Vec<Kind<Moment>> {
    let mut kinds = vec![met(
        "interrupt 00, a store leaves pending 0",
        500,
        |moment| moment.control().interrupt() == 0 && moment.stores() && !moment.after.is_pending(),
    )];
    for choice in [EACH_STORE, LAST_STORE_OF_A_PASS] {
        let is = move |moment: &Moment| moment.control().interrupt() == choice;
        kinds.push(met(
            format!("interrupt {choice:02b}, a store sets pending"),
            500,
            move |moment| is(moment) && moment.stores() && moment.sets_pending(),
        ));
        kinds.push(met(
            format!("interrupt {choice:02b}, pending released"),
            100,
            move |moment| is(moment) && moment.releases_pending(),
        ));
    }
    kinds.push(met(
        "interrupt 10, a store leaves pending 0",
        300,
        |moment| {
            let is_choice = moment.control().interrupt() == LAST_STORE_OF_A_PASS;
            is_choice && moment.stores() && !moment.after.is_pending()
        },
    ));
    kinds.push(met("request line set", 300, |moment| {
        !moment.before.request_line() && moment.after.request_line()
    }));
    kinds
}

fn advance_kinds() -> Vec<Kind<Moment>> {
    let mut kinds = Vec::new();
    for ticks in MARKED_ADVANCES {
        kinds.push(met(
            format!("advance of {ticks} in a timed cycle"),
            500,
            move |moment| moment.ticks() == Some(ticks) && moment.is_in_timed_cycle(),
        ));
    }
    for (scan, name) in &SCANS[..4] {
        let is = move |moment: &Moment| moment.control().scan() == *scan;
        let name = format!("advance of whole passes, {name}");
        kinds.push(met(name, 200, move |moment| {
            let pass = pass_length(moment.registers());
            let is_whole =
                |ticks: u32| ticks > 0 && pass.is_some_and(|p| u64::from(ticks) % p == 0);
            is(moment) && moment.cycle().is_some() && moment.ticks().is_some_and(is_whole)
        }));
    }
    kinds.push(met("advance of 0", 300, |moment| moment.ticks() == Some(0)));
    let is_longest = |moment: &Moment| moment.ticks() == Some(LONGEST_ADVANCE);
    kinds.push(met("longest advance in a cycle", 500, move |moment| {
        is_longest(moment) && moment.cycle().is_some()
    }));
    kinds.push(met("262,143 and more stores in a call", 10, |moment| {
        moment.answer.value >= 262_143 && moment.ticks().is_some()
    }));
    kinds.push(met(
        "a store more than 2^32 ticks after the start",
        20,
        |moment| moment.is_long_after_start() && moment.stores() && moment.is_in_timed_cycle(),
    ));
    kinds.push(met("a trigger so long after the start", 10, |moment| {
        moment.is_long_after_start() && moment.stores() && moment.is_armed()
    }));
    kinds
}

fn trigger_kinds() -> Vec<Kind<Moment>> {
    let mut kinds = Vec::new();
    for distance in [63, 64, 65] {
        let name = format!("trigger {distance} ticks after the last taken");
        kinds.push(met(name, 300, move |moment| {
            moment.trigger_distance() == Some(distance)
        }));
    }
    kinds.push(met(
        "first trigger of a cycle armed by Start Convert",
        300,
        |moment| {
            let is_first = moment
                .cycle()
                .is_some_and(|cycle| cycle.last_taken.is_none());
            moment.is_trigger() && moment.is_armed() && is_first
        },
    ));
    kinds.push(met("trigger while a timed cycle runs", 300, |moment| {
        moment.is_trigger() && moment.is_in_timed_cycle()
    }));
    kinds.extend(ignored_trigger_kinds());
    kinds
}

fn ignored_trigger_kinds() -> Vec<Kind<Moment>> {
    let is_ignored = |moment: &Moment| {
        let is_input = moment.control().trigger() == TRIGGER_INPUT;
        moment.is_trigger() && is_input && moment.before.is_idle() && moment.after.is_idle()
    };
    vec![
        met(
            "trigger 01 while idle, scan 000: ignored",
            200,
            move |moment| is_ignored(moment) && moment.control().scan() == SCAN_OFF,
        ),
        met(
            "trigger 01 while idle, 9 or 10 not met: ignored",
            300,
            move |moment| is_ignored(moment) && moment.control().scan() != SCAN_OFF,
        ),
        met("trigger ignored for its field", 300, |moment| {
            moment.is_trigger() && moment.control().trigger() != TRIGGER_INPUT
        }),
    ]
}

fn ending_kinds() -> Vec<Kind<Moment>> {
    let stops = |moment: &Moment| {
        matches!(moment.call, Call::Write { .. })
            && moment.cycle().is_some()
            && moment.after.is_idle()
    };
    vec![
        met("a single mode ends", 500, |moment| {
            moment.ticks().is_some() && moment.cycle().is_some() && moment.after.is_idle()
        }),
        met("a stop", 500, stops),
        met("a stop by a byte at 05H", 100, move |moment| {
            let is_byte = matches!(moment.call, Call::Write { width: 8, .. });
            is_byte && stops(moment)
        }),
        met("a stop with a conversion in flight", 300, move |moment| {
            stops(moment) && moment.is_in_flight()
        }),
        met("a reset while busy", 150, |moment| {
            moment.call == Call::Reset && moment.cycle().is_some()
        }),
        met(
            "an input changed with a conversion in flight",
            300,
            |moment| {
                let is_input = matches!(moment.call, Call::Input { .. });
                is_input && moment.is_accepted() && moment.is_in_flight()
            },
        ),
    ]
}

/// Looks and clears, and what came after them, with this least count.
pub fn look_kinds(least: u64) -> Vec<Kind<Moment>> {
    looks::kinds(least, |moment: &Moment| Some(&moment.noted.looks)).collect()
}

/// Triggers before arming, and what came after them, with this least count.
pub fn arming_kinds(least: u64) -> Vec<Kind<Moment>> {
    before_arming::kinds(least, |moment: &Moment| Some(&moment.noted.arming)).collect()
}

// Reads and writes of every register, by width.

/// The ways to reach a register: 8 bits low and high, 16 bits, 32 bits.
const FORMS: usize = 4;

/// Accepted accesses of each mapped word.
pub struct Accesses {
    reads: [[u64; FORMS]; 64],
    writes: [[u64; FORMS]; 64],
}

impl Default for Accesses {
    fn default() -> Accesses {
        Accesses {
            reads: [[0; FORMS]; 64],
            writes: [[0; FORMS]; 64],
        }
    }
}

fn form(width: u8, offset: u16) -> usize {
    match (width, offset % 4) {
        (8, 0) => 0,
        (8, _) => 1,
        (16, _) => 2,
        _ => 3,
    }
}

impl Accesses {
    /// Counts the access of a moment, if it is one that was taken.
    pub fn note(&mut self, moment: &Moment) {
        if !moment.is_accepted() {
            return;
        }
        match moment.call {
            Call::Read { width, offset } => {
                self.reads[usize::from(offset) / 4][form(width, offset)] += 1;
            }
            Call::Write { width, offset, .. } => {
                self.writes[usize::from(offset) / 4][form(width, offset)] += 1;
            }
            _ => (),
        }
    }

    /// Each word with the counts that its register allows: "read" or "write", offset, counts.
    fn rows(&self) -> Vec<(&'static str, usize, [u64; FORMS])> {
        let mut rows = Vec::new();
        for word in 0..64 {
            if let Some(register) = Register::at(4 * word as u32) {
                if register.takes_reads() {
                    rows.push(("read", 4 * word, self.reads[word]));
                }
                if register.takes_writes() {
                    rows.push(("write", 4 * word, self.writes[word]));
                }
            }
        }
        rows
    }

    /// The counts, to be printed.
    pub fn table(&self) -> String {
        let mut table = String::from("accepted: 8 bits low, 8 bits high, 16 bits, 32 bits\n");
        for (direction, offset, counts) in self.rows() {
            let [low, high, middle, wide] = counts;
            let line =
                format!("{low:>6} {high:>6} {middle:>6} {wide:>6}  {direction} {offset:02X}H");
            writeln!(table, "{line}").expect("a String takes all");
        }
        table
    }

    /// Fails if an access was made less often than so.
    pub fn assert_all_met(&self, least: u64) {
        for (direction, offset, counts) in self.rows() {
            let is_met = counts.iter().all(|count| *count >= least);
            assert!(
                is_met,
                "{direction} {offset:02X}H: {counts:?}, fewer than {least}"
            );
        }
    }
}
