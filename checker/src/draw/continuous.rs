//! Made-up lists of calls with continuous scans in them, each measured from its start on: with no stop and
//! no reset, but with all other calls, until the measured part ends.

use crate::board::call::{Call, Calls};
use crate::board::registers::{BURST_CONTINUOUS, SINGLE_ENDED, TRIGGER_INPUT, UNIFORM_CONTINUOUS};
use crate::board::LONGEST_ADVANCE;
use crate::draw::generator::next_calls;
use crate::draw::random::Random;
use crate::judge::coverage::{kind, Kind};
use crate::judge::waits::{Called, Part, Scan, Wait, Watch};

/// What came before a scan that is measured, and how it was started.
#[derive(Clone, Copy, Debug, Default)]
pub struct Before {
    pub resets: u32,
    /// Cycles since the last reset.
    pub cycles: u32,
    /// Some slot was New when it started.
    pub has_old_bits: bool,
    /// Stopped and started again, with all registers as they were.
    pub is_started_again: bool,
    pub is_by_trigger: bool,
}

/// A measured scan.
pub struct Drawn {
    pub part: Part,
    pub before: Before,
    /// The longest wait of all its channels.
    pub longest: Wait,
}

/// The most stores that one advance can make: 16,777,216 / 64.
const MOST_STORES: u64 = 262_144;

struct Maker {
    random: Random,
    watch: Watch,
    resets: u32,
    cycles: u32,
    /// One advance in a measured part makes at most so many stores.
    most_stores: u64,
}

/// A list of one to three measured scans, on a new board. Each list is drawn for itself.
pub fn draw_list(seed: u64, list: u32) -> (Watch, Vec<Drawn>) {
    let name = format!("seed {seed}, list {list}");
    let own_seed = Random::new(seed).bits() ^ u64::from(list);
    let mut random = Random::new(Random::new(own_seed).bits());
    let mut maker = Maker {
        watch: Watch::new(&name, random.below(4)),
        random,
        resets: 0,
        cycles: 0,
        // Now and then as many as an advance can make.
        most_stores: if list % 1_000 == 0 {
            MOST_STORES
        } else {
            4_000
        },
    };
    let scans = maker.random.pick(&[1, 2, 2, 3]);
    let drawn = (0..scans).map(|_| maker.measured_scan()).collect();
    (maker.watch, drawn)
}

impl Maker {
    fn measured_scan(&mut self) -> Drawn {
        let is_running = !self.watch.independent.is_idle();
        let is_started_again = is_running && self.random.one_in(4);
        if is_started_again {
            self.stop_and_keep_the_scan();
        } else {
            self.earlier_calls();
            self.come_to_rest();
            self.set_up();
        }
        let mut before = Before {
            resets: self.resets,
            cycles: self.cycles,
            has_old_bits: self.watch.independent.new_bits() != 0,
            is_started_again,
            is_by_trigger: false,
        };
        before.is_by_trigger = self.start();
        self.watch.begin();
        self.run();
        let part = self.watch.end();
        let waits = part.waits_of_channels(&part.stores);
        let longest = waits.into_iter().max_by_key(|wait| wait.ticks);
        Drawn {
            part,
            before,
            longest: longest.expect("a scan has a channel"),
        }
    }

    fn make(&mut self, call: Call) {
        let was_idle = self.watch.independent.is_idle();
        self.watch.make(call);
        if call == Call::Reset {
            (self.resets, self.cycles) = (self.resets + 1, 0);
        }
        let begins = was_idle && !self.watch.independent.is_idle();
        self.cycles += u32::from(begins);
    }

    fn write(&mut self, width: u8, offset: u16, value: u32) {
        self.make(Call::Write {
            width,
            offset,
            value,
        });
    }

    /// As one word, or as two bytes.
    fn write_word(&mut self, offset: u16, word: u32) {
        if self.random.one_in(4) {
            self.write(8, offset, word & 0xFF);
            self.write(8, offset + 1, word >> 8);
        } else {
            self.write(16, offset, word);
        }
    }

    /// So many ticks, in as many advances as they need, or more.
    fn advance_by(&mut self, ticks: u64) {
        let mut left = ticks;
        loop {
            let most = left.min(LONGEST_ADVANCE.into());
            let part = match self.random.below(6) {
                0 => self.random.bits() % (most + 1),
                _ => most,
            };
            self.make(Call::Advance { ticks: part as u32 });
            left -= part;
            if left == 0 {
                return;
            }
        }
    }
}

// Before the measured part.

impl Maker {
    /// Whatever suits the board: other cycles, stops, resets, and the bits and codes that they leave.
    fn earlier_calls(&mut self) {
        let steps = self.random.pick(&[0, 0, 5, 20, 40]);
        for _ in 0..steps {
            let own = Random::new(self.random.bits());
            for call in next_calls(own, &self.watch.independent) {
                let is_long = matches!(call, Call::Advance { ticks } if ticks > 3_000);
                if !is_long || self.random.one_in(20) {
                    self.make(call);
                }
            }
        }
    }

    /// A stop, if a cycle runs, or a reset; and some ticks more.
    fn come_to_rest(&mut self) {
        match self.random.below(8) {
            0 | 1 => self.make(Call::Reset),
            _ if self.watch.independent.is_idle() => (),
            2 => self.write(8, 0x05, 0),
            _ => {
                let word = self.watch.independent.registers().control.word();
                self.write(16, 0x04, word & !0x0700);
            }
        }
        let ticks = self.random.pick(&[0, 1, 63, 500, 5_000]);
        let ticks = self.random.below(ticks + 1);
        self.advance_by(ticks.into());
    }

    fn stop_and_keep_the_scan(&mut self) {
        let control = self.watch.independent.registers().control;
        self.write(8, 0x05, 0);
        let ticks = self.random.below(300);
        self.advance_by(ticks.into());
        self.write(8, 0x05, control.word() >> 8);
    }

    fn set_up(&mut self) {
        let control = self.any_control();
        let is_differential = control >> 3 & 0b111 == 0;
        let channels = self.any_channels(is_differential);
        let has_timer = control >> 11 & 1 == 1;
        let (prescaler, timer) = self.any_interval(has_timer);
        let words = [
            (0x04, control),
            (0x08, prescaler << 8),
            (0x0C, timer),
            (0x10, channels),
        ];
        for (offset, word) in self.random.turned(words) {
            self.write_word(offset, word);
        }
    }

    fn any_control(&mut self) -> u32 {
        let random = &mut self.random;
        let scan = random.pick(&[UNIFORM_CONTINUOUS, BURST_CONTINUOUS]);
        let has_timer = scan == UNIFORM_CONTINUOUS || random.one_in(2);
        random.below(2)
            | random.pick(&[0b00, 0b01, 0b01, 0b10]) << 1
            | random.pick(&[0, 0, 0, 1, 1, 1, 3, 4, 5, 6, 7]) << 3
            | scan << 8
            | u32::from(has_timer) << 11
            | random.below(3) << 12
    }

    /// Start and End Channel, with m from 1 to 16 or to 32.
    fn any_channels(&mut self, is_differential: bool) -> u32 {
        let random = &mut self.random;
        let greatest = if is_differential { 16 } else { 32 };
        let m = match random.below(10) {
            0 | 1 => 1,
            2 | 3 => 2,
            4 => 16,
            5 | 6 => greatest,
            _ => 1 + random.below(greatest),
        };
        let start = random.below(greatest - m + 1);
        (start + m - 1) << 8 | start
    }

    /// Prescaler and timer, of at least 64 if they count.
    fn any_interval(&mut self, has_timer: bool) -> (u32, u32) {
        let random = &mut self.random;
        if !has_timer {
            return random.pick(&[(0, 0), (0, 500), (1, 63), (64, 1), (255, 65_535)]);
        }
        let interval = match random.below(20) {
            0..=4 => 64,
            5 | 6 => random.pick(&[65, 66, 119, 120, 121, 127, 128, 184]),
            7..=14 => 64 + random.below(500),
            15 | 16 => 64 + random.below(20_000),
            17 => return (1 + random.below(255), 65_000 + random.below(536)),
            18 => return (255, random.pick(&[257, 5_000, 65_535])),
            _ => 64 + random.below(2_000_000),
        };
        let least = interval.div_ceil(65_535);
        let prescaler = match interval {
            // With nothing left over.
            64 => 1 << random.below(7),
            _ => least + random.below(interval.min(255) - least + 1),
        };
        (prescaler, interval.div_ceil(prescaler))
    }

    /// By a trigger? If so, its field is 01.
    fn start(&mut self) -> bool {
        let field = self.watch.independent.registers().control.trigger();
        if field == TRIGGER_INPUT && !self.random.one_in(4) {
            self.make(Call::Trigger);
            return true;
        }
        let value = self.random.pick(&[1, 1, 0xFF]);
        let width = self.random.pick(&[8, 16, 32]);
        self.write(width, 0x24, value);
        false
    }
}

// The measured part.

impl Maker {
    /// Some passes, and other calls between the advances. Some parts end before the first pass does.
    fn run(&mut self) {
        let scan = Scan::of(self.watch.independent.registers());
        let passes = self.random.pick(&[0, 1, 1, 2, 2, 3, 5, 8]);
        let mut left = passes * scan.pass() + self.random.bits() % (scan.pass() + 65);
        let is_long = self.random.one_in(50) || self.most_stores == MOST_STORES;
        let steps = self.random.pick(&[1, 5, 15, 30, 45]);
        let long_step = is_long.then(|| self.random.below(steps));
        for step in 0..steps {
            if long_step == Some(step) {
                self.long_advance(&scan);
            } else if self.random.one_in(3) {
                let ticks = self.any_ticks(&scan).min(left);
                left -= ticks;
                self.advance_by(ticks);
            } else {
                self.other_call();
            }
        }
        // Mostly to the end that was drawn.
        if !self.random.one_in(4) {
            self.advance_by(left);
        }
    }

    fn any_ticks(&mut self, scan: &Scan) -> u64 {
        let next = u64::from(self.watch.independent.next_store());
        let random = &mut self.random;
        match random.below(16) {
            0 => 0,
            1 | 2 => 1,
            3..=5 => random.below(200).into(),
            6..=8 => next - 1 + u64::from(random.below(3)),
            9 | 10 => scan.pass() - 1 + u64::from(random.below(3)),
            11 => scan.pass() + 63 + u64::from(random.below(3)),
            12 => scan.pass() * (2 + u64::from(random.below(3))),
            _ => random.bits() % scan.pass(),
        }
    }

    /// One of up to millions of ticks.
    fn long_advance(&mut self, scan: &Scan) {
        let ticks = match self.random.below(3) {
            0 => LONGEST_ADVANCE,
            _ => LONGEST_ADVANCE >> self.random.below(6),
        };
        let most = self.most_stores * scan.pass() / scan.m;
        let ticks = most.min(ticks.into()) as u32;
        self.make(Call::Advance { ticks });
    }

    /// Whatever suits the board, or what is rather seldom in that.
    fn other_call(&mut self) {
        let random = &mut self.random;
        match random.below(12) {
            0 => self.make(Call::Trigger),
            1 => self.write(16, 0x00, 0x8001),
            2 => self.write(16, 0x24, 1),
            3 => {
                let control = self.watch.independent.registers().control.word();
                self.write(16, 0x04, control);
            }
            4 => {
                let ticks = LONGEST_ADVANCE + 1 + random.below(9);
                self.make(Call::Advance { ticks });
            }
            _ => {
                let own = Random::new(random.bits());
                for call in next_calls(own, &self.watch.independent) {
                    if self.may_be_measured(&call) {
                        self.make(call);
                    }
                }
            }
        }
    }

    /// No stop and no reset, and no advance with very many stores.
    fn may_be_measured(&self, call: &Call) -> bool {
        let mut board = self.watch.independent.clone();
        let answer = board.call(call);
        let is_short = answer.value <= 300 || !matches!(call, Call::Advance { .. });
        *call != Call::Reset && !board.is_idle() && is_short
    }
}

// The kinds that drawn scans must reach.

fn drawn(name: &str, least: u64, is_met: fn(&Drawn) -> bool) -> Kind<Drawn> {
    kind(name, least, is_met)
}

impl Drawn {
    fn scan(&self) -> &Scan {
        &self.part.scan
    }

    fn is_uniform(&self) -> bool {
        self.scan().control.is_uniform()
    }

    fn has_delay(&self) -> bool {
        self.scan().delay > 0
    }

    /// Was a whole span of a pass plus 64 ticks advanced through?
    pub fn has_whole_span(&self) -> bool {
        self.part.ticks() >= self.scan().longest_wait_allowed()
    }

    /// Advances, each with the ticks that it leads from and to.
    fn advances(&self) -> impl Iterator<Item = (u64, u64)> + '_ {
        self.part
            .calls
            .iter()
            .filter_map(|called| match called.call {
                Call::Advance { ticks } if called.number == 0 => {
                    Some((called.tick, called.tick + u64::from(ticks)))
                }
                _ => None,
            })
    }

    /// A span of a pass plus 64 ticks that begins inside an advance.
    fn has_span_from_inside(&self) -> bool {
        let last = self
            .part
            .end
            .checked_sub(self.scan().longest_wait_allowed());
        self.advances()
            .any(|(from, to)| to - from > 1 && last.is_some_and(|last| from < last))
    }

    /// One that lies in a single advance.
    fn has_span_in_one_advance(&self) -> bool {
        let ticks = self.scan().longest_wait_allowed();
        self.advances().any(|(from, to)| to - from >= ticks)
    }

    /// Calls made after the longest wait began and before it ended.
    fn in_longest_wait(&self, is_met: impl Fn(&Called) -> bool) -> bool {
        let Wait { from, ticks } = self.longest;
        let inside = from + 1..from + ticks;
        let mut calls = self.part.calls.iter();
        calls.any(|called| inside.contains(&called.tick) && is_met(called))
    }

    fn in_part(&self, is_met: impl Fn(&Called) -> bool) -> bool {
        self.part.calls.iter().any(is_met)
    }
}

fn kinds_of_scans() -> Vec<Kind<Drawn>> {
    vec![
        drawn("uniform continuous", 8_000, |drawn| drawn.is_uniform()),
        drawn("uniform, I = 64", 1_000, |drawn| {
            drawn.is_uniform() && drawn.scan().interval == 64
        }),
        drawn("burst continuous, D = 0", 3_000, |drawn| {
            !drawn.is_uniform() && !drawn.has_delay()
        }),
        drawn("burst continuous, D = I", 3_000, |drawn| drawn.has_delay()),
        drawn("burst continuous, D = 64", 300, |drawn| {
            drawn.scan().delay == 64
        }),
        drawn("burst, timer off, I above 0", 1_000, |drawn| {
            !drawn.is_uniform() && !drawn.has_delay() && drawn.scan().interval > 0
        }),
        drawn("differential", 5_000, |drawn| {
            drawn.scan().control.is_differential()
        }),
        drawn("single ended", 5_000, |drawn| {
            drawn.scan().control.acquisition() == SINGLE_ENDED
        }),
        drawn("calibration", 5_000, |drawn| {
            drawn.scan().control.acquisition() > SINGLE_ENDED
        }),
        drawn("pass of 10,000 to 16,777,216 ticks", 2_000, |drawn| {
            (10_000..=16_777_216).contains(&drawn.scan().pass())
        }),
        drawn("pass longer than any advance", 500, |drawn| {
            drawn.scan().pass() > u64::from(LONGEST_ADVANCE)
        }),
        drawn("I = 255 x 65,535, timer on", 50, |drawn| {
            drawn.scan().control.has_timer() && drawn.scan().interval == 255 * 65_535
        }),
    ]
}

fn kinds_of_m() -> impl Iterator<Item = Kind<Drawn>> {
    let exactly = [1, 2, 16, 32].into_iter().map(|m| {
        kind(format!("m = {m}"), 1_500, move |drawn: &Drawn| {
            drawn.scan().m == m
        })
    });
    let others = drawn("m of other numbers", 1_500, |drawn| {
        ![1, 2, 16, 32].contains(&drawn.scan().m)
    });
    exactly.chain([others])
}

fn kinds_of_starts() -> Vec<Kind<Drawn>> {
    vec![
        drawn("started by Start Convert", 5_000, |drawn| {
            !drawn.before.is_by_trigger
        }),
        drawn("started by a trigger", 5_000, |drawn| {
            drawn.before.is_by_trigger
        }),
        drawn("T = 0", 500, |drawn| drawn.part.start == 0),
        drawn("T above 0", 10_000, |drawn| drawn.part.start > 0),
        drawn("after a reset", 3_000, |drawn| drawn.before.resets > 0),
        drawn("after an earlier cycle, no reset since", 5_000, |drawn| {
            drawn.before.cycles > 0
        }),
        drawn("old New bits at the start", 3_000, |drawn| {
            drawn.before.has_old_bits
        }),
        drawn("stopped and started again", 1_000, |drawn| {
            drawn.before.is_started_again
        }),
    ]
}

fn kinds_of_spans() -> Vec<Kind<Drawn>> {
    vec![
        drawn("ends before the first store", 300, |drawn| {
            drawn.part.stores.is_empty()
        }),
        drawn("a span of a pass plus 64 ticks", 10_000, |drawn| {
            drawn.has_whole_span()
        }),
        drawn("two passes plus 64 ticks, differential", 2_000, |drawn| {
            let ticks = drawn.scan().longest_wait_allowed_of_a_slot();
            drawn.scan().control.is_differential() && drawn.part.ticks() >= ticks
        }),
        drawn("a span that begins inside an advance", 5_000, |drawn| {
            drawn.has_span_from_inside()
        }),
        drawn("a span in one advance", 3_000, |drawn| {
            drawn.has_span_in_one_advance()
        }),
        drawn("longest wait over several advances", 5_000, |drawn| {
            let Wait { from, ticks } = drawn.longest;
            let inside = |(a, b)| a < from + ticks && b > from;
            drawn.advances().filter(|&advance| inside(advance)).count() > 1
        }),
    ]
}

fn kinds_of_advances() -> Vec<Kind<Drawn>> {
    vec![
        drawn("more than 10,000 stores", 5, |drawn| {
            drawn.part.stores.len() > 10_000
        }),
        drawn("an advance of more than 1,000,000 ticks", 500, |drawn| {
            drawn.advances().any(|(from, to)| to - from > 1_000_000)
        }),
        drawn("an advance of 16,777,216 ticks", 100, |drawn| {
            drawn.advances().any(|(from, to)| to - from == 16_777_216)
        }),
        drawn("an advance of 0 ticks", 3_000, |drawn| {
            drawn.advances().any(|(from, to)| to == from)
        }),
        drawn("an advance of 1 tick", 3_000, |drawn| {
            drawn.advances().any(|(from, to)| to == from + 1)
        }),
    ]
}

/// Calls that must be met inside a longest wait.
const CALLS_INSIDE: [NamedCalls; 8] = [
    ("a refused call", |called| called.number != 0),
    ("a trigger", |called| called.call == Call::Trigger),
    ("a release", is_release),
    ("a mailbox read", |called| is_read(called, 0x80..0x100)),
    ("a New Data read", |called| is_read(called, 0x14..0x1C)),
    ("a look", |called| {
        matches!(called.call, Call::Look { .. }) && called.number == 0
    }),
    ("a clear", |called| {
        matches!(called.call, Call::Clear { .. }) && called.number == 0
    }),
    ("an input", |called| {
        matches!(called.call, Call::Input { .. }) && called.number == 0
    }),
];

type NamedCalls = (&'static str, fn(&Called) -> bool);

fn kinds_of_calls() -> impl Iterator<Item = Kind<Drawn>> {
    let numbers = [1, 2, 3, 4, 5, 6, 11, 12, 13, 22]
        .into_iter()
        .map(|number| {
            kind(
                format!("refused with {number}"),
                300,
                move |drawn: &Drawn| drawn.in_part(|called| called.number == number),
            )
        });
    let inside = CALLS_INSIDE.into_iter().map(|(name, is_met)| {
        kind(
            format!("{name} inside the longest wait"),
            1_000,
            move |drawn: &Drawn| drawn.in_longest_wait(is_met),
        )
    });
    let trigger = drawn(
        "a trigger with field 01 inside the longest wait",
        1_000,
        |drawn| {
            let is_input = drawn.scan().control.trigger() == TRIGGER_INPUT;
            is_input && drawn.in_longest_wait(|called| called.call == Call::Trigger)
        },
    );
    numbers.chain(inside).chain([trigger])
}

/// A read of one of these offsets.
fn is_read(called: &Called, offsets: std::ops::Range<u16>) -> bool {
    let is_there = matches!(called.call, Call::Read { offset, .. } if offsets.contains(&offset));
    is_there && called.number == 0
}

fn is_release(called: &Called) -> bool {
    let bit_15 = match called.call {
        Call::Write {
            width: 8,
            offset: 0x01,
            value,
        } => value >> 7 & 1,
        Call::Write {
            width: 16 | 32,
            offset: 0x00,
            value,
        } => value >> 15 & 1,
        _ => 0,
    };
    bit_15 == 1 && called.number == 0
}

/// Each with the least count for the test's scans.
pub fn all_kinds() -> Vec<Kind<Drawn>> {
    kinds_of_scans()
        .into_iter()
        .chain(kinds_of_m())
        .chain(kinds_of_starts())
        .chain(kinds_of_spans())
        .chain(kinds_of_advances())
        .chain(kinds_of_calls())
        .collect()
}
