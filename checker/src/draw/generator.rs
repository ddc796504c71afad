//! Made-up lists of calls. Calls drawn blindly would hardly ever start a cycle, so these are
//! steered: a board plays along, and most calls are chosen by what it is doing.

use crate::board::call::{Call, Calls};
use crate::board::registers::{Registers, BURST_CONTINUOUS, BURST_SINGLE, SCAN_OFF};
use crate::board::registers::{TRIGGER_ONLY, UNIFORM_CONTINUOUS, UNIFORM_SINGLE};
use crate::board::{Board, LONGEST_ADVANCE};
use crate::draw::random::Random;

/// Advances around a conversion's 64 ticks and a burst's 120.
pub const MARKED_ADVANCES: [u32; 6] = [63, 64, 65, 119, 120, 121];

/// Registers that can be read and written.
const WRITTEN: [u16; 9] = [0x00, 0x04, 0x08, 0x0C, 0x10, 0x40, 0x44, 0x48, 0x4C];

/// New and Missed Data.
const STATUS: [u16; 4] = [0x14, 0x18, 0x1C, 0x20];

/// Makes a list of calls, call by call, with a board that plays along.
pub struct Maker {
    random: Random,
    /// Plays along.
    board: Board,
    calls: Vec<Call>,
    /// No accepted advance is longer than this.
    longest: u32,
    /// Are triggers before arming made? If not, the draws are those of lists without any.
    arms_by_trigger: bool,
}

/// A list of so many scenes, on a new board of this range.
pub fn scenes(random: Random, range: u32, longest: u32, count: u32) -> Vec<Call> {
    let mut maker = Maker::new(random, range, longest);
    for _ in 0..count {
        maker.scene();
    }
    maker.read_out();
    maker.calls
}

/// A list with a slow cycle that runs for more than 2^32 ticks.
pub fn marathon(random: Random, range: u32) -> Vec<Call> {
    let mut maker = Maker::new(random, range, LONGEST_ADVANCE);
    maker.start_slow_cycle();
    for _ in 0..264 {
        maker.advance_by(LONGEST_ADVANCE);
        match maker.random.below(16) {
            0 => maker.read_a_mailbox(),
            1 => maker.set_input(),
            2 | 3 => maker.push(Call::Trigger),
            4 => maker.look_or_clear(),
            _ => (),
        }
    }
    maker.volley();
    for _ in 0..10 {
        maker.step();
    }
    maker.read_out();
    maker.calls
}

/// A list with the fastest cycles and the longest advances: up to 262,144 stores in one call.
pub fn sprint(random: Random, range: u32) -> Vec<Call> {
    let mut maker = Maker::new(random, range, LONGEST_ADVANCE);
    let scan = maker.random.pick(&[UNIFORM_CONTINUOUS, BURST_CONTINUOUS]);
    maker.set_up(scan, Some(64));
    maker.write_word(0x24, 1);
    maker.advance_by(LONGEST_ADVANCE);
    for _ in 0..12 {
        maker.step();
    }
    maker.advance_by(LONGEST_ADVANCE - 64);
    maker.read_out();
    maker.calls
}

/// A list of so many cycles, each with a few advances of up to 2^24 ticks.
pub fn long_advances(random: Random, range: u32, count: u32) -> Vec<Call> {
    let mut maker = Maker::without_arming_by_trigger(random, range, LONGEST_ADVANCE);
    for _ in 0..count {
        let scan = maker.random.pick(&[UNIFORM_CONTINUOUS, BURST_CONTINUOUS]);
        maker.write(16, 0x04, 0);
        maker.set_up(scan, None);
        maker.start();
        for _ in 0..3 {
            let ticks = 1 << maker.random.between(10, 24);
            maker.advance_by(ticks);
            maker.read_a_mailbox();
            maker.set_input();
        }
    }
    maker.calls
}

/// A list of so many scenes with advances of up to 2,000 ticks.
pub fn short_advances(random: Random, range: u32, count: u32) -> Vec<Call> {
    let mut maker = Maker::without_arming_by_trigger(random, range, 2_000);
    for _ in 0..count {
        maker.scene();
    }
    maker.read_out();
    maker.calls
}

/// A list of so many cycles, each with steps and advances of up to 5,000 ticks in turn.
pub fn middle_advances(random: Random, range: u32, count: u32) -> Vec<Call> {
    let mut maker = Maker::without_arming_by_trigger(random, range, 5_000);
    for _ in 0..count {
        maker.begin_a_scene();
        for _ in 0..maker.random.between(3, 18) {
            let ticks = maker.random.below(5_001);
            maker.advance_by(ticks);
            maker.step();
            maker.step();
        }
    }
    maker.calls
}

/// The list that costs the most in the fewest bytes: 32 channels at I = 64, and so many advances
/// of 262,144 stores.
pub fn hostile(advances: usize) -> Vec<Call> {
    let writes = [
        (0x04, 0x0909),
        (0x08, 0x4000),
        (0x0C, 1),
        (0x10, 0x1F00),
        (0x24, 1),
    ];
    let write = |(offset, value)| Call::Write {
        width: 16,
        offset,
        value,
    };
    let mut calls: Vec<Call> = writes.into_iter().map(write).collect();
    let ticks = LONGEST_ADVANCE;
    calls.extend(std::iter::repeat_n(Call::Advance { ticks }, advances));
    calls
}

/// The next calls for a board that is held elsewhere: one that suits what it is doing, or a few, or
/// at times another scan.
pub fn next_calls(random: Random, board: &Board) -> Vec<Call> {
    let mut maker = Maker {
        random,
        board: board.clone(),
        calls: Vec::new(),
        longest: LONGEST_ADVANCE,
        arms_by_trigger: true,
    };
    let seldom = if board.is_idle() { 6 } else { 40 };
    if maker.random.one_in(seldom) {
        maker.begin_a_scene();
    } else {
        maker.step();
    }
    maker.calls
}

impl Maker {
    /// Begins on a new board of a range. No accepted advance will be longer than so many ticks.
    pub fn new(random: Random, range: u32, longest: u32) -> Maker {
        let (board, answer) = Board::new(range);
        assert_eq!(answer.number, 0, "a board has a range of 0 to 3");
        Maker {
            random,
            board,
            calls: Vec::new(),
            longest,
            arms_by_trigger: true,
        }
    }

    /// For the lists of the benchmark: an older archive plays them too, and it ignores triggers before arming.
    fn without_arming_by_trigger(random: Random, range: u32, longest: u32) -> Maker {
        Maker {
            arms_by_trigger: false,
            ..Maker::new(random, range, longest)
        }
    }

    fn push(&mut self, call: Call) {
        self.board.call(&call);
        self.calls.push(call);
    }

    fn advance_by(&mut self, ticks: u32) {
        self.push(Call::Advance { ticks });
    }

    fn read(&mut self, width: u8, offset: u16) {
        self.push(Call::Read { width, offset });
    }

    fn write(&mut self, width: u8, offset: u16, value: u32) {
        self.push(Call::Write {
            width,
            offset,
            value,
        });
    }

    fn look(&mut self, slot: u8) {
        self.push(Call::Look { slot });
    }

    fn clear(&mut self, slot: u8) {
        self.push(Call::Clear { slot });
    }

    /// A word written as one of 16 bits, as one of 32 with anything above, or as two bytes.
    fn write_word(&mut self, offset: u16, word: u32) {
        match self.random.below(6) {
            0 => {
                self.write(8, offset, word & 0xFF);
                self.write(8, offset + 1, word >> 8);
            }
            1 => {
                self.write(8, offset + 1, word >> 8);
                self.write(8, offset, word & 0xFF);
            }
            2 => {
                let above = self.random.bits() as u32 & 0xFFFF_0000;
                self.write(32, offset, above | word);
            }
            _ => self.write(16, offset, word),
        }
    }

    /// A read of a live byte, of both or of the whole word.
    fn read_word(&mut self, offset: u16) {
        let (width, byte) = self
            .random
            .pick(&[(8, 0), (8, 1), (16, 0), (16, 0), (32, 0)]);
        self.read(width, offset + byte);
    }
}

// Scenes: a scan is set up, started, run for a while and perhaps ended.

impl Maker {
    fn scene(&mut self) {
        self.begin_a_scene();
        for _ in 0..self.random.between(5, 35) {
            self.step();
        }
    }

    fn begin_a_scene(&mut self) {
        self.end_the_last_scene();
        let scan = self.random.pick(&[
            UNIFORM_CONTINUOUS,
            UNIFORM_SINGLE,
            BURST_CONTINUOUS,
            BURST_SINGLE,
            TRIGGER_ONLY,
        ]);
        self.set_up(scan, None);
        self.start();
    }

    /// Mostly a stop, for a busy board refuses what comes next. Sometimes just that is wanted.
    fn end_the_last_scene(&mut self) {
        match self.random.below(12) {
            0 => (),
            1 | 2 => self.push(Call::Reset),
            3 | 4 => self.write(8, 0x05, 0),
            _ if self.board.is_idle() => (),
            _ => {
                let word = self.board.registers().control.word() & !0x0700;
                self.write_word(0x04, word);
            }
        }
        // With the scan off this is refused with 8.
        if self.random.one_in(6) {
            self.write(16, 0x24, 1);
        }
    }

    fn set_up(&mut self, scan: u32, interval: Option<u32>) {
        let control = self.any_control(scan);
        let is_differential = control >> 3 & 0b111 == 0;
        let channels = self.any_channels(is_differential);
        let (prescaler, timer) = match interval {
            Some(interval) => (interval, 1),
            None => self.any_interval(),
        };
        let low = self.random.below(256);
        let words = [
            (0x04, control),
            (0x08, prescaler << 8 | low),
            (0x0C, timer),
            (0x10, channels),
        ];
        for (offset, word) in self.random.turned(words) {
            self.write_word(offset, word);
        }
        if self.random.one_in(2) {
            self.set_gains();
        }
        for _ in 0..self.random.below(8) {
            self.set_input();
        }
    }

    /// A Control word with this scan, that can nearly always be started.
    fn any_control(&mut self, scan: u32) -> u32 {
        let random = &mut self.random;
        let format = random.below(2);
        let trigger = match scan {
            TRIGGER_ONLY if !random.one_in(12) => 0b01,
            _ => random.pick(&[0b00, 0b01, 0b01, 0b10]),
        };
        let acquisition = random.pick(&[0, 0, 0, 0, 1, 1, 3, 4, 5, 6, 7]);
        let timer = match scan {
            UNIFORM_CONTINUOUS | UNIFORM_SINGLE => u32::from(!random.one_in(20)),
            _ => random.below(2),
        };
        let interrupt = random.below(3);
        let not_kept = match random.below(4) {
            0 => random.bits() as u32 & 0xC0C0,
            _ => 0,
        };
        format
            | trigger << 1
            | acquisition << 3
            | scan << 8
            | timer << 11
            | interrupt << 12
            | not_kept
    }

    /// Start and End Channel: mostly few channels, sometimes all, and sometimes not to be started.
    fn any_channels(&mut self, is_differential: bool) -> u32 {
        let random = &mut self.random;
        let greatest = if is_differential { 15 } else { 31 };
        let (start, end) = match random.below(20) {
            0 => {
                let end = random.below(greatest);
                (end + 1, end)
            }
            1 => (random.below(16), random.pick(&[16, 16, 17, 24, 31])),
            2 | 3 => (0, greatest),
            4 | 5 => (greatest, greatest),
            6 => (random.below(greatest + 1), greatest),
            _ => {
                let start = random.below(greatest + 1);
                (start, (start + random.below(4)).min(greatest))
            }
        };
        end << 8 | start
    }

    /// Prescaler and timer. Their product is 64 often, and 63 and 0 sometimes.
    fn any_interval(&mut self) -> (u32, u32) {
        let random = &mut self.random;
        match random.below(16) {
            0..=4 => random.pick(&[(64, 1), (1, 64), (32, 2), (16, 4), (8, 8)]),
            5 | 6 => random.pick(&[(63, 1), (7, 9), (0, 500), (255, 0), (1, 63)]),
            7 => random.pick(&[(65, 1), (5, 13), (66, 1), (127, 1), (128, 1)]),
            8 => random.pick(&[(119, 1), (120, 1), (121, 1), (184, 1), (80, 8)]),
            9 if self.longest > 100_000 => (255, 65_535),
            10 => (random.below(256), random.below(65_536)),
            _ => (64 + random.below(192), 1 + random.below(8)),
        }
    }

    fn start(&mut self) {
        let control = self.board.registers().control;
        let takes_triggers = control.scan() != TRIGGER_ONLY || self.arms_by_trigger;
        let can_be_triggered = control.trigger() == 0b01 && takes_triggers;
        if can_be_triggered && self.random.one_in(2) {
            self.push(Call::Trigger);
            return;
        }
        let value = self.random.pick(&[1, 1, 1, 0xFF]);
        match self.random.below(4) {
            0 => self.write(8, 0x24, value),
            1 => self.write(32, 0x24, value | 0xABCD_0000),
            _ => self.write(16, 0x24, value),
        }
    }

    /// Uniform or burst with some seconds between passes, or armed for triggers.
    fn start_slow_cycle(&mut self) {
        let control = self
            .random
            .pick(&[0x090B, 0x1901, 0x2B0B, 0x0B00, 0x150B, 0x2503]);
        let timer = 60_000 + self.random.below(5_536);
        let prescaler = 1 + self.random.below(255);
        self.write_word(0x10, 0x0201);
        self.write_word(0x0C, timer);
        self.write_word(0x08, prescaler << 8);
        self.write_word(0x04, control);
        self.set_input();
        self.write_word(0x24, 1);
    }
}

// Steps: single calls that suit what the board is doing.

impl Maker {
    fn step(&mut self) {
        let is_armed = !self.board.is_idle() && self.scan() == TRIGGER_ONLY;
        let choices = 112 + u32::from(self.arms_by_trigger);
        match self.random.below(choices) {
            0..=19 if is_armed => self.push(Call::Trigger),
            20..=34 if is_armed => self.volley(),
            0..=39 => self.advance(),
            40..=50 => {
                let offset = self.random.pick(&STATUS);
                self.read_word(offset);
            }
            51..=64 => self.read_a_mailbox(),
            65..=71 => self.set_input(),
            72..=75 => self.push(Call::Trigger),
            76..=80 => self.use_interrupt(),
            81..=87 => self.touch_a_register(),
            88..=97 => self.look_or_clear(),
            98 | 99 => self.look_between_stores(),
            112 => self.arm_by_trigger(),
            _ => self.refused_call(),
        }
    }

    /// A trigger in external trigger only mode with no Start Convert before it: its store has the code that
    /// was last taken. Sometimes a stop and the same again.
    fn arm_by_trigger(&mut self) {
        for _ in 0..self.random.pick(&[1, 1, 2]) {
            self.stop_or_reset();
            let control = self.any_control(TRIGGER_ONLY);
            self.write_word(0x04, control);
            if self.random.one_in(2) {
                let channels = self.any_channels(control >> 3 & 0b111 == 0);
                self.write_word(0x10, channels);
            }
            if self.random.one_in(2) {
                self.set_input();
            }
            if self.random.one_in(2) {
                self.write(16, 0x00, 0x8001);
            }
            self.push(Call::Trigger);
            self.after_arming_by_trigger();
        }
    }

    /// A stop, if a cycle runs, in either format; at times a trigger after it, with the scan off. Or a reset,
    /// which forgets the code.
    fn stop_or_reset(&mut self) {
        if self.random.one_in(8) {
            return self.push(Call::Reset);
        }
        if !self.board.is_idle() {
            let word = self.board.registers().control.word() & 0x383E;
            let format = self.random.below(2);
            self.write_word(0x04, word | format);
        }
        if self.scan() == SCAN_OFF && self.random.one_in(2) {
            self.push(Call::Trigger);
        }
    }

    /// What may come between its store and the next, and a trigger about as close as it may come.
    fn after_arming_by_trigger(&mut self) {
        let start = self.board.registers().start as u8;
        match self.random.below(10) {
            0..=2 => self.look_or_clear_at(start),
            3 => self.read_word(0x80 + 4 * u16::from(start)),
            4 => self.write(16, 0x24, 1),
            5 => self.change_while_busy(),
            6 => self.touch_a_register(),
            _ => (),
        }
        let ticks = self.random.pick(&[63, 64, 64, 65]);
        self.advance_by(ticks);
        self.push(Call::Trigger);
    }

    /// Triggers about as close as they may come.
    fn volley(&mut self) {
        for _ in 0..self.random.between(1, 8) {
            let ticks = self.random.pick(&[63, 64, 64, 65]);
            self.advance_by(ticks);
            self.push(Call::Trigger);
        }
    }

    fn scan(&self) -> u32 {
        self.board.registers().control.scan()
    }

    fn advance(&mut self) {
        let next = self.board.ticks_to_next_event().unwrap_or(64);
        let pass = pass_length(self.board.registers()).unwrap_or(480);
        let random = &mut self.random;
        let ticks = match random.below(40) {
            0..=13 => u64::from(random.pick(&MARKED_ADVANCES)),
            14..=19 => (next + u64::from(random.below(3))).saturating_sub(1),
            20..=23 => pass * u64::from(1 + random.below(3)),
            24 | 25 => pass * u64::from(random.below(40)) + random.bits() % pass.max(1),
            26 | 27 => (pass + u64::from(random.below(3))).saturating_sub(1),
            28 | 29 => u64::from(random.below(3)),
            30..=38 => u64::from(random.below(2_000)),
            _ => self.any_long_advance(),
        };
        self.advance_by(ticks.min(self.longest.into()) as u32);
    }

    fn any_long_advance(&mut self) -> u64 {
        match self.random.below(8) {
            0 => LONGEST_ADVANCE.into(),
            1 => self.random.below(LONGEST_ADVANCE).into(),
            _ => self.random.below(200_000).into(),
        }
    }

    /// Of a channel of the scan, mostly, in either half.
    fn any_slot(&mut self) -> u8 {
        let registers = self.board.registers();
        let (start, end) = (registers.start, registers.end);
        let slot = if start <= end && !self.random.one_in(5) {
            let channel = start + self.random.below(end - start + 1);
            (channel + self.random.pick(&[0, 0, 16])) % 32
        } else {
            self.random.below(32)
        };
        slot as u8
    }

    fn read_a_mailbox(&mut self) {
        let slot = self.any_slot();
        self.read_word(0x80 + 4 * u16::from(slot));
    }

    fn look_or_clear(&mut self) {
        let slot = match self.random.below(12) {
            0 => 31,
            _ => self.any_slot(),
        };
        self.look_or_clear_at(slot);
    }

    /// A look, a clear, or a look and then a clear.
    fn look_or_clear_at(&mut self, slot: u8) {
        let choice = self.random.below(5);
        if choice != 2 {
            self.look(slot);
        }
        if choice >= 2 {
            self.clear(slot);
        }
    }

    /// To the next store that comes by itself, if there is one, then to the next one in the same slot,
    /// and a look after it. In between comes a look, a clear, or both.
    fn look_between_stores(&mut self) {
        let next = self.board.next_store();
        if next == 0 {
            return self.look_or_clear();
        }
        self.advance_by(next.min(self.longest));
        let registers = self.board.registers();
        let (Some(cycle), Some(pass)) = (self.board.cycle(), pass_length(registers)) else {
            return;
        };
        let Some(last) = cycle.stored.checked_sub(1) else {
            return;
        };
        let slot = registers.slot_of(last) as u8;
        let passes = 1 + u64::from(registers.control.is_differential());
        self.look_or_clear_at(slot);
        self.advance_by((passes * pass).min(self.longest.into()) as u32);
        self.look(slot);
    }

    fn set_input(&mut self) {
        let registers = self.board.registers();
        let (start, end) = (registers.start, registers.end);
        let random = &mut self.random;
        let channel = if start <= end && !random.one_in(5) {
            start + random.below(end - start + 1)
        } else {
            random.below(32)
        };
        let microvolts = match random.below(10) {
            0 => random.between(-35_000_000, 55_000_000),
            1 => random.pick(&[-35_000_000, 55_000_000, 0, -1, 10_000_000]),
            2..=5 => random.between(-10_000_000, 10_000_000),
            _ => random.between(-1_300_000, 1_300_000),
        };
        self.push(Call::Input {
            channel: channel as u8,
            microvolts: microvolts as i32,
        });
    }

    fn set_gains(&mut self) {
        for offset in [0x40, 0x44, 0x48, 0x4C] {
            if self.random.one_in(2) {
                let word = self.random.below(65_536);
                self.write_word(offset, word);
            }
        }
    }

    /// Enables, disables, releases, or only looks.
    fn use_interrupt(&mut self) {
        match self.random.below(8) {
            0 => self.write(16, 0x00, 0x0001),
            1 => self.write(16, 0x00, 0x8000),
            2 => self.write(16, 0x00, 0x8001),
            3 => self.write(8, 0x01, 0x80),
            4 => {
                let word = self.random.below(65_536);
                self.write_word(0x00, word);
            }
            _ => self.read_word(0x00),
        }
    }

    /// Any access that the map allows, while idle or busy.
    fn touch_a_register(&mut self) {
        match self.random.below(8) {
            0..=2 => {
                let offset = self.random.pick(&WRITTEN);
                self.read_word(offset);
            }
            3..=4 => {
                let offset = self.random.pick(&WRITTEN);
                let word = self.random.below(65_536);
                self.write_word(offset, word);
            }
            5 => {
                let word = self.random.below(65_536) & 0xFFFE;
                self.write_word(0x24, word);
            }
            _ => {
                let slot = self.random.below(32) as u16;
                self.read_word(0x80 + 4 * slot);
            }
        }
    }

    /// Every register and mailbox, so that nothing a trace left behind goes unseen. Mailboxes come
    /// last: their reads clear bits. Sometimes they are looked at before.
    fn read_out(&mut self) {
        for offset in WRITTEN.into_iter().chain(STATUS) {
            self.read(16, offset);
        }
        if self.random.one_in(4) {
            (0..32).for_each(|slot| self.look(slot));
        }
        for slot in 0..32 {
            self.read(16, 0x80 + 4 * slot);
        }
    }
}

/// The ticks from a pass to the next, in a timed mode with channels that can be started.
pub fn pass_length(registers: &Registers) -> Option<u64> {
    let control = registers.control;
    if registers.start > registers.end {
        return None;
    }
    let m = registers.channels_in_a_pass();
    match control.scan() {
        UNIFORM_CONTINUOUS | UNIFORM_SINGLE => Some(m * registers.interval()),
        BURST_CONTINUOUS | BURST_SINGLE => Some(120 * m + registers.delay()),
        _ => None,
    }
}

// Calls that are refused, or nearly.

impl Maker {
    fn refused_call(&mut self) {
        match self.random.below(16) {
            0 => self.wrong_width(),
            1 => self.wrong_offset(),
            2 => self.too_great_a_value(),
            3 => self.wrong_direction(),
            4 | 5 => self.change_while_busy(),
            6 => self.not_used_code(),
            7 => self.write(16, 0x24, 1),
            8 | 9 => self.wrong_input(),
            10 => {
                let beyond = self.random.pick(&[16_777_217, u32::MAX, 1 << 31]);
                self.advance_by(beyond);
            }
            11 | 12 => self.wrong_slot(),
            _ => self.anything(),
        }
    }

    fn wrong_width(&mut self) {
        let width = self
            .random
            .pick(&[0, 1, 4, 7, 9, 15, 24, 31, 33, 64, 128, 255]);
        let offset = self.random.below(260) as u16;
        if self.random.one_in(2) {
            self.read(width, offset);
        } else {
            let value = self.random.below(256);
            self.write(width, offset, value);
        }
    }

    /// Not aligned, beyond 255, or unmapped.
    fn wrong_offset(&mut self) {
        let random = &mut self.random;
        let (width, offset) = match random.below(4) {
            0 => (random.pick(&[16, 32]), 2 * random.below(128) + 1),
            1 => (random.pick(&[8, 16, 32]), 256 + 4 * random.below(64)),
            2 => (random.pick(&[8, 16]), 4 * random.below(64) + 2),
            _ => (
                random.pick(&[8, 16, 32]),
                random.pick(&[0x28, 0x3C, 0x50, 0x7C]),
            ),
        };
        if self.random.one_in(2) {
            self.read(width, offset as u16);
        } else {
            self.write(width, offset as u16, 1);
        }
    }

    fn too_great_a_value(&mut self) {
        let offset = self.random.pick(&WRITTEN);
        let more = self.random.below(256);
        match self.random.below(3) {
            0 => self.write(8, offset + 1, 256 + more),
            1 => self.write(8, offset, u32::MAX - more),
            _ => self.write(16, offset, 65_536 + more),
        }
    }

    fn wrong_direction(&mut self) {
        match self.random.below(3) {
            0 => self.read_word(0x24),
            1 => {
                let offset = self.random.pick(&STATUS);
                self.write_word(offset, 0);
            }
            _ => {
                let slot = self.random.below(32) as u16;
                self.write_word(0x80 + 4 * slot, 0x1234);
            }
        }
    }

    /// Refused with 6 if the board is busy.
    fn change_while_busy(&mut self) {
        if self.board.is_idle() {
            return self.read_word(0x04);
        }
        match self.random.below(5) {
            0 => self.write(16, 0x24, 1),
            1 => self.write(8, 0x04, 0x01),
            2 => self.write(16, 0x04, 0x3009),
            3 => self.write(16, 0x04, 0x0609),
            _ => {
                let offset = self.random.pick(&WRITTEN[2..]);
                self.write_word(offset, 1);
            }
        }
    }

    fn not_used_code(&mut self) {
        let (offset, word) = self.random.pick(&[
            (0x04, 0x0006),
            (0x04, 0x0010),
            (0x04, 0x0600),
            (0x04, 0x0700),
            (0x04, 0x3000),
            (0x10, 0x0020),
            (0x10, 0x2000),
            (0x10, 0xFFFF),
        ]);
        self.write_word(offset, word);
    }

    fn wrong_input(&mut self) {
        let (channel, microvolts) = self.random.pick(&[
            (32, 0),
            (33, -1),
            (64, 1),
            (255, 99_000_000),
            (0, 55_000_001),
            (31, -35_000_001),
            (5, i32::MIN),
            (6, i32::MAX),
        ]);
        self.push(Call::Input {
            channel,
            microvolts,
        });
    }

    fn wrong_slot(&mut self) {
        let far = self.random.between(32, 255) as u8;
        let slot = self.random.pick(&[32, 32, 33, 64, 127, 128, 255, 255, far]);
        self.look_or_clear_at(slot);
    }

    /// Whatever fits in a trace.
    fn anything(&mut self) {
        let bits = self.random.bits();
        let width = self.random.pick(&[8, 16, 32, bits as u8]);
        let offset = self
            .random
            .pick(&[bits as u16, bits as u16 % 256, bits as u16 % 64 * 4]);
        match self.random.below(4) {
            0 => self.read(width, offset),
            1 => self.write(width, offset, (bits >> 16) as u32 % 256),
            2 => self.write(width, offset, (bits >> 16) as u32),
            _ => self.look_or_clear_at(bits as u8),
        }
    }
}

#[cfg(test)]
mod tests {
    use super::*;
    use crate::board::call::Step;
    use crate::judge::before_arming::arms_by_trigger;

    /// Triggers before arming in a list, cycles armed by Start Convert, and triggers.
    fn counted(calls: &[Call]) -> [usize; 3] {
        let mut board = Board::new(1).0;
        let mut counts = [0; 3];
        for call in calls {
            let before = board.clone();
            board.call(call);
            let arms = arms_by_trigger(&Step::of(call), &before, &board);
            let is_armed = !board.is_idle() && board.registers().control.scan() == TRIGGER_ONLY;
            let is_trigger = *call == Call::Trigger;
            counts[0] += usize::from(arms);
            counts[1] += usize::from(before.is_idle() && is_armed && !is_trigger);
            counts[2] += usize::from(is_trigger);
        }
        counts
    }

    /// The lists that `benchmark.rs` has.
    #[test]
    fn lists_for_the_benchmark_have_no_trigger_before_arming() {
        let short = counted(&short_advances(Random::new(1), 1, 5_000));
        let middle = counted(&middle_advances(Random::new(3), 1, 3_000));
        let long = counted(&long_advances(Random::new(2), 1, 300));
        assert_eq!([short[0], middle[0], long[0]], [0, 0, 0]);
        assert!(short[1] > 500 && short[2] > 5_000, "{short:?}");
        assert!(middle[1] > 300 && middle[2] > 3_000, "{middle:?}");
        let scenes = counted(&scenes(Random::new(1), 1, 2_000, 500));
        assert!(scenes[0] > 50 && scenes[1] > 20, "{scenes:?}");
    }
}
