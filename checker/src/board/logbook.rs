//! A logbook, tick by tick: the same board by another route, to check `board.rs` with.
//!
//! It shares nothing with `board.rs` but the code of a voltage. Registers are bytes in a memory. It
//! counts no conversions: what is due at a tick is found from the tick alone. It holds no mailbox
//! and no bit: those are found by looking back through the events.

use crate::board::analog::{calibration_voltage, code, in_twos_complement, Answer};
use crate::board::call::Calls;

/// What is noted in the logbook.
#[derive(Clone, Copy, Debug, PartialEq, Eq)]
pub enum Event {
    Reset,
    /// A mailbox read, or a clear.
    Read {
        slot: usize,
    },
    Release,
    CycleStart,
    /// With its tick, for how long a channel waits; no answer needs it.
    Store {
        tick: u64,
        slot: usize,
        code: u32,
        interrupts: bool,
    },
}

/// The running cycle: its T, and the ticks of the triggers taken in it.
#[derive(Clone, Debug, PartialEq, Eq)]
pub struct Cycle {
    start: u64,
    triggers: Vec<u64>,
}

/// A board that keeps what happened, and finds what it answers from that.
#[derive(Clone, Debug, PartialEq, Eq)]
pub struct Logbook {
    range: u32,
    memory: [u8; 256],
    inputs: [i32; 32],
    tick: u64,
    last_code: u32,
    cycle: Option<Cycle>,
    pub events: Vec<Event>,
    /// No events, and no answer needs them: for the pictures of scans, which show beginnings too.
    pub beginnings: Vec<Beginning>,
}

/// A conversion begins: it takes its code.
#[derive(Clone, Copy, Debug, PartialEq, Eq)]
pub struct Beginning {
    pub tick: u64,
    pub slot: usize,
    /// In the format then in force.
    pub code: u32,
}

/// The class of each word of the map, one letter for four offsets: Interrupt, Control, timer
/// Prescaler, conversion Timer, start and end cHannel, New, Missed, Start convert, Gain, mailBox.
const CLASSES: &[u8; 64] = b"ICPTHNNMMS......GGGG............BBBBBBBBBBBBBBBBBBBBBBBBBBBBBBBB";

/// The class of a byte offset; a dot for an unmapped one.
fn class(offset: usize) -> u8 {
    match offset % 4 {
        0 | 1 => CLASSES[offset / 4],
        _ => b'.',
    }
}

/// The bits that a byte of the map keeps when it is written.
fn kept_bits(offset: usize) -> u8 {
    match offset {
        0x00 => 0x01,
        0x04 | 0x05 => 0x3F,
        0x01 | 0x08 | 0x24 | 0x25 => 0x00,
        _ => 0xFF,
    }
}

fn answer(number: u64, value: u64) -> Answer {
    Answer { number, value }
}

impl Logbook {
    /// It opens with the range, no cycle, the event reset and all else 0.
    pub fn new(range: u32) -> Logbook {
        Logbook {
            range,
            memory: [0; 256],
            inputs: [0; 32],
            tick: 0,
            last_code: 0,
            cycle: None,
            events: vec![Event::Reset],
            beginnings: Vec::new(),
        }
    }

    /// Does no cycle run?
    pub fn is_idle(&self) -> bool {
        self.cycle.is_none()
    }
}

impl Calls for Logbook {
    type Given = Answer;

    fn open(&mut self, range: u32) -> Answer {
        if range > 3 {
            return answer(14, 0);
        }
        *self = Logbook::new(range);
        answer(0, 0)
    }

    fn read(&mut self, width: u32, offset: u32) -> Answer {
        let (width, offset) = (width as usize, offset as usize);
        let number = refused_place(width, offset);
        if number != 0 {
            return answer(number, 0);
        }
        if class(offset) == b'S' {
            return answer(5, 0);
        }
        // Byte by byte, from the first on, as long as they are live.
        let mut value = 0;
        for i in 0..width / 8 {
            if class(offset + i) != b'.' {
                value |= u64::from(self.byte(offset + i)) << (8 * i);
            }
        }
        if class(offset) == b'B' {
            let slot = (offset - 0x80) / 4;
            self.events.push(Event::Read { slot });
        }
        answer(0, value)
    }

    fn write(&mut self, width: u32, offset: u32, value: u32) -> Answer {
        let (width, offset) = (width as usize, offset as usize);
        let number = refused_place(width, offset);
        if number != 0 {
            return answer(number, 0);
        }
        if width < 32 && value >> width != 0 {
            return answer(4, 0);
        }
        // The live bytes that the write covers, in a copy: questions are asked of the result.
        let mut memory = self.memory;
        let mut bits_written = [0; 256];
        for i in 0..width / 8 {
            if class(offset + i) != b'.' {
                bits_written[offset + i] = value.to_le_bytes()[i];
                memory[offset + i] = value.to_le_bytes()[i] & kept_bits(offset + i);
            }
        }
        let is_start = bits_written[0x24] & 1 == 1;
        let number = self.refused_write(class(offset), &memory, is_start);
        if number != 0 {
            return answer(number, 0);
        }
        self.memory = memory;
        if bits_written[0x01] & 0x80 != 0 {
            self.events.push(Event::Release);
        }
        if class(offset) == b'C' && self.scan() == 0 {
            self.cycle = None;
        }
        if is_start {
            self.start();
        }
        answer(0, 0)
    }

    fn input(&mut self, channel: u32, microvolts: i32) -> Answer {
        if channel > 31 {
            answer(11, 0)
        } else if !(-35_000_000..=55_000_000).contains(&microvolts) {
            answer(12, 0)
        } else {
            self.inputs[channel as usize] = microvolts;
            answer(0, 0)
        }
    }

    /// So many times the tick goes up by 1, then comes the store due at it, if any, then the beginning due, if any. In
    /// single modes the last store ends the cycle.
    fn advance(&mut self, ticks: u32) -> Answer {
        if ticks > 16_777_216 {
            return answer(13, 0);
        }
        let mut stores = 0;
        for _ in 0..ticks {
            self.tick += 1;
            if let Some(k) = self.conversion_begun(64) {
                self.store(k);
                stores += 1;
                if matches!(self.scan(), 2 | 4) && k + 1 == self.channels_in_a_pass() {
                    self.cycle = None;
                }
            }
            if let Some(k) = self.conversion_begun(0) {
                self.take_code(k);
            }
        }
        answer(0, stores)
    }

    fn trigger(&mut self) -> Answer {
        if self.trigger_field() == 1 {
            match &self.cycle {
                None if matches!(self.scan(), 1..=4) && self.refused_start() == 0 => self.start(),
                None if self.scan() == 5 && self.refused_start() != 9 => self.start_by_trigger(),
                Some(cycle) if self.scan() == 5 => {
                    let last = cycle.triggers.last().copied();
                    if last.is_none() || last.is_some_and(|last| last + 64 <= self.tick) {
                        self.take_trigger();
                    }
                }
                _ => (),
            }
        }
        answer(0, 0)
    }

    /// It opens anew, but keeps range, inputs and earlier events.
    fn reset(&mut self) -> Answer {
        let mut opened = Logbook::new(self.range);
        opened.inputs = self.inputs;
        self.events.append(&mut opened.events);
        opened.events = std::mem::take(&mut self.events);
        opened.beginnings = std::mem::take(&mut self.beginnings);
        *self = opened;
        answer(0, 0)
    }

    /// No event: what it gives is found from those that there are.
    fn look(&mut self, slot: u32) -> Answer {
        if slot >= 32 {
            return answer(22, 0);
        }
        let slot = slot as usize;
        let bits = match self.stores_in(slot) {
            0 => 0x00000,
            1 => 0x10000,
            _ => 0x30000,
        };
        answer(0, u64::from(bits | self.mailbox(slot)))
    }

    /// It counts as a read of that slot.
    fn clear(&mut self, slot: u32) -> Answer {
        if slot >= 32 {
            return answer(22, 0);
        }
        let slot = slot as usize;
        self.events.push(Event::Read { slot });
        answer(0, 0)
    }
}

// Register accesses.

/// Questions 1 to 3.
fn refused_place(width: usize, offset: usize) -> u64 {
    if ![8, 16, 32].contains(&width) {
        1
    } else if offset >= 256 || offset * 8 % width != 0 {
        2
    } else if class(offset) == b'.' {
        3
    } else {
        0
    }
}

impl Logbook {
    /// What an 8-bit read of a live byte gives.
    fn byte(&self, offset: usize) -> u8 {
        let word = match class(offset) {
            b'N' => self.stores_bits(offset - 0x14, 1),
            b'M' => self.stores_bits(offset - 0x1C, 2),
            b'B' => self.mailbox((offset - 0x80) / 4),
            b'I' => u32::from(self.memory[0]) | u32::from(self.is_pending()) << 1,
            _ => return self.memory[offset],
        };
        word.to_le_bytes()[offset % 4]
    }

    /// Questions 5 to 10, of the memory that the write would leave.
    fn refused_write(&self, class: u8, memory: &[u8; 256], is_start: bool) -> u64 {
        let (low, high) = (memory[0x04], memory[0x05]);
        let is_stop = class == b'C' && high & 0x07 == 0;
        let is_harmless = class == b'I' || is_stop || (class == b'S' && !is_start);
        let not_used = low >> 1 & 3 == 3 || low >> 3 & 7 == 2 || high & 7 >= 6 || high >> 4 == 3;
        if b"NMB".contains(&class) {
            5
        } else if self.cycle.is_some() && !is_harmless {
            6
        } else if not_used || memory[0x10] > 31 || memory[0x11] > 31 {
            7
        } else if is_start && self.scan() == 0 {
            8
        } else if is_start {
            self.refused_start()
        } else {
            0
        }
    }

    /// Questions 9 and 10.
    fn refused_start(&self) -> u64 {
        let (start, end) = (self.memory[0x10], self.memory[0x11]);
        if start > end || (self.is_differential() && end > 15) {
            return 9;
        }
        let has_timer = self.memory[0x05] & 0x08 != 0;
        let is_long_enough = self.interval() >= 64;
        let is_met = match self.scan() {
            1 | 2 => has_timer && is_long_enough,
            3 => !has_timer || is_long_enough,
            _ => true,
        };
        if is_met {
            0
        } else {
            10
        }
    }
}

// Fields of the registers.

impl Logbook {
    fn trigger_field(&self) -> u8 {
        self.memory[0x04] >> 1 & 3
    }

    fn acquisition(&self) -> u8 {
        self.memory[0x04] >> 3 & 7
    }

    fn is_differential(&self) -> bool {
        self.acquisition() == 0
    }

    fn scan(&self) -> u8 {
        self.memory[0x05] & 7
    }

    fn interval(&self) -> u64 {
        let timer = u16::from_le_bytes([self.memory[0x0C], self.memory[0x0D]]);
        u64::from(self.memory[0x09]) * u64::from(timer)
    }

    fn channels_in_a_pass(&self) -> u64 {
        u64::from(self.memory[0x11]) + 1 - u64::from(self.memory[0x10])
    }

    fn channel_of(&self, k: u64) -> usize {
        usize::from(self.memory[0x10]) + (k % self.channels_in_a_pass()) as usize
    }

    fn gain_of(&self, channel: usize) -> u32 {
        // Four channels a byte, and four bytes' distance between words of eight channels.
        let byte = self.memory[0x40 + channel / 8 * 4 + channel % 8 / 4];
        u32::from(byte >> (channel % 4 * 2) & 3)
    }
}

// The schedule.

impl Logbook {
    /// The conversion that began so many ticks ago, found from the ticks since T.
    fn conversion_begun(&self, ticks_ago: u64) -> Option<u64> {
        let cycle = self.cycle.as_ref()?;
        let passed = (self.tick - cycle.start).checked_sub(ticks_ago)?;
        let m = self.channels_in_a_pass();
        let k = match self.scan() {
            1 | 2 => uniform_conversion_at(passed, self.interval()),
            3 if self.memory[0x05] & 0x08 != 0 => {
                burst_conversion_at(passed, m, 120 * m + self.interval())
            }
            3 | 4 => burst_conversion_at(passed, m, 120 * m),
            _ => None,
        }?;
        let is_single = matches!(self.scan(), 2 | 4);
        (!is_single || k < m).then_some(k)
    }

    fn start(&mut self) {
        self.events.push(Event::CycleStart);
        self.cycle = Some(Cycle {
            start: self.tick,
            triggers: Vec::new(),
        });
        if let Some(k) = self.conversion_begun(0) {
            self.take_code(k);
        }
    }

    /// It begins an armed cycle and clears no bit, so there is no event CycleStart. It is taken trigger 0 of the cycle.
    fn start_by_trigger(&mut self) {
        self.cycle = Some(Cycle {
            start: self.tick,
            triggers: vec![self.tick],
        });
        // The code last taken since the reset, 0 if none, goes to the Start Channel's slot. This store ends no pass.
        self.store_last_code(self.memory[0x10].into(), false);
        self.take_code(0);
    }

    /// Its store comes first, then its code.
    fn take_trigger(&mut self) {
        let tick = self.tick;
        let cycle = self.cycle.as_mut().expect("armed");
        let j = cycle.triggers.len() as u64;
        cycle.triggers.push(tick);
        if j >= 1 {
            self.store(j - 1);
        }
        self.take_code(j);
    }

    fn take_code(&mut self, k: u64) {
        let channel = self.channel_of(k);
        let calibration = calibration_voltage(self.acquisition().into());
        let voltage = calibration.unwrap_or(self.inputs[channel]);
        self.last_code = code(self.range, self.gain_of(channel), voltage);
        self.beginnings.push(Beginning {
            tick: self.tick,
            slot: self.slot_of(k),
            code: self.formatted_code(),
        });
    }

    fn slot_of(&self, k: u64) -> usize {
        let pass = k / self.channels_in_a_pass();
        let is_in_second_half = self.is_differential() && pass % 2 == 1;
        self.channel_of(k) + if is_in_second_half { 16 } else { 0 }
    }

    fn store(&mut self, k: u64) {
        let m = self.channels_in_a_pass();
        self.store_last_code(self.slot_of(k), (k + 1) % m == 0);
    }

    /// The code last taken, in the format now in force.
    fn formatted_code(&self) -> u32 {
        match self.memory[0x04] & 1 {
            1 => self.last_code,
            _ => in_twos_complement(self.last_code),
        }
    }

    /// The event of a store.
    fn store_last_code(&mut self, slot: usize, ends_pass: bool) {
        let code = self.formatted_code();
        let interrupts = match self.memory[0x05] >> 4 {
            1 => true,
            2 => ends_pass,
            _ => false,
        };
        self.events.push(Event::Store {
            tick: self.tick,
            slot,
            code,
            interrupts,
        });
    }
}

/// Uniform: k begins at T + (k + 1) * I.
fn uniform_conversion_at(passed: u64, interval: u64) -> Option<u64> {
    (passed >= interval && passed % interval == 0).then(|| passed / interval - 1)
}

/// Burst: passes follow each other at this distance, and each begins its m conversions 120 apart.
fn burst_conversion_at(passed: u64, m: u64, distance: u64) -> Option<u64> {
    let (pass, within) = (passed / distance, passed % distance);
    (within % 120 == 0 && within / 120 < m).then(|| pass * m + within / 120)
}

// What is read, found from the events.

impl Logbook {
    /// The code of the last store in a slot since the last reset; 0 if there is none.
    pub fn mailbox(&self, slot: usize) -> u32 {
        for event in self.events.iter().rev() {
            match *event {
                Event::Store { slot: s, code, .. } if s == slot => return code,
                Event::Reset => return 0,
                _ => (),
            }
        }
        0
    }

    /// Stores in a slot since its last read, the last cycle start and the last reset.
    fn stores_in(&self, slot: usize) -> usize {
        let clears = |event: &Event| match *event {
            Event::Reset | Event::CycleStart => true,
            Event::Read { slot: s } => s == slot,
            _ => false,
        };
        let fills = |event: &&Event| matches!(**event, Event::Store { slot: s, .. } if s == slot);
        let since = self.events.iter().rev().take_while(|event| !clears(event));
        since.filter(fills).count()
    }

    /// The bits of 16 slots, from byte 0 or 4 on: one is set by so many stores. A slot is New from
    /// the first store on, and Missed from the second.
    fn stores_bits(&self, byte: usize, least: usize) -> u32 {
        let first = byte / 4 * 16;
        let is_set = |i: &usize| self.stores_in(first + i) >= least;
        (0..16).filter(is_set).map(|i| 1 << i).sum()
    }

    /// Has an interrupting store come since the last release and the last reset?
    pub fn is_pending(&self) -> bool {
        for event in self.events.iter().rev() {
            match *event {
                Event::Store { interrupts, .. } if interrupts => return true,
                Event::Release | Event::Reset => return false,
                _ => (),
            }
        }
        false
    }
}
