//! The board: questions 1 to 14 and 22, the schedule, the mailboxes with looks and clears, and triggers.
//!
//! Time is absolute here. The board knows its tick and the tick at which its cycle's next store or
//! beginning is due. An advance goes from event to event, and over whole repeats of the scan once
//! they change nothing any more.

use crate::board::analog::{self, Answer};
use crate::board::call::Calls;
use crate::board::registers::{
    Control, Register, Registers, BURST_SINGLE, EACH_STORE, LAST_STORE_OF_A_PASS, SCAN_OFF,
    TRIGGER_INPUT, TRIGGER_ONLY, UNIFORM_CONTINUOUS, UNIFORM_SINGLE,
};

/// A conversion is stored so many ticks after it begins.
pub const CONVERSION: u64 = 64;

/// A burst begins a conversion each so many ticks.
pub const BURST_STEP: u64 = 120;

/// The most ticks of an advance.
pub const LONGEST_ADVANCE: u32 = 16_777_216;

/// The lowest voltage of an input, in microvolts.
pub const LOWEST_INPUT: i32 = -35_000_000;

/// The highest voltage of an input, in microvolts.
pub const HIGHEST_INPUT: i32 = 55_000_000;

/// Due at this tick: nothing comes by itself.
const NEVER: u64 = u64::MAX;

/// A running cycle. Its conversions are counted from the start on, over all passes. One is stored
/// before the next begins, so that only one is in flight at a time.
#[derive(Clone, Copy, Debug, PartialEq, Eq)]
pub struct Cycle {
    /// T: the tick at which it started.
    pub start: u64,
    /// Conversions begun: k of the next one to begin.
    pub begun: u64,
    /// Stores made: k of the next one to be stored.
    pub stored: u64,
    /// External trigger only: the tick of the last trigger taken in this cycle.
    pub last_taken: Option<u64>,
    /// k mod m of the next one to be stored.
    place: u64,
    /// What its pass adds to the slot: 16 if differential and the pass is odd.
    half: u64,
    /// The tick of the next store or beginning that comes by itself.
    due: u64,
}

impl Cycle {
    /// At this tick, with nothing begun; what comes by itself first is due at that one.
    fn starting(tick: u64, due: u64) -> Cycle {
        Cycle {
            start: tick,
            begun: 0,
            stored: 0,
            last_taken: None,
            place: 0,
            half: 0,
            due,
        }
    }
}

/// What stays as it is while a call runs: the inputs, and what the registers say of the scan.
struct Scan<'a> {
    range: u32,
    inputs: &'a [i32; 32],
    registers: &'a Registers,
    control: Control,
    /// The first channel.
    start: u64,
    /// m: the channels in a pass.
    m: u64,
    /// Ticks from a beginning to the next one: in the same pass, and from its last to the next pass.
    step: u64,
    turn: u64,
    /// The voltage that is converted in place of the inputs.
    calibration: Option<i32>,
    /// 16 if differential: passes go to the halves of the slots in turn.
    half: u64,
}

/// All that stores and beginnings change, beside the cycle.
#[derive(Clone, Copy, Debug, PartialEq, Eq)]
struct Data {
    /// The code in each slot, in the format of its store.
    mailboxes: [u16; 32],
    /// New and Missed of each slot, slot 0 in bit 0.
    new: u32,
    missed: u32,
    pending: bool,
    /// The code last taken since reset, straight binary, 0 if none: the end of a cycle leaves it.
    taken: u32,
}

const NO_DATA: Data = Data {
    mailboxes: [0; 32],
    new: 0,
    missed: 0,
    pending: false,
    taken: 0,
};

/// A board, from event to event.
#[derive(Clone, Debug, PartialEq, Eq)]
pub struct Board {
    range: u32,
    registers: Registers,
    /// Microvolts of each channel.
    inputs: [i32; 32],
    data: Data,
    /// Ticks since the board was new or reset.
    tick: u64,
    cycle: Option<Cycle>,
}

fn accepted(value: u64) -> Answer {
    Answer { number: 0, value }
}

/// The value of a refused call is 0.
fn refused(number: u64) -> Answer {
    Answer { number, value: 0 }
}

/// A question: its number is the answer if it is not met.
fn ask(number: u64, is_met: bool) -> Result<(), u64> {
    if is_met {
        Ok(())
    } else {
        Err(number)
    }
}

// The calls.

impl Board {
    /// 14. Is a new board's range 0 to 3? If not, the board returned is a new one of range 0.
    pub fn new(range: u32) -> (Board, Answer) {
        if range <= 3 {
            (Board::opened(range, [0; 32]), accepted(0))
        } else {
            (Board::opened(0, [0; 32]), refused(14))
        }
    }

    /// A new board is idle, with no store to come, and all registers, bits and codes are 0.
    fn opened(range: u32, inputs: [i32; 32]) -> Board {
        Board {
            range,
            registers: Registers::all_0(),
            inputs,
            data: NO_DATA,
            tick: 0,
            cycle: None,
        }
    }
}

impl Calls for Board {
    type Given = Answer;

    fn open(&mut self, range: u32) -> Answer {
        let (board, answer) = Board::new(range);
        if answer.number == 0 {
            *self = board;
        }
        answer
    }

    fn read(&mut self, width: u32, offset: u32) -> Answer {
        match readable(width, offset) {
            Ok(register) => {
                let word = self.word(register);
                // A mailbox read of any width clears the slot's New and Missed bits.
                if let Register::Mailbox(slot) = register {
                    self.data.drop_bits(slot);
                }
                accepted(covered(word, width, offset).into())
            }
            Err(number) => refused(number),
        }
    }

    fn write(&mut self, width: u32, offset: u32, value: u32) -> Answer {
        match self.resulting(width, offset, value) {
            Ok((register, word)) => {
                self.put(register, word);
                accepted(0)
            }
            Err(number) => refused(number),
        }
    }

    /// 11. Is an input's channel at most 31? 12. Is its voltage from -35,000,000 to 55,000,000?
    fn input(&mut self, channel: u32, microvolts: i32) -> Answer {
        if channel > 31 {
            return refused(11);
        }
        if !(LOWEST_INPUT..=HIGHEST_INPUT).contains(&microvolts) {
            return refused(12);
        }
        self.inputs[channel as usize] = microvolts;
        accepted(0)
    }

    /// 13. Is an advance at most 16,777,216 ticks? Its value is the number of stores made in it.
    fn advance(&mut self, ticks: u32) -> Answer {
        if ticks > LONGEST_ADVANCE {
            return refused(13);
        }
        let last = self.tick + u64::from(ticks);
        let stores = self.run(last);
        self.tick = last;
        accepted(stores)
    }

    /// Starts a cycle, arms or is taken, if its field is 01. Any other trigger is accepted and ignored.
    fn trigger(&mut self) -> Answer {
        let control = self.registers.control;
        if control.trigger() == TRIGGER_INPUT {
            if self.is_idle() {
                self.trigger_while_idle();
            } else if control.scan() == TRIGGER_ONLY {
                self.trigger_while_armed();
            }
        }
        accepted(0)
    }

    /// Range and inputs stay.
    fn reset(&mut self) -> Answer {
        *self = Board::opened(self.range, self.inputs);
        accepted(0)
    }

    /// It changes nothing, and it is taken whether a cycle runs or not.
    fn look(&mut self, slot: u32) -> Answer {
        match slot_of(slot) {
            Ok(slot) => accepted(self.data.look(slot).into()),
            Err(number) => refused(number),
        }
    }

    /// It is taken whether a cycle runs or not.
    fn clear(&mut self, slot: u32) -> Answer {
        match slot_of(slot) {
            Ok(slot) => {
                self.data.drop_bits(slot);
                accepted(0)
            }
            Err(number) => refused(number),
        }
    }
}

impl Board {
    /// The request line: enable and pending.
    pub fn request_line(&self) -> bool {
        self.registers.enable && self.data.pending
    }

    /// The ticks to the next store if only time passes, 0 if none is to come. It is conversion k's, the
    /// first that is not stored yet, 64 ticks after the beginning that the schedule gives it from T on.
    pub fn next_store(&self) -> u32 {
        let Some(cycle) = &self.cycle else {
            return 0;
        };
        let (k, m) = (cycle.stored, self.registers.channels_in_a_pass());
        let after_start = match self.registers.control.scan() {
            // Stored by triggers only.
            TRIGGER_ONLY => return 0,
            UNIFORM_CONTINUOUS | UNIFORM_SINGLE => (k + 1) * self.registers.interval(),
            _ => k / m * (BURST_STEP * m + self.registers.delay()) + BURST_STEP * (k % m),
        };
        let ticks = cycle.start + after_start + CONVERSION - self.tick;
        u32::try_from(ticks).expect("I is at most 255 * 65,535")
    }
}

// Mailboxes: what a look gives, and what reads and clears drop.

/// 22. Is the slot of a look or a clear at most 31?
fn slot_of(slot: u32) -> Result<usize, u64> {
    ask(22, slot <= 31)?;
    Ok(slot as usize)
}

impl Data {
    /// The code, 65536 more if New, 131072 more if Missed.
    fn look(&self, slot: usize) -> u32 {
        let (new, missed) = (self.new >> slot & 1, self.missed >> slot & 1);
        u32::from(self.mailboxes[slot]) + 65_536 * new + 131_072 * missed
    }

    fn drop_bits(&mut self, slot: usize) {
        self.new &= !(1 << slot);
        self.missed &= !(1 << slot);
    }
}

// Register accesses.

/// Questions 1 to 3: the register that an access of this width and offset is made to.
fn register_of(width: u32, offset: u32) -> Result<Register, u64> {
    ask(1, matches!(width, 8 | 16 | 32))?;
    // 1, 2 and 4 bytes: a multiple has no bit below that one.
    ask(2, offset < 256 && offset & (width / 8 - 1) == 0)?;
    Register::at(offset).ok_or(3)
}

/// Questions 1 to 5 of a read; 6 and 7 are met by any.
fn readable(width: u32, offset: u32) -> Result<Register, u64> {
    let register = register_of(width, offset)?;
    ask(5, register.takes_reads())?;
    Ok(register)
}

/// A read gives the live bytes that its width covers, from its first byte on; missing ones are 0.
fn covered(word: u32, width: u32, offset: u32) -> u32 {
    match (width, offset % 4) {
        (8, 0) => word & 0x00FF,
        (8, _) => word >> 8,
        _ => word,
    }
}

/// A narrow write keeps the other byte. A 32-bit write uses the low 16 bits.
fn merged(word: u32, width: u32, offset: u32, value: u32) -> u32 {
    match (width, offset % 4) {
        (8, 0) => word & 0xFF00 | value,
        (8, _) => word & 0x00FF | value << 8,
        _ => value & 0xFFFF,
    }
}

impl Board {
    /// What a 16-bit read of a register gives.
    fn word(&self, register: Register) -> u32 {
        let registers = &self.registers;
        match register {
            Register::Interrupt => u32::from(registers.enable) | u32::from(self.data.pending) << 1,
            Register::Control => registers.control.word(),
            Register::Prescaler => registers.prescaler << 8,
            Register::Timer => registers.timer,
            Register::Channels => registers.end << 8 | registers.start,
            Register::NewData(first) => self.data.new >> first & 0xFFFF,
            Register::MissedData(first) => self.data.missed >> first & 0xFFFF,
            // Write only: it holds nothing that a narrow write could keep.
            Register::StartConvert => 0,
            Register::Gain(word) => registers.gains[word],
            Register::Mailbox(slot) => self.data.mailboxes[slot].into(),
        }
    }

    /// Questions 1 to 10 of a write: the register, and the word that it results in.
    fn resulting(&self, width: u32, offset: u32, value: u32) -> Result<(Register, u32), u64> {
        let register = register_of(width, offset)?;
        ask(4, u64::from(value) < 1 << width)?;
        ask(5, register.takes_writes())?;
        let word = merged(self.word(register), width, offset, value);
        ask(6, self.is_idle() || is_open_while_busy(register, word))?;
        match register {
            Register::Control => ask(7, !Control::of(word).holds_not_used_code())?,
            Register::Channels => ask(7, word & 0xFF <= 31 && word >> 8 <= 31)?,
            Register::StartConvert if word & 1 == 1 => self.may_start()?,
            _ => (),
        }
        Ok((register, word))
    }

    fn put(&mut self, register: Register, word: u32) {
        let registers = &mut self.registers;
        match register {
            Register::Interrupt => {
                registers.enable = word & 1 == 1;
                // A 1 in bit 15 releases: pending becomes 0.
                if word & 0x8000 != 0 {
                    self.data.pending = false;
                }
            }
            Register::Control => {
                registers.control = Control::of(word);
                // A Control write that is taken, with scan 000, ends the cycle.
                if registers.control.scan() == SCAN_OFF {
                    self.cycle = None;
                }
            }
            Register::Prescaler => registers.prescaler = word >> 8,
            Register::Timer => registers.timer = word,
            Register::Channels => (registers.start, registers.end) = (word & 0xFF, word >> 8),
            Register::Gain(place) => registers.gains[place] = word,
            Register::StartConvert if word & 1 == 1 => self.start(),
            Register::StartConvert => (),
            Register::NewData(_) | Register::MissedData(_) | Register::Mailbox(_) => {
                unreachable!("question 5 refuses this")
            }
        }
    }

    /// Questions 8 to 10.
    fn may_start(&self) -> Result<(), u64> {
        let registers = &self.registers;
        let control = registers.control;
        ask(8, control.scan() != SCAN_OFF)?;
        ask(9, self.meets_question_9())?;
        ask(10, control.has_timer() || !control.is_uniform())?;
        let uses_interval = control.is_uniform() || control.has_delay();
        ask(10, registers.interval() >= 64 || !uses_interval)
    }

    /// Is Start at most End, and End at most 15 if differential?
    fn meets_question_9(&self) -> bool {
        let Registers { start, end, .. } = self.registers;
        start <= end && (end <= 15 || !self.registers.control.is_differential())
    }
}

/// Question 6 for a busy board: an Interrupt write, a Control write that leaves scan 000, or a Start Convert write that
/// doesn't set bit 0.
fn is_open_while_busy(register: Register, word: u32) -> bool {
    match register {
        Register::Interrupt => true,
        Register::Control => Control::of(word).scan() == SCAN_OFF,
        Register::StartConvert => word & 1 == 0,
        _ => false,
    }
}

// Cycles: how they start, and how they go on with time and triggers.

impl Board {
    /// All New and Missed bits clear. A burst's first beginning is part of the call that starts it. A cycle that is
    /// armed for triggers begins nothing by itself.
    fn start(&mut self) {
        let control = self.registers.control;
        let due = match control.scan() {
            TRIGGER_ONLY => NEVER,
            _ if control.is_uniform() => self.tick + self.registers.interval(),
            _ => self.tick,
        };
        self.data.new = 0;
        self.data.missed = 0;
        self.cycle = Some(Cycle::starting(self.tick, due));
        self.run(self.tick);
    }

    /// Starts a cycle in scan 001 to 100 if questions 9 and 10 are met. In external trigger only mode it arms if
    /// question 9 is met. Otherwise it is ignored.
    fn trigger_while_idle(&mut self) {
        match self.registers.control.scan() {
            UNIFORM_CONTINUOUS..=BURST_SINGLE if self.may_start().is_ok() => self.start(),
            TRIGGER_ONLY if self.meets_question_9() => self.arm_by_trigger(),
            _ => (),
        }
    }

    /// It begins an armed cycle and clears no bit. As taken trigger 0 it stores the code last taken since the reset, 0
    /// if none, in the format in force and in the Start Channel's slot, and takes conversion 0.
    fn arm_by_trigger(&mut self) {
        let scan = Scan::of(self.range, &self.registers, &self.inputs);
        // For interrupts it counts as a store that ends no pass, also where a pass has one channel.
        scan.put(scan.start as usize, false, &mut self.data);
        let mut cycle = Cycle::starting(self.tick, NEVER);
        scan.begin(&mut cycle, &mut self.data);
        cycle.last_taken = Some(self.tick);
        self.cycle = Some(cycle);
    }

    /// Taken if it is the first in this cycle, or comes 64 or more ticks after the last one taken in it. Its store
    /// comes first, then its code.
    fn trigger_while_armed(&mut self) {
        let Some(cycle) = &mut self.cycle else {
            return;
        };
        if cycle
            .last_taken
            .is_some_and(|last| self.tick - last < CONVERSION)
        {
            return;
        }
        let scan = Scan::of(self.range, &self.registers, &self.inputs);
        if cycle.begun > 0 {
            scan.store(cycle, &mut self.data);
        }
        scan.begin(cycle, &mut self.data);
        cycle.last_taken = Some(self.tick);
    }

    /// Handles all that is due after this tick and up to the last; gives the number of stores.
    fn run(&mut self, last: u64) -> u64 {
        let Some(cycle) = &mut self.cycle else {
            return 0;
        };
        if cycle.due > last {
            return 0;
        }
        let scan = Scan::of(self.range, &self.registers, &self.inputs);
        let stored = cycle.stored;
        if !scan.control.is_single() {
            scan.skip_repeats(cycle, &mut self.data, self.tick, last);
        }
        scan.events(cycle, &mut self.data, last);
        let stores = cycle.stored - stored;
        // A single mode has one pass: the board is idle from its last store on.
        if scan.control.is_single() && cycle.stored == scan.m {
            self.cycle = None;
        }
        stores
    }
}

// The schedule.

impl Scan<'_> {
    fn of<'a>(range: u32, registers: &'a Registers, inputs: &'a [i32; 32]) -> Scan<'a> {
        let control = registers.control;
        let (step, turn) = if control.is_uniform() {
            (registers.interval(), registers.interval())
        } else {
            (BURST_STEP, BURST_STEP + registers.delay())
        };
        Scan {
            range,
            inputs,
            registers,
            control,
            start: registers.start.into(),
            m: registers.channels_in_a_pass(),
            step,
            turn,
            calibration: analog::calibration_voltage(control.acquisition()),
            half: if control.is_differential() { 16 } else { 0 },
        }
    }

    /// A continuous scan repeats itself after a pass, or after two if they go to halves in turn.
    fn passes_to_repeat(&self) -> u64 {
        if self.half == 0 {
            1
        } else {
            2
        }
    }

    /// Runs two repeats of the scan, if it repeats itself often enough, and skips the whole ones that
    /// are left. After the first every slot of the scan has New, after the second Missed and its
    /// channel's code of now: a third changes nothing. Nor does the second, if the first didn't.
    fn skip_repeats(&self, cycle: &mut Cycle, data: &mut Data, now: u64, last: u64) {
        let ticks = self.passes_to_repeat() * (self.step * (self.m - 1) + self.turn);
        if cycle.due + 3 * ticks > last {
            return;
        }
        let mut tick = now;
        // What comes before the first beginning isn't part of a repeat.
        if cycle.begun == 0 {
            tick = cycle.due;
            self.events(cycle, data, tick);
        }
        for _ in 0..2 {
            let before = *data;
            tick += ticks;
            self.events(cycle, data, tick);
            if *data == before {
                break;
            }
        }
        let repeats = (last - tick) / ticks;
        let conversions = repeats * self.passes_to_repeat() * self.m;
        cycle.due += repeats * ticks;
        cycle.begun += conversions;
        cycle.stored += conversions;
    }

    /// From event to event.
    fn events(&self, cycle: &mut Cycle, data: &mut Data, last: u64) {
        while cycle.due <= last {
            if cycle.stored == cycle.begun {
                self.begin(cycle, data);
                cycle.due += CONVERSION;
                continue;
            }
            self.store(cycle, data);
            cycle.due = match cycle.place {
                0 if self.control.is_single() => NEVER,
                0 => cycle.due - CONVERSION + self.turn,
                _ => cycle.due - CONVERSION + self.step,
            };
        }
    }

    /// Conversion k is in pass k div m, on channel Start + (k mod m). It takes its code when it begins.
    fn begin(&self, cycle: &mut Cycle, data: &mut Data) {
        let channel = (self.start + cycle.place) as usize;
        // Of its input, or of the calibration voltage.
        let voltage = self.calibration.unwrap_or(self.inputs[channel]);
        let gain = self.registers.gain(channel);
        data.taken = analog::code_in_whole_numbers(self.range, gain, voltage);
        cycle.begun += 1;
    }

    /// Stores the next conversion.
    fn store(&self, cycle: &mut Cycle, data: &mut Data) {
        let slot = self.start + cycle.place + cycle.half;
        cycle.stored += 1;
        cycle.place += 1;
        let is_last_of_pass = cycle.place == self.m;
        if is_last_of_pass {
            cycle.place = 0;
            cycle.half ^= self.half;
        }
        self.put(slot as usize, is_last_of_pass, data);
    }

    /// A store puts the code in its slot and sets New, and Missed too if New was set already. The code is the one last
    /// taken.
    #[inline]
    fn put(&self, slot: usize, is_last_of_pass: bool, data: &mut Data) {
        let code = if self.control.is_straight() {
            data.taken
        } else {
            analog::in_twos_complement(data.taken)
        };
        data.mailboxes[slot] = code as u16;
        data.missed |= data.new & 1 << slot;
        data.new |= 1 << slot;
        // Pending becomes 1, enabled or not.
        data.pending |= match self.control.interrupt() {
            EACH_STORE => true,
            LAST_STORE_OF_A_PASS => is_last_of_pass,
            _ => false,
        };
    }
}

// What can be seen of the board from outside: for steering traces and for counting what they met.

impl Board {
    /// Does no cycle run?
    pub fn is_idle(&self) -> bool {
        self.cycle.is_none()
    }

    /// The cycle that runs, if any.
    pub fn cycle(&self) -> Option<Cycle> {
        self.cycle
    }

    /// Ticks since the board was new or reset.
    pub fn tick(&self) -> u64 {
        self.tick
    }

    /// The registers as written.
    pub fn registers(&self) -> &Registers {
        &self.registers
    }

    /// Is an interrupt pending, enabled or not?
    pub fn is_pending(&self) -> bool {
        self.data.pending
    }

    /// The New bits, slot 0 in bit 0.
    pub fn new_bits(&self) -> u32 {
        self.data.new
    }

    /// The Missed bits, slot 0 in bit 0.
    pub fn missed(&self) -> u32 {
        self.data.missed
    }

    /// The code last taken since reset, straight binary, 0 if none.
    pub fn code_last_taken(&self) -> u32 {
        self.data.taken
    }

    /// Ticks until something comes by itself.
    pub fn ticks_to_next_event(&self) -> Option<u64> {
        let due = self.cycle?.due;
        (due != NEVER).then(|| due - self.tick)
    }
}
