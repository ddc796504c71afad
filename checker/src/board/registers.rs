//! The register map: which register an offset names, and the registers that are written.

/// The registers of the map, one for each mapped word.
#[derive(Clone, Copy, Debug, PartialEq, Eq)]
pub enum Register {
    Interrupt,
    Control,
    Prescaler,
    Timer,
    /// Start and End Channel.
    Channels,
    /// New Data of 16 slots, from this one on.
    NewData(usize),
    /// Missed Data of 16 slots, from this one on.
    MissedData(usize),
    StartConvert,
    /// The gains of eight channels: which of the four words.
    Gain(usize),
    /// The mailbox of this slot.
    Mailbox(usize),
}

impl Register {
    /// The register with a live byte at an offset below 256. Each mapped word has two live bytes, at its offset and at
    /// offset + 1; the two after them are unmapped.
    pub fn at(offset: u32) -> Option<Register> {
        let byte = offset % 4;
        let word = offset - byte;
        if byte > 1 {
            return None;
        }
        match word {
            0x00 => Some(Register::Interrupt),
            0x04 => Some(Register::Control),
            0x08 => Some(Register::Prescaler),
            0x0C => Some(Register::Timer),
            0x10 => Some(Register::Channels),
            0x14 => Some(Register::NewData(0)),
            0x18 => Some(Register::NewData(16)),
            0x1C => Some(Register::MissedData(0)),
            0x20 => Some(Register::MissedData(16)),
            0x24 => Some(Register::StartConvert),
            0x40..=0x4C => Some(Register::Gain((word as usize - 0x40) / 4)),
            0x80..=0xFC => Some(Register::Mailbox((word as usize - 0x80) / 4)),
            _ => None,
        }
    }

    /// New Data, Missed Data and the mailboxes are read only.
    pub fn takes_writes(self) -> bool {
        !matches!(
            self,
            Register::NewData(_) | Register::MissedData(_) | Register::Mailbox(_)
        )
    }

    /// Start Convert is write only.
    pub fn takes_reads(self) -> bool {
        self != Register::StartConvert
    }
}

// Bits 2-1 of Control.

/// Trigger 01: external triggers are taken.
pub const TRIGGER_INPUT: u32 = 0b01;

// Bits 5-3 of Control. The other acquisition codes are calibrations: analog::calibration_voltage.

/// Acquisition 000.
pub const DIFFERENTIAL: u32 = 0b000;
/// Acquisition 001.
pub const SINGLE_ENDED: u32 = 0b001;

// Bits 10-8 of Control.

/// Scan 000.
pub const SCAN_OFF: u32 = 0b000;
/// Scan 001.
pub const UNIFORM_CONTINUOUS: u32 = 0b001;
/// Scan 010.
pub const UNIFORM_SINGLE: u32 = 0b010;
/// Scan 011.
pub const BURST_CONTINUOUS: u32 = 0b011;
/// Scan 100.
pub const BURST_SINGLE: u32 = 0b100;
/// Scan 101: external trigger only.
pub const TRIGGER_ONLY: u32 = 0b101;

// Bits 13-12 of Control.

/// Interrupt 01: each store interrupts.
pub const EACH_STORE: u32 = 0b01;
/// Interrupt 10: the last store of a pass interrupts.
pub const LAST_STORE_OF_A_PASS: u32 = 0b10;

/// The Control register.
#[derive(Clone, Copy, Debug, PartialEq, Eq)]
pub struct Control(u32);

impl Control {
    /// Bits 6, 7, 14 and 15 are kept as 0.
    pub fn of(word: u32) -> Control {
        Control(word & 0x3F3F)
    }

    /// What a 16-bit read gives.
    pub fn word(self) -> u32 {
        self.0
    }

    /// Bit 0: straight binary, else two's complement.
    pub fn is_straight(self) -> bool {
        self.0 & 1 == 1
    }

    /// Bits 2-1.
    pub fn trigger(self) -> u32 {
        self.0 >> 1 & 0b11
    }

    /// Bits 5-3.
    pub fn acquisition(self) -> u32 {
        self.0 >> 3 & 0b111
    }

    /// Is the acquisition differential?
    pub fn is_differential(self) -> bool {
        self.acquisition() == DIFFERENTIAL
    }

    /// Bits 10-8.
    pub fn scan(self) -> u32 {
        self.0 >> 8 & 0b111
    }

    /// Is the scan uniform, single or continuous?
    pub fn is_uniform(self) -> bool {
        matches!(self.scan(), UNIFORM_CONTINUOUS | UNIFORM_SINGLE)
    }

    /// Does the scan end after one pass?
    pub fn is_single(self) -> bool {
        matches!(self.scan(), UNIFORM_SINGLE | BURST_SINGLE)
    }

    /// Bit 11.
    pub fn has_timer(self) -> bool {
        self.0 >> 11 & 1 == 1
    }

    /// Is this burst continuous with the timer enabled? Each pass is then followed by a delay of I.
    pub fn has_delay(self) -> bool {
        self.scan() == BURST_CONTINUOUS && self.has_timer()
    }

    /// Bits 13-12.
    pub fn interrupt(self) -> u32 {
        self.0 >> 12 & 0b11
    }

    /// Trigger 11, acquisition 010, scan 110 and 111 and interrupt 11 are not used.
    pub fn holds_not_used_code(self) -> bool {
        self.trigger() == 0b11
            || self.acquisition() == 0b010
            || self.scan() >= 0b110
            || self.interrupt() == 0b11
    }
}

/// The registers as written. Pending, New, Missed and the mailboxes are the board's own.
#[derive(Clone, Copy, Debug, PartialEq, Eq)]
pub struct Registers {
    /// Bit 0 of Interrupt.
    pub enable: bool,
    pub control: Control,
    pub prescaler: u32,
    pub timer: u32,
    pub start: u32,
    pub end: u32,
    /// The four Gain words.
    pub gains: [u32; 4],
}

impl Registers {
    /// The registers of a new board.
    pub fn all_0() -> Registers {
        Registers {
            enable: false,
            control: Control::of(0),
            prescaler: 0,
            timer: 0,
            start: 0,
            end: 0,
            gains: [0; 4],
        }
    }

    /// The gain field of a channel: 0 to 3 mean gain 1, 2, 4, 8. A word has eight channels, two bits each from bit 0.
    pub fn gain(&self, channel: usize) -> u32 {
        self.gains[channel / 8] >> (2 * (channel % 8)) & 0b11
    }

    /// I = prescaler * timer, in ticks.
    pub fn interval(&self) -> u64 {
        u64::from(self.prescaler) * u64::from(self.timer)
    }

    /// m = End - Start + 1, for channels that meet question 9.
    pub fn channels_in_a_pass(&self) -> u64 {
        u64::from(self.end - self.start + 1)
    }

    /// The slot of conversion k: the channel, and 16 more if differential and the pass is odd.
    pub fn slot_of(&self, k: u64) -> u64 {
        let m = self.channels_in_a_pass();
        let is_in_second_half = self.control.is_differential() && k / m % 2 == 1;
        u64::from(self.start) + k % m + if is_in_second_half { 16 } else { 0 }
    }

    /// D, in ticks: I in burst continuous with the timer enabled, else 0.
    pub fn delay(&self) -> u64 {
        if self.control.has_delay() {
            self.interval()
        } else {
            0
        }
    }
}
