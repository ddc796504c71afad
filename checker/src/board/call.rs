//! The calls of a trace, calls as C makes them, and the trait of a board that takes them. They are printed as the texts
//! of `examples/` write them: `write 16 10H 0000H`, `advance 64`.

use std::fmt;

/// A call with its arguments, each as wide as its place in a trace, so that no call is beyond one.
#[derive(Clone, Copy, Debug, PartialEq, Eq)]
pub enum Call {
    Read { width: u8, offset: u16 },
    Write { width: u8, offset: u16, value: u32 },
    Input { channel: u8, microvolts: i32 },
    Advance { ticks: u32 },
    Trigger,
    Reset,
    Look { slot: u8 },
    Clear { slot: u8 },
}

impl fmt::Display for Call {
    fn fmt(&self, out: &mut fmt::Formatter) -> fmt::Result {
        Step::of(self).fmt(out)
    }
}

// Calls as C makes them.

/// A call with arguments of 32 bits: also those that no trace can hold.
#[derive(Clone, Copy, Debug, PartialEq, Eq)]
pub enum Step {
    Open { range: u32 },
    Read { width: u32, offset: u32 },
    Write { width: u32, offset: u32, value: u32 },
    Input { channel: u32, microvolts: i32 },
    Advance { ticks: u32 },
    Trigger,
    Reset,
    Look { slot: u32 },
    Clear { slot: u32 },
}

impl Step {
    /// A call of a trace, as C makes it.
    #[inline]
    pub fn of(call: &Call) -> Step {
        match *call {
            Call::Read { width, offset } => Step::Read {
                width: width.into(),
                offset: offset.into(),
            },
            Call::Write {
                width,
                offset,
                value,
            } => Step::Write {
                width: width.into(),
                offset: offset.into(),
                value,
            },
            Call::Input {
                channel,
                microvolts,
            } => Step::Input {
                channel: channel.into(),
                microvolts,
            },
            Call::Advance { ticks } => Step::Advance { ticks },
            Call::Trigger => Step::Trigger,
            Call::Reset => Step::Reset,
            Call::Look { slot } => Step::Look { slot: slot.into() },
            Call::Clear { slot } => Step::Clear { slot: slot.into() },
        }
    }
}

impl fmt::Display for Step {
    fn fmt(&self, out: &mut fmt::Formatter) -> fmt::Result {
        match *self {
            Step::Open { range } => write!(out, "open {range}"),
            Step::Read { width, offset } => write!(out, "read {width} {offset:02X}H"),
            Step::Write {
                width,
                offset,
                value,
            } => write!(out, "write {width} {offset:02X}H {value:04X}H"),
            Step::Input {
                channel,
                microvolts,
            } => write!(out, "input {channel} {microvolts}"),
            Step::Advance { ticks } => write!(out, "advance {ticks}"),
            Step::Trigger => write!(out, "trigger"),
            Step::Reset => write!(out, "reset"),
            Step::Look { slot } => write!(out, "look {slot}"),
            Step::Clear { slot } => write!(out, "clear {slot}"),
        }
    }
}

// Boards that take calls.

/// A board that is called, by whatever route. Which of its functions a call asks for is said here alone.
pub trait Calls {
    /// What a call gives: its `Answer`, or 256 * value + number, as C has it.
    type Given;

    /// A new board of range 0 to 3 in place of this one. A refusal (14) leaves this one as it is.
    fn open(&mut self, range: u32) -> Self::Given;

    /// Width in bits: 8, 16 or 32.
    fn read(&mut self, width: u32, offset: u32) -> Self::Given;

    /// Width in bits: 8, 16 or 32.
    fn write(&mut self, width: u32, offset: u32, value: u32) -> Self::Given;

    /// The voltage of a channel, 0 to 31, from now on.
    fn input(&mut self, channel: u32, microvolts: i32) -> Self::Given;

    /// Lets up to 16,777,216 ticks pass. The value is the number of stores in them.
    fn advance(&mut self, ticks: u32) -> Self::Given;

    /// An external trigger.
    fn trigger(&mut self) -> Self::Given;

    /// All is as on a new board, but for range and inputs.
    fn reset(&mut self) -> Self::Given;

    /// A slot's code, 0 to 31, with New and Missed. It changes nothing.
    fn look(&mut self, slot: u32) -> Self::Given;

    /// Drops a slot's New and Missed, as a read of its mailbox does.
    fn clear(&mut self, slot: u32) -> Self::Given;

    /// A call as C makes it.
    #[inline]
    fn step(&mut self, step: &Step) -> Self::Given {
        match *step {
            Step::Open { range } => self.open(range),
            Step::Read { width, offset } => self.read(width, offset),
            Step::Write {
                width,
                offset,
                value,
            } => self.write(width, offset, value),
            Step::Input {
                channel,
                microvolts,
            } => self.input(channel, microvolts),
            Step::Advance { ticks } => self.advance(ticks),
            Step::Trigger => self.trigger(),
            Step::Reset => self.reset(),
            Step::Look { slot } => self.look(slot),
            Step::Clear { slot } => self.clear(slot),
        }
    }

    /// A call of a trace.
    #[inline]
    fn call(&mut self, call: &Call) -> Self::Given {
        self.step(&Step::of(call))
    }
}
