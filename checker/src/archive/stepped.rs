//! A board that a simulator holds, as the archive's header has it: the struct, and the calls that C
//! makes on it.

use crate::archive::answer_of;
use crate::board::analog::Answer;
use crate::board::call::{Call, Calls, Step};
use crate::board::registers::Register;

/// The bytes of the struct: there is no padding.
pub const BYTES: usize = 284;

/// How many of its fields hold one number each, `spare` aside.
pub const NUMBERS: usize = 17;

/// pmc330_board. Its fields are the part's own: here they are only lent, copied, compared and spoilt.
#[repr(C)]
#[derive(Clone, Copy, Debug, PartialEq, Eq)]
pub struct SteppedBoard {
    inputs: [i32; 32],
    lead: u32,
    lag: u32,
    codes: [u16; 32],
    control: u16,
    timer: u16,
    taken: u16,
    gains: [u8; 32],
    unread: [u8; 32],
    range: u8,
    prescaler: u8,
    start: u8,
    end: u8,
    enable: u8,
    pending: u8,
    running: u8,
    waiting: u8,
    slot: u8,
    ends: u8,
    index: u8,
    odd: u8,
    spare: u16,
}

extern "C" {
    fn pmc330_open(board: *mut SteppedBoard, range: u32) -> u64;
    fn pmc330_read(board: *mut SteppedBoard, width: u32, offset: u32) -> u64;
    fn pmc330_write(board: *mut SteppedBoard, width: u32, offset: u32, value: u32) -> u64;
    fn pmc330_input(board: *mut SteppedBoard, channel: u32, microvolts: i32) -> u64;
    fn pmc330_advance(board: *mut SteppedBoard, ticks: u32) -> u64;
    fn pmc330_trigger(board: *mut SteppedBoard) -> u64;
    fn pmc330_reset(board: *mut SteppedBoard) -> u64;
    // Const in C. Not here: of a const board the compiler may take it that nothing changes, and that is to be seen.
    fn pmc330_look(board: *mut SteppedBoard, slot: u32) -> u64;
    fn pmc330_clear(board: *mut SteppedBoard, slot: u32) -> u64;
    fn pmc330_line(board: *const SteppedBoard) -> u32;
    fn pmc330_next_store(board: *const SteppedBoard) -> u32;
    fn header_places(places: *mut usize);
}

/// Where each field of the struct lies, and where the struct ends.
pub type Places = [usize; 23];

/// By the header (`header.c`), and here.
pub fn places() -> [Places; 2] {
    let mut of_header = [0; 23];
    // Safe: 23 places are lent, and as many are written.
    unsafe { header_places(of_header.as_mut_ptr()) };
    macro_rules! places_of {
        ($($field:ident)*) => { [$(std::mem::offset_of!(SteppedBoard, $field),)* BYTES] };
    }
    let of_this = places_of!(inputs lead lag codes control timer taken gains unread range prescaler
        start end enable pending running waiting slot ends index odd spare);
    [of_header, of_this]
}

// The calls, each with its 256 * value + number. All are safe: a whole board is lent, for this call only, and any
// contents are answered.

impl SteppedBoard {
    /// Memory before any call: every byte is this one.
    pub fn filled(byte: u8) -> SteppedBoard {
        SteppedBoard::from_bytes([byte; BYTES])
    }
}

impl Calls for SteppedBoard {
    type Given = u64;

    #[inline]
    fn open(&mut self, range: u32) -> u64 {
        unsafe { pmc330_open(self, range) }
    }

    #[inline]
    fn read(&mut self, width: u32, offset: u32) -> u64 {
        unsafe { pmc330_read(self, width, offset) }
    }

    #[inline]
    fn write(&mut self, width: u32, offset: u32, value: u32) -> u64 {
        unsafe { pmc330_write(self, width, offset, value) }
    }

    #[inline]
    fn input(&mut self, channel: u32, microvolts: i32) -> u64 {
        unsafe { pmc330_input(self, channel, microvolts) }
    }

    #[inline]
    fn advance(&mut self, ticks: u32) -> u64 {
        unsafe { pmc330_advance(self, ticks) }
    }

    #[inline]
    fn trigger(&mut self) -> u64 {
        unsafe { pmc330_trigger(self) }
    }

    #[inline]
    fn reset(&mut self) -> u64 {
        unsafe { pmc330_reset(self) }
    }

    #[inline]
    fn look(&mut self, slot: u32) -> u64 {
        unsafe { pmc330_look(self, slot) }
    }

    #[inline]
    fn clear(&mut self, slot: u32) -> u64 {
        unsafe { pmc330_clear(self, slot) }
    }
}

impl SteppedBoard {
    /// The request line, 0 or 1.
    #[inline]
    pub fn line(&self) -> u32 {
        unsafe { pmc330_line(self) }
    }

    /// The ticks to the next store if only time passes, 0 if none is to come.
    #[inline]
    pub fn next_store(&self) -> u32 {
        unsafe { pmc330_next_store(self) }
    }

    /// A call of a trace, with its number and value apart.
    pub fn answer(&mut self, call: &Call) -> Answer {
        answer_of(self.call(call))
    }
}

/// A list of calls through the functions: number and value of each in five bytes, as a player puts
/// them.
pub fn answers_by_functions(range: u32, calls: &[Call]) -> Vec<u8> {
    let mut board = SteppedBoard::filled(0x5A);
    assert_eq!(board.open(range), 0, "a board has a range of 0 to 3");
    let bytes_of = |call| {
        let Answer { number, value } = board.answer(call);
        let mut bytes = vec![u8::try_from(number).expect("a number")];
        bytes.extend(u32::try_from(value).expect("a value").to_le_bytes());
        bytes
    };
    calls.iter().flat_map(bytes_of).collect()
}

// The bytes.

impl SteppedBoard {
    /// The struct of these bytes.
    pub fn from_bytes(bytes: [u8; BYTES]) -> SteppedBoard {
        // Safe: the struct has these bytes and no others, and any of them make whole numbers.
        unsafe { std::mem::transmute(bytes) }
    }

    /// All bytes of the struct.
    pub fn bytes(&self) -> [u8; BYTES] {
        // Safe: as above.
        unsafe { std::mem::transmute(*self) }
    }

    /// The same board, but for the New and Missed bits of its slots?
    pub fn is_same_but_for_bits(&self, other: &SteppedBoard) -> bool {
        let unread = other.unread;
        SteppedBoard { unread, ..*self } == *other
    }

    /// The fields that hold one number each, to be spoilt.
    pub fn numbers(&self) -> [u32; NUMBERS] {
        [
            self.lead,
            self.lag,
            self.control.into(),
            self.timer.into(),
            self.taken.into(),
            self.range.into(),
            self.prescaler.into(),
            self.start.into(),
            self.end.into(),
            self.enable.into(),
            self.pending.into(),
            self.running.into(),
            self.waiting.into(),
            self.slot.into(),
            self.ends.into(),
            self.index.into(),
            self.odd.into(),
        ]
    }

    /// A number is cut to what its field holds.
    pub fn set_numbers(&mut self, numbers: [u32; NUMBERS]) {
        [self.lead, self.lag] = [numbers[0], numbers[1]];
        [self.control, self.timer, self.taken] = [2, 3, 4].map(|place| numbers[place] as u16);
        [
            self.range,
            self.prescaler,
            self.start,
            self.end,
            self.enable,
            self.pending,
            self.running,
            self.waiting,
            self.slot,
            self.ends,
            self.index,
            self.odd,
        ] = std::array::from_fn(|place| numbers[5 + place] as u8);
    }

    /// How many of its six flags are set.
    pub fn flags(&self) -> usize {
        let flags = [self.enable, self.pending, self.running];
        let more = [self.waiting, self.ends, self.odd];
        flags.into_iter().chain(more).filter(|it| *it != 0).count()
    }

    /// The same board in other bytes: each flag that is set is this one, which is not 0, and `spare` is it twice.
    pub fn in_other_bytes(&self, byte: u8) -> SteppedBoard {
        let set = |flag| if flag == 0 { 0 } else { byte };
        SteppedBoard {
            enable: set(self.enable),
            pending: set(self.pending),
            running: set(self.running),
            waiting: set(self.waiting),
            ends: set(self.ends),
            odd: set(self.odd),
            spare: u16::from_ne_bytes([byte; 2]),
            ..*self
        }
    }
}

/// Are no other bytes changed than an accepted call of this kind may change? `spare` by an opening alone, to 0.
pub fn changes_what_it_may(step: &Step, before: &SteppedBoard, after: &SteppedBoard) -> bool {
    let SteppedBoard {
        inputs,
        gains,
        codes,
        ..
    } = *before;
    let mut allowed = *before;
    match *step {
        Step::Open { .. } => allowed = *after,
        Step::Read { offset, .. } => {
            if let Some(Register::Mailbox(slot)) = Register::at(offset) {
                allowed.unread[slot] = after.unread[slot];
            }
        }
        Step::Clear { slot } => allowed.unread[slot as usize] = after.unread[slot as usize],
        Step::Look { .. } => (),
        Step::Input { channel, .. } => {
            allowed.inputs[channel as usize] = after.inputs[channel as usize]
        }
        Step::Write { .. } => {
            allowed = SteppedBoard {
                inputs,
                codes,
                ..*after
            }
        }
        Step::Advance { .. } | Step::Trigger => {
            allowed = SteppedBoard {
                inputs,
                gains,
                ..*after
            }
        }
        Step::Reset => {
            allowed = SteppedBoard {
                inputs,
                range: before.range,
                ..*after
            }
        }
    }
    allowed.spare = match *step {
        Step::Open { .. } => 0,
        _ => before.spare,
    };
    allowed == *after
}
