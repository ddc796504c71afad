//! Structs with any bytes in them, also such that no calls lead to. Whatever they contain, every call answers and ends,
//! and a refused call leaves every byte as it was; the next store holds of them too. So it is with looks and clears: a
//! look leaves every byte, a clear all but one, and a mailbox read is both. A flag is set by any byte but 0, and what fills
//! the struct means nothing.

use crate::archive::answer_of;
use crate::archive::stepped::{changes_what_it_may, SteppedBoard, BYTES, NUMBERS};
use crate::archive::stepping::beyond_a_trace;
use crate::board::analog::Answer;
use crate::board::call::{Calls, Step};
use crate::board::{Board, LONGEST_ADVANCE};
use crate::draw::generator::{next_calls, scenes};
use crate::draw::random::Random;
use crate::judge::coverage::{kind, Coverage, Kind};
use crate::judge::looks::check_reads;

/// What is drawn: how the bytes come about.
const STYLES: [&str; 8] = [
    "all bytes random",
    "a good board, some fields replaced",
    "a good board, some bytes replaced",
    "small numbers in the fields",
    "marked numbers in the fields",
    "every byte FFH",
    "every byte 0",
    "a board before arming, some fields replaced",
];

/// The last of them: an idle board in external trigger only mode, and its first call is a trigger.
const BEFORE_ARMING: usize = 7;

/// What was met.
pub enum Moment {
    /// A struct as it was drawn, and its next store.
    Drawn { style: usize, next_store: u32 },
    /// A call on it or on what became of it.
    Made {
        style: usize,
        step: Step,
        answer: Answer,
        /// Has a byte changed?
        changes: bool,
    },
    /// A call on the same board in other bytes, so many of whose flags are set, did the same.
    InOtherBytes { flags: usize },
    /// The first call on a board before arming: does it show in a look?
    FirstTrigger { stores: bool },
    /// The next store held of the struct.
    Held { next_store: u32, is_longest: bool },
}

/// A struct and what is done to it.
struct Subject<'a> {
    /// Seed and struct, for failures.
    name: String,
    random: Random,
    style: usize,
    board: SteppedBoard,
    /// Chooses the calls, and answers what the arguments alone decide.
    guide: Board,
    coverage: &'a mut Coverage<Moment>,
}

/// Draws a struct and makes at least so many calls on it; each is drawn for itself. If it may be
/// long, advances of up to 16,777,216 ticks are made too. Gives the number of calls.
pub fn step_any_bytes(
    seed: u64,
    index: u32,
    calls: u32,
    is_long: bool,
    coverage: &mut Coverage<Moment>,
) -> u32 {
    let own_seed = Random::new(seed).bits() ^ u64::from(index);
    let mut random = Random::new(Random::new(own_seed).bits());
    let style = any_style(&mut random);
    let board = any_struct(&mut random, style);
    let mut subject = Subject {
        name: format!("seed {seed}, struct {index}, {}", STYLES[style]),
        random,
        style,
        board,
        guide: Board::new(0).0,
        coverage,
    };
    subject.coverage.note(&Moment::Drawn {
        style,
        next_store: board.next_store(),
    });
    subject.open_a_copy();
    subject.check_next_store(is_long);
    let mut made = 0;
    if style == BEFORE_ARMING {
        subject.trigger_before_arming();
        made += 1;
    }
    while made < calls {
        made += subject.turn();
        subject.check_next_store(false);
        subject.check_a_slot();
    }
    subject.check_next_store(is_long);
    made
}

// Drawing.

fn any_style(random: &mut Random) -> usize {
    // Every byte FFH or 0 is always the same struct: the calls differ.
    match random.below(26) {
        20 => 5,
        21 => 6,
        22.. => BEFORE_ARMING,
        n => n as usize % 5,
    }
}

fn any_struct(random: &mut Random, style: usize) -> SteppedBoard {
    match style {
        0 => random_bytes(random),
        1 => {
            let board = good_board(random);
            replaced_fields(random, board)
        }
        2 => replaced_bytes(random),
        3 => {
            let bound = random.pick(&[2, 6, 33, 200, 70_000]);
            with_fields(random, |random| random.below(bound))
        }
        4 => with_fields(random, marked),
        5 => SteppedBoard::filled(0xFF),
        6 => SteppedBoard::filled(0),
        _ => {
            let board = board_before_arming(random);
            replaced_fields(random, board)
        }
    }
}

fn random_bytes(random: &mut Random) -> SteppedBoard {
    SteppedBoard::from_bytes(std::array::from_fn(|_| random.bits() as u8))
}

/// A board that calls have led to; mostly one that runs, if the calls have one.
fn good_board(random: &mut Random) -> SteppedBoard {
    let mut board = SteppedBoard::filled(0);
    let range = random.below(4);
    board.open(range);
    let calls = scenes(Random::new(random.bits()), range, 5_000, 1);
    let made = random.below(calls.len() as u32) as usize;
    let is_wanted_running = !random.one_in(4);
    for (index, call) in calls.iter().enumerate() {
        let is_running = board.next_store() > 0;
        if index >= made && (is_running || !is_wanted_running) {
            break;
        }
        board.call(call);
    }
    board
}

/// Idle, in external trigger only mode with trigger field 01; calls have led to it.
fn board_before_arming(random: &mut Random) -> SteppedBoard {
    let mut board = good_board(random);
    let control = random.pick(&[0x0502, 0x050B, 0x150B, 0x2503, 0x253A]);
    let channels = random.pick(&[0x0000, 0x0F0F, 0x0F00, 0x0503]);
    for (offset, word) in [(0x04, 0), (0x04, control), (0x10, channels)] {
        assert_eq!(board.write(16, offset, word), 0);
    }
    board
}

fn replaced_fields(random: &mut Random, mut board: SteppedBoard) -> SteppedBoard {
    for _ in 0..random.between(1, 3) {
        let place = random.below(NUMBERS as u32) as usize;
        let mut numbers = board.numbers();
        let bits = random.pick(&[8, 16, 32]);
        numbers[place] = match random.below(6) {
            0 => numbers[place].wrapping_add(1),
            1 => numbers[place].wrapping_sub(1),
            2 => numbers[place] ^ 1 << random.below(bits),
            3 => numbers[random.below(NUMBERS as u32) as usize],
            _ => marked(random),
        };
        board.set_numbers(numbers);
    }
    board
}

fn replaced_bytes(random: &mut Random) -> SteppedBoard {
    let mut bytes = good_board(random).bytes();
    for _ in 0..random.between(1, 6) {
        bytes[random.below(BYTES as u32) as usize] = random.bits() as u8;
    }
    SteppedBoard::from_bytes(bytes)
}

fn with_fields(random: &mut Random, number: impl Fn(&mut Random) -> u32) -> SteppedBoard {
    let mut board = match random.below(3) {
        0 => SteppedBoard::filled(0),
        1 => good_board(random),
        _ => random_bytes(random),
    };
    board.set_numbers(std::array::from_fn(|_| number(random)));
    board
}

/// Numbers around those that the rules name, small ones, and any. Of each, a field takes what it holds.
fn marked(random: &mut Random) -> u32 {
    let bits = random.bits() as u32;
    let near = random.pick(&[0, 1, 16, 31, 32, 64, 120, 256, 65_536, LONGEST_ADVANCE]);
    match random.below(8) {
        0 => 0,
        1 => 1,
        2 => random.below(6),
        3 => u32::MAX - random.below(130),
        4 => (1 << random.below(32)) - random.below(2),
        5 => bits,
        _ => near.wrapping_add(random.below(3)).wrapping_sub(1),
    }
}

// What must hold.

impl Subject<'_> {
    /// An opening is made on memory with any contents, and gives the same bytes over all of them.
    fn open_a_copy(&self) {
        for range in 0..4 {
            let (mut over_this, mut over_0) = (self.board, SteppedBoard::filled(0));
            assert_eq!(over_this.open(range), 0, "{}, open {range}", self.name);
            assert_eq!(over_0.open(range), 0, "{}, open {range}", self.name);
            assert!(
                over_this == over_0,
                "{}, open {range}: bytes of before are left",
                self.name
            );
        }
    }

    /// It arms and stores, if the replaced fields leave it so.
    fn trigger_before_arming(&mut self) {
        let looks = |mut board: SteppedBoard| std::array::from_fn(|slot| board.look(slot as u32));
        let before: [u64; 32] = looks(self.board);
        self.make(&Step::Trigger);
        self.coverage.note(&Moment::FirstTrigger {
            stores: looks(self.board) != before,
        });
    }

    /// One call, or the few that the guide chooses together. Gives their number.
    fn turn(&mut self) -> u32 {
        let steps = self.any_steps();
        for step in &steps {
            self.make(step);
        }
        steps.len() as u32
    }

    fn any_steps(&mut self) -> Vec<Step> {
        let bits = self.random.bits() as u32;
        match self.random.below(16) {
            0 => vec![beyond_a_trace(&mut self.random)],
            1 => vec![Step::Trigger],
            2 => vec![Step::Read {
                width: 16,
                offset: bits % 64 * 4,
            }],
            3 if bits % 4 == 0 => vec![Step::Reset],
            3 if bits % 4 == 1 => vec![Step::Open {
                range: self.random.pick(&[0, 1, 2, 3, 4, bits]),
            }],
            4 => vec![Step::Look { slot: bits % 36 }],
            5 => vec![Step::Clear { slot: bits % 36 }],
            _ => {
                let own = Random::new(self.random.bits());
                next_calls(own, &self.guide)
                    .iter()
                    .map(Step::of)
                    .map(shortened)
                    .collect()
            }
        }
    }

    fn make(&mut self, step: &Step) {
        let before = self.board;
        let answer = answer_of(self.board.step(step));
        let of_guide = self.guide.step(step);
        let name = || format!("{}, {step} on {before:?}", self.name);
        assert!(
            may_be_answered(step, of_guide.number, answer),
            "{}: {answer:?}, which this call cannot have",
            name()
        );
        assert!(
            answer.number == 0 || self.board == before,
            "{}: refused, but the bytes have changed",
            name()
        );
        assert!(
            answer.number != 0 || changes_what_it_may(step, &before, &self.board),
            "{}: it may not leave {:?}",
            name(),
            self.board
        );
        assert!(self.board.line() <= 1, "{}: then the line", name());
        self.make_in_other_bytes(step, &before, answer);
        self.coverage.note(&Moment::Made {
            style: self.style,
            step: *step,
            answer,
            changes: self.board != before,
        });
    }

    /// The same board in other bytes answers the same, and then is the same board.
    fn make_in_other_bytes(&mut self, step: &Step, before: &SteppedBoard, answer: Answer) {
        let other_before = before.in_other_bytes(self.random.between(2, 255) as u8);
        let mut other = other_before;
        let of_other = answer_of(other.step(step));
        let [shown, of_other_shown] =
            [&self.board, &other].map(|board| (board.line(), board.next_store()));
        assert!(
            (of_other, of_other_shown) == (answer, shown)
                && other.in_other_bytes(1) == self.board.in_other_bytes(1),
            "{}, {step} on {before:?}: {answer:?}, then {:?}, but on {other_before:?}: {of_other:?}, then {other:?}",
            self.name,
            self.board
        );
        self.coverage.note(&Moment::InOtherBytes {
            flags: before.flags(),
        });
    }

    /// A look shows what the registers show, and reads are a look and then a clear.
    fn check_a_slot(&mut self) {
        let slot = self.random.below(32);
        let mut copy = self.board;
        let value = answer_of(copy.look(slot)).value;
        let mut word = |offset| answer_of(copy.read(16, offset + slot / 16 * 4)).value;
        let (new, missed) = (word(0x14) >> (slot % 16) & 1, word(0x1C) >> (slot % 16) & 1);
        assert_eq!(
            (value >> 16 & 1, value >> 17),
            (new, missed),
            "{}: look {slot} (left) and New and Missed Data of {:?}",
            self.name,
            self.board
        );
        check_reads(&self.board, slot as u8, SteppedBoard::answer, &self.name);
    }

    /// The next store is true: an advance of fewer ticks makes none, one of exactly that many makes
    /// one, and if it is 0 none makes any. The longest advances take long.
    fn check_next_store(&mut self, is_long: bool) {
        let next = self.board.next_store();
        let longest = if is_long { LONGEST_ADVANCE } else { 5_000 };
        assert!(next <= LONGEST_ADVANCE, "{}: next store {next}", self.name);
        match next {
            0 => {
                self.advance_a_copy(longest, 0);
                let fewer = self.random.below(longest);
                self.advance_a_copy(fewer, 0);
            }
            _ if next > longest => return self.advance_a_copy(longest, 0),
            _ => {
                self.advance_a_copy(next, 1);
                self.advance_a_copy(next - 1, 0);
                let fewer = self.random.below(next);
                self.advance_a_copy(fewer, 0);
            }
        }
        self.coverage.note(&Moment::Held {
            next_store: next,
            is_longest: is_long && next == 0,
        });
    }

    /// An advance makes so many stores. If none but one is to come, that one is as many ticks nearer.
    fn advance_a_copy(&self, ticks: u32, stores: u64) {
        let mut copy = self.board;
        let next = copy.next_store();
        let answer = answer_of(copy.advance(ticks));
        let name = || {
            let (name, board) = (&self.name, &self.board);
            format!("{name}: the next store is {next} ticks away, advance {ticks} on {board:?}")
        };
        assert_eq!((answer.number, answer.value), (0, stores), "{}", name());
        if stores == 0 && next > 0 {
            let left = next - ticks;
            assert_eq!(copy.next_store(), left, "{}: then it is", name());
        }
    }
}

/// Long advances are made elsewhere, and only some.
fn shortened(step: Step) -> Step {
    match step {
        Step::Advance { ticks } if ticks <= LONGEST_ADVANCE => Step::Advance {
            ticks: ticks % 5_000,
        },
        other => other,
    }
}

/// Can a board of any contents answer so? Numbers 1 to 5, 11 to 14 and 22 come from the arguments alone,
/// so a good board gives the same; 6 to 10 come from the contents, and only writes have them.
fn may_be_answered(step: &Step, of_good_board: u64, answer: Answer) -> bool {
    let number = answer.number;
    let may_be_number = match of_good_board {
        1..=5 | 11..=14 | 22 => number == of_good_board,
        _ => number == 0 || may_be_refused(step, number),
    };
    let greatest = match *step {
        _ if number != 0 => 0,
        Step::Read { width, .. } => (1 << width) - 1,
        Step::Advance { ticks } => ticks.into(),
        Step::Look { .. } => 0x3_FFFF,
        _ => 0,
    };
    may_be_number && answer.value <= greatest
}

/// Questions 6 to 10, of a write whose arguments are good: 6 of any but to Interrupt and to Start Convert without bit 0,
/// 7 of Control and Channels, 8 to 10 of a start.
fn may_be_refused(step: &Step, number: u64) -> bool {
    let Step::Write { offset, value, .. } = *step else {
        return false;
    };
    match offset {
        0x00 | 0x01 | 0x25 => false,
        0x24 => value & 1 == 1 && matches!(number, 6 | 8..=10),
        0x04 | 0x05 | 0x10 | 0x11 => matches!(number, 6 | 7),
        _ => number == 6,
    }
}

// The kinds that must be met.

fn kinds_of_styles() -> Vec<Kind<Moment>> {
    let mut kinds = Vec::new();
    for (place, name) in STYLES.iter().enumerate() {
        kinds.push(kind(
            *name,
            20,
            move |moment: &Moment| matches!(moment, Moment::Drawn { style, .. } if *style == place),
        ));
        kinds.push(kind(
            format!("call on it: {name}"),
            10_000,
            move |moment: &Moment| matches!(moment, Moment::Made { style, .. } if *style == place),
        ));
    }
    kinds
}

fn kinds_of_numbers() -> impl Iterator<Item = Kind<Moment>> {
    (0..=14).chain([22]).map(|number| {
        kind(
            format!("number {number}"),
            500,
            move |moment: &Moment| matches!(moment, Moment::Made { answer, .. } if answer.number == number),
        )
    })
}

/// A struct as drawn, with a next store like this.
fn drawn(name: &str, least: u64, is_met: fn(u32) -> bool) -> Kind<Moment> {
    kind(name, least, move |moment| match moment {
        Moment::Drawn { next_store, .. } => is_met(*next_store),
        _ => false,
    })
}

/// A next store like this held.
fn held(name: &str, least: u64, is_met: fn(u32) -> bool) -> Kind<Moment> {
    kind(name, least, move |moment| match moment {
        Moment::Held { next_store, .. } => is_met(*next_store),
        _ => false,
    })
}

fn kinds_of_stores() -> Vec<Kind<Moment>> {
    vec![
        drawn("drawn with a store to come", 1_000, |next| next > 0),
        drawn("drawn with none to come", 1_000, |next| next == 0),
        held("next store within 64 ticks", 1_000, |next| {
            (1..=64).contains(&next)
        }),
        held("next store later", 1_000, |next| next > 64),
        held("next store later than 5,000 ticks", 30, |next| next > 5_000),
        kind("none in the longest advance", 50, |moment| {
            matches!(
                moment,
                Moment::Held {
                    is_longest: true,
                    ..
                }
            )
        }),
    ]
}

fn kinds_of_first_triggers() -> impl Iterator<Item = Kind<Moment>> {
    let of = |(name, least, expected): (&str, u64, bool)| {
        kind(
            name,
            least,
            move |moment: &Moment| matches!(moment, Moment::FirstTrigger { stores } if *stores == expected),
        )
    };
    let kinds = [
        ("trigger before arming that stores", 3_000, true),
        ("trigger before arming that stores nothing", 50, false),
    ];
    kinds.into_iter().map(of)
}

/// Calls on the same board in other bytes.
fn kinds_of_other_bytes() -> impl Iterator<Item = Kind<Moment>> {
    let kinds = [
        ("call in other bytes, no flag set", 0..=0),
        ("call in other bytes, some flag set", 1..=5),
        ("call in other bytes, every flag set", 6..=6),
    ];
    kinds.into_iter().map(|(name, set)| {
        kind(
            name,
            10_000,
            move |moment: &Moment| matches!(moment, Moment::InOtherBytes { flags } if set.contains(flags)),
        )
    })
}

/// Looks that show a bit or none, clears that change a byte or none: accepted all of them.
fn kinds_of_looks() -> Vec<Kind<Moment>> {
    let look = |name: &str, shows: bool| {
        kind(name, 1_000, move |moment: &Moment| match moment {
            Moment::Made { step, answer, .. } => {
                let is_look = matches!(step, Step::Look { .. }) && answer.number == 0;
                is_look && (answer.value > 0xFFFF) == shows
            }
            _ => false,
        })
    };
    let clear = |name: &str, is_change: bool| {
        kind(name, 1_000, move |moment: &Moment| match moment {
            Moment::Made {
                step,
                answer,
                changes,
                ..
            } => {
                let is_clear = matches!(step, Step::Clear { .. }) && answer.number == 0;
                is_clear && *changes == is_change
            }
            _ => false,
        })
    };
    vec![
        look("look that shows a bit", true),
        look("look that shows none", false),
        clear("clear that changes a byte", true),
        clear("clear that changes none", false),
    ]
}

/// Each with the least count for the test's structs.
pub fn all_kinds() -> Vec<Kind<Moment>> {
    kinds_of_styles()
        .into_iter()
        .chain(kinds_of_numbers())
        .chain(kinds_of_first_triggers())
        .chain(kinds_of_other_bytes())
        .chain(kinds_of_looks())
        .chain(kinds_of_stores())
        .collect()
}
