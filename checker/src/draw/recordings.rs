//! Made-up recordings: lists of calls with the answers that a board is said to have given, right or
//! wrong in one of many ways, some of them damaged, and what a replay must say of each.

use crate::archive::Player;
use crate::board::analog::Answer;
use crate::board::call::{Call, Calls};
use crate::board::replay::{recording, verdict, Replayed};
use crate::board::trace::{borders, field, field_of, field_of_answer, heading, trace_of_fields};
use crate::board::trace::{ANSWERED, LONGEST_TRACE};
use crate::board::{Board, LONGEST_ADVANCE};
use crate::draw::generator::{scenes, sprint};
use crate::draw::random::Random;

/// So many are compared.
pub const RECORDINGS: u32 = 8_192;

/// The usual seed.
pub const SEED: u64 = 9_330;

/// A recording, and the way in which it was drawn.
pub struct Recording {
    pub way: &'static str,
    /// Those that are left, if the trace was cut off between two fields.
    pub calls: Vec<Call>,
    /// The board's own answers.
    pub answers: Vec<Answer>,
    /// The recorded answers. What damage puts in or spoils is in the trace alone.
    pub recorded: Vec<Option<Answer>>,
    pub trace: Vec<u8>,
    pub expected: Replayed,
}

/// The recording with this index; each is drawn for itself.
pub fn made_up_recording(seed: u64, index: u32) -> Recording {
    let way = &WAYS[index as usize % WAYS.len()];
    let own_seed = Random::new(seed).bits() ^ u64::from(index);
    let mut random = Random::new(Random::new(own_seed).bits());
    let range = random.below(4);
    let calls = match way.alters {
        Alters::ManyStores(_) => sprint(Random::new(random.bits()), range),
        _ => any_calls(&mut random, range, LONGEST_ADVANCE),
    };
    drawn(random, range, calls, way)
}

/// A short one without long advances, for the logbook, and its range.
pub fn short_recording(mut random: Random) -> (u32, Recording) {
    let way = &WAYS[random.below(WAYS.len() as u32) as usize];
    let range = random.below(4);
    let calls = any_calls(&mut random, range, 2_000);
    (range, drawn(random, range, calls, way))
}

/// A list of any length, also with no call or with one.
fn any_calls(random: &mut Random, range: u32, longest: u32) -> Vec<Call> {
    let own = Random::new(random.bits());
    let mut calls = scenes(own, range, longest, 1 + random.below(2));
    match random.below(16) {
        0 => calls.truncate(random.below(4) as usize),
        1..=4 => calls.truncate(random.below(calls.len() as u32) as usize),
        _ => (),
    }
    calls
}

/// What a new board of a range answers to calls.
pub fn answers_of(range: u32, calls: &[Call]) -> Vec<Answer> {
    let mut board = Board::new(range).0;
    calls.iter().map(|call| board.call(call)).collect()
}

/// Any five bytes.
pub fn any_answer(random: &mut Random) -> Answer {
    let bits = random.bits();
    Answer {
        number: bits & 0xFF,
        value: bits >> 32,
    }
}

/// The right answers after every call, after some, after none or after one.
pub fn any_of(random: &mut Random, answers: &[Answer]) -> Vec<Option<Answer>> {
    let right = answers.iter().copied().map(Some);
    match random.below(8) {
        0..=2 => right.collect(),
        3..=5 => {
            let seldom = random.pick(&[2, 2, 5]);
            right
                .map(|it| it.filter(|_| random.one_in(seldom)))
                .collect()
        }
        6 => vec![None; answers.len()],
        _ => {
            let only = random.below(answers.len() as u32 + 1) as usize;
            let is_only = |(place, it)| if place == only { it } else { None };
            right.enumerate().map(is_only).collect()
        }
    }
}

fn drawn(random: Random, range: u32, calls: Vec<Call>, way: &Way) -> Recording {
    let answers = answers_of(range, &calls);
    let mut drawing = Drawing {
        random,
        recorded: Vec::new(),
        answers,
        calls,
    };
    drawing.recorded = any_of(&mut drawing.random, &drawing.answers);
    match way.alters {
        Alters::Answers(wrong) | Alters::ManyStores(wrong) => wrong(&mut drawing),
        // A damaged one may be wrong besides.
        Alters::Bytes(_) if drawing.random.one_in(3) => drawing.two_wrong(),
        Alters::Bytes(_) => (),
    }
    let fields = recording(&drawing.calls, &drawing.recorded);
    let mut trace = trace_of_fields(range as u8, &fields);
    let expected = match way.alters {
        Alters::Bytes(damage) => damage(&mut drawing, &mut trace),
        _ => verdict(&drawing.answers, &drawing.recorded),
    };
    Recording {
        way: way.name,
        calls: drawing.calls,
        answers: drawing.answers,
        recorded: drawing.recorded,
        trace,
        expected,
    }
}

/// What is being drawn.
struct Drawing {
    random: Random,
    calls: Vec<Call>,
    answers: Vec<Answer>,
    recorded: Vec<Option<Answer>>,
}

/// A way to draw a recording.
struct Way {
    name: &'static str,
    alters: Alters,
}

/// What a way alters, and how.
enum Alters {
    Answers(fn(&mut Drawing)),
    /// The answers, in a list with advances of more than 65,535 stores.
    ManyStores(fn(&mut Drawing)),
    /// The bytes; gives what a replay must say.
    Bytes(fn(&mut Drawing, &mut Vec<u8>) -> Replayed),
}

const fn answers(name: &'static str, wrong: fn(&mut Drawing)) -> Way {
    Way {
        name,
        alters: Alters::Answers(wrong),
    }
}

const fn many_stores(name: &'static str, wrong: fn(&mut Drawing)) -> Way {
    Way {
        name,
        alters: Alters::ManyStores(wrong),
    }
}

const fn bytes(name: &'static str, damage: fn(&mut Drawing, &mut Vec<u8>) -> Replayed) -> Way {
    Way {
        name,
        alters: Alters::Bytes(damage),
    }
}

/// So many ways there are; they are taken in turn.
pub const NUMBER_OF_WAYS: u32 = WAYS.len() as u32;

const WAYS: [Way; 26] = [
    answers("all right", |_| ()),
    answers("a wrong number", Drawing::wrong_number),
    answers("byte 0 of a value wrong", |it| it.wrong_byte(0)),
    answers("byte 1 of a value wrong", |it| it.wrong_byte(1)),
    answers("byte 2 of a value wrong", |it| it.wrong_byte(2)),
    answers("byte 3 of a value wrong", |it| it.wrong_byte(3)),
    answers("two wrong ones", Drawing::two_wrong),
    answers("a refused call, wrong number", Drawing::wrong_refusal),
    answers("a refused call, wrong value", Drawing::refused_with_value),
    answers("a look, another New", |it| it.wrong_look(0x1_0000)),
    answers("a look, another Missed", |it| it.wrong_look(0x2_0000)),
    answers("any bytes", Drawing::any_bytes),
    answers("any upper bytes", Drawing::any_upper_bytes),
    many_stores("many stores, the true count", |it| {
        it.count_of_stores(|n| n)
    }),
    many_stores("many stores, modulo 65,536", |it| {
        it.count_of_stores(|n| n % 65_536)
    }),
    many_stores("many stores, one off", Drawing::one_store_off),
    bytes("a 09H after the heading", Drawing::stray_after_heading),
    bytes("a 09H after a 09H", Drawing::stray_after_answer),
    bytes("a 09H after a 09H at the end", Drawing::stray_at_end),
    bytes("a stray 09H, a bad field later", |it, trace| {
        it.stray_and_bad(trace, true)
    }),
    bytes("a bad field, a stray 09H later", |it, trace| {
        it.stray_and_bad(trace, false)
    }),
    bytes("a 09H of another length", Drawing::other_length),
    bytes("another field than a call or 09H", Drawing::bad_field),
    bytes("cut off", Drawing::cut_off),
    bytes("cut off in the last field", Drawing::cut_in_the_last),
    bytes("a wrong heading", Drawing::wrong_heading),
];

// Wrong answers.

impl Drawing {
    /// The first call, the last one, or any.
    fn any_place(&mut self) -> Option<usize> {
        let count = self.calls.len();
        let last = count.checked_sub(1)?;
        let any = self.random.below(count as u32) as usize;
        Some(self.random.pick(&[0, last, any, any]))
    }

    /// A call of those whose answer is of some kind, if there are any.
    fn any_place_with(&mut self, is_wanted: impl Fn(&Call, &Answer) -> bool) -> Option<usize> {
        let pairs = self.calls.iter().zip(&self.answers).enumerate();
        let wanted = pairs.filter(|(_, (call, answer))| is_wanted(call, answer));
        let places: Vec<usize> = wanted.map(|(place, _)| place).collect();
        (!places.is_empty()).then(|| self.random.pick(&places))
    }

    fn record(&mut self, place: usize, number: u64, value: u64) {
        self.recorded[place] = Some(Answer { number, value });
    }

    /// Records a call's answer with another number.
    fn record_wrong_number(&mut self, place: usize) {
        let Answer { number, value } = self.answers[place];
        let near = self.random.below(23).into();
        let far = self.random.below(256).into();
        let wrong = match self.random.pick(&[0, near, near, far]) {
            same if same == number => number ^ 1,
            other => other,
        };
        self.record(place, wrong, value);
    }

    fn record_wrong_byte(&mut self, place: usize, byte: u32) {
        let Answer { number, value } = self.answers[place];
        let turned = u64::from(1 + self.random.below(255));
        self.record(place, number, value ^ turned << (8 * byte));
    }

    fn wrong_number(&mut self) {
        if let Some(place) = self.any_place() {
            self.record_wrong_number(place);
        }
    }

    fn wrong_byte(&mut self, byte: u32) {
        if let Some(place) = self.any_place() {
            self.record_wrong_byte(place, byte);
        }
    }

    fn two_wrong(&mut self) {
        for _ in 0..2 {
            match self.random.below(3) {
                0 => self.wrong_number(),
                1 => self.wrong_byte(0),
                _ => self.wrong_byte(1),
            }
        }
    }

    /// A refused call, said to be accepted or refused for something else.
    fn wrong_refusal(&mut self) {
        if let Some(place) = self.any_place_with(|_, answer| answer.number != 0) {
            self.record_wrong_number(place);
        }
    }

    fn refused_with_value(&mut self) {
        if let Some(place) = self.any_place_with(|_, answer| answer.number != 0) {
            let byte = self.random.below(4);
            self.record_wrong_byte(place, byte);
        }
    }

    /// An accepted look, with its code but not all of its bits.
    fn wrong_look(&mut self, bit: u64) {
        let is_look =
            |call: &Call, answer: &Answer| matches!(call, Call::Look { .. }) && answer.number == 0;
        if let Some(place) = self.any_place_with(is_look) {
            let Answer { number, value } = self.answers[place];
            self.record(place, number, value ^ bit);
        }
    }

    /// Anything that five bytes can say; in the greater part of the recordings only once in a while.
    fn any_bytes(&mut self) {
        let seldom = self.random.pick(&[1, 8, 40]);
        for place in 0..self.calls.len() {
            if self.recorded[place].is_some() && self.random.one_in(seldom) {
                self.recorded[place] = Some(any_answer(&mut self.random));
            }
        }
    }

    /// Any upper bytes in all of the values; in half of the recordings one is wrong in what counts.
    fn any_upper_bytes(&mut self) {
        for place in 0..self.calls.len() {
            if self.recorded[place].is_some() {
                let Answer { number, value } = self.answers[place];
                let upper = self.random.bits() & 0xFFFF_0000;
                self.record(place, number, value & 0xFFFF | upper);
            }
        }
        if self.random.one_in(2) {
            self.wrong_number();
        }
    }

    /// Advances of more than 65,535 stores, with what is recorded for so many.
    fn count_of_stores(&mut self, recorded: fn(u64) -> u64) {
        for place in 0..self.calls.len() {
            if has_many_stores(&self.calls[place], &self.answers[place]) {
                self.record(place, 0, recorded(self.answers[place].value));
            }
        }
    }

    fn one_store_off(&mut self) {
        if let Some(place) = self.any_place_with(has_many_stores) {
            let count = self.answers[place].value;
            let wrong = self.random.pick(&[count - 1, count + 1]);
            let recorded = self.random.pick(&[wrong, wrong % 65_536]);
            self.record(place, 0, recorded);
        }
    }
}

/// Is this an advance with more stores than 16 bits can count?
pub fn has_many_stores(call: &Call, answer: &Answer) -> bool {
    matches!(call, Call::Advance { .. }) && answer.value > 65_535
}

// Damage.

const REFUSED_18: Replayed = Replayed::Refused { number: 18 };
const REFUSED_19: Replayed = Replayed::Refused { number: 19 };
const REFUSED_26: Replayed = Replayed::Refused { number: 26 };

/// Puts the bytes of a field in, at this place.
fn put(trace: &mut Vec<u8>, place: usize, field: &[u8]) {
    trace.splice(place..place, field.iter().copied());
}

impl Drawing {
    fn any_answer_field(&mut self) -> Vec<u8> {
        let any = any_answer(&mut self.random);
        let last = self.answers.last().copied().unwrap_or(any);
        field_of_answer(self.random.pick(&[any, last]))
    }

    /// A field that question 19 doesn't admit.
    fn any_bad_field(&mut self) -> Vec<u8> {
        let (tag, length) = self.random.pick(&[
            (0x09, 4),
            (0x09, 6),
            (0x09, 0),
            (0x0A, 6),
            (0x0A, 5),
            (0x89, 5),
            (0x00, 5),
            (0x05, 5),
            (0x03, 4),
        ]);
        field(tag, &vec![0; length])
    }

    fn stray_after_heading(&mut self, trace: &mut Vec<u8>) -> Replayed {
        put(trace, 8, &self.any_answer_field());
        REFUSED_26
    }

    /// A second one after one that is there, if there is any; else after the heading.
    fn stray_after_answer(&mut self, trace: &mut Vec<u8>) -> Replayed {
        let mut places = borders(trace);
        places.retain(|place| trace.get(*place) == Some(&0x09));
        let place = match places[..] {
            [] => 8,
            _ => self.random.pick(&places),
        };
        put(trace, place, &self.any_answer_field());
        REFUSED_26
    }

    /// The last call's, if it has none, and one more.
    fn stray_at_end(&mut self, trace: &mut Vec<u8>) -> Replayed {
        let has_own = self.recorded.last().is_some_and(Option::is_some);
        for _ in 0..2 - u32::from(has_own) {
            trace.extend(self.any_answer_field());
        }
        REFUSED_26
    }

    /// Both of them: question 19 is asked first, wherever they stand.
    fn stray_and_bad(&mut self, trace: &mut Vec<u8>, is_stray_first: bool) -> Replayed {
        let places = borders(trace);
        let mut two = [0; 2].map(|_| self.random.pick(&places));
        two.sort();
        let [first, later] = two;
        let bad = self.any_bad_field();
        let stray = [self.any_answer_field(), self.any_answer_field()].concat();
        let (at_first, at_later) = if is_stray_first {
            (stray, bad)
        } else {
            (bad, stray)
        };
        put(trace, later, &at_later);
        put(trace, first, &at_first);
        REFUSED_19
    }

    /// After a call or in another place.
    fn other_length(&mut self, trace: &mut Vec<u8>) -> Replayed {
        let places = borders(trace);
        let place = self.random.pick(&places);
        let length = self.random.pick(&[0, 1, 2, 3, 4, 6, 7, 8, 255, 256, 261]);
        put(trace, place, &field(0x09, &vec![0; length]));
        REFUSED_19
    }

    fn bad_field(&mut self, trace: &mut Vec<u8>) -> Replayed {
        let places = borders(trace);
        let place = self.random.pick(&places);
        put(trace, place, &self.any_bad_field());
        REFUSED_19
    }

    fn cut_off(&mut self, trace: &mut Vec<u8>) -> Replayed {
        let length = self.random.below(trace.len() as u32);
        self.cut_to(trace, length as usize)
    }

    fn cut_in_the_last(&mut self, trace: &mut Vec<u8>) -> Replayed {
        let places = borders(trace);
        let [.., last, end] = places[..] else {
            return self.cut_off(trace);
        };
        let left = self.random.below((end - last) as u32) as usize;
        self.cut_to(trace, last + left)
    }

    /// What is left of a trace is refused, or it ends with a whole field; then the calls after it are gone.
    fn cut_to(&mut self, trace: &mut Vec<u8>, length: usize) -> Replayed {
        let places = borders(trace);
        trace.truncate(length);
        if length < 8 {
            return REFUSED_18;
        }
        let Ok(kept) = places.binary_search(&length) else {
            return REFUSED_19;
        };
        let tags: Vec<u8> = places[..kept].iter().map(|start| trace[*start]).collect();
        let calls = tags.iter().filter(|tag| **tag != ANSWERED).count();
        self.calls.truncate(calls);
        self.answers.truncate(calls);
        self.recorded.truncate(calls);
        // The last call left may have lost its recorded answer.
        if let (Some(last), false) = (self.recorded.last_mut(), tags.ends_with(&[ANSWERED])) {
            *last = None;
        }
        verdict(&self.answers, &self.recorded)
    }

    /// Whatever comes after it.
    fn wrong_heading(&mut self, trace: &mut Vec<u8>) -> Replayed {
        match self.random.below(3) {
            0 => _ = self.stray_after_heading(trace),
            1 => _ = self.bad_field(trace),
            _ => (),
        }
        let place = self.random.below(8) as usize;
        trace[place] ^= self.random.pick(&[0x04, 0x20, 0x80]);
        REFUSED_18
    }
}

// The longest.

/// A trigger's answer.
const NOTHING: Answer = Answer {
    number: 0,
    value: 0,
};

/// 16,777,216 bytes with a recorded answer after each call but the first, and as many calls as there can be
/// before one recorded answer. One byte more is refused. `replay` gives what C gets.
pub fn check_longest(play: Player, replay: fn(&[u8]) -> u64) {
    check_most_answers(play, replay);
    check_greatest_index(play, replay);
}

/// 8 + 8 + 11 * 1,525,200 = 16,777,216.
fn check_most_answers(play: Player, replay: fn(&[u8]) -> u64) {
    let input = Call::Input {
        channel: 0,
        microvolts: 1,
    };
    let pair = [field_of(&Call::Trigger), field_of_answer(NOTHING)].concat();
    let mut trace = [heading(0), field_of(&input), pair.repeat(1_525_200)].concat();
    assert_eq!(trace.len(), LONGEST_TRACE);
    let mut buffer = vec![1; 5 * 1_525_201];
    assert_eq!(play(&trace, &mut buffer[1..]), 20);
    assert!(buffer.iter().all(|byte| *byte == 1));
    assert_eq!(play(&trace, &mut buffer), 256 * 1_525_201);
    assert!(buffer.iter().all(|byte| *byte == 0));
    assert_eq!(replay(&trace), 1_525_200 << 32);
    // Number 1 instead of 0 in the last, and in one of the middle.
    trace[LONGEST_TRACE - 5] = 1;
    assert_eq!(replay(&trace), 1_525_200 << 32 | 1_525_201 << 8);
    trace[16 + 11 * 700_000 - 5] = 1;
    assert_eq!(replay(&trace), 700_000 << 32 | 700_001 << 8);
    trace.push(0x05);
    assert_eq!(replay(&trace), 18);
    assert_eq!(play(&trace, &mut buffer), 18);
}

/// 8 + 3 * 5,592,400 + 8 = 16,777,216.
fn check_greatest_index(play: Player, replay: fn(&[u8]) -> u64) {
    let triggers = field_of(&Call::Trigger).repeat(5_592_400);
    let mut trace = [heading(0), triggers, field_of_answer(NOTHING)].concat();
    assert_eq!(trace.len(), LONGEST_TRACE);
    assert_eq!(replay(&trace), 1 << 32);
    assert_eq!(play(&trace, &mut vec![0; 5 * 5_592_400 - 1]), 20);
    assert_eq!(play(&trace, &mut vec![0; 5 * 5_592_400]), 256 * 5_592_400);
    trace[LONGEST_TRACE - 4] = 0xFF;
    assert_eq!(replay(&trace), 1 << 32 | 5_592_400 << 8);
    // Length 4 instead of 5: no recorded answer has that.
    trace[LONGEST_TRACE - 7] = 4;
    assert_eq!(replay(&trace), 19);
}
