//! The kinds of recordings that the made-up ones must reach, found by looking at what was recorded and at what
//! a replay says, and not at how it was drawn, but for the damage.

use crate::board::analog::Answer;
use crate::board::call::Call;
use crate::board::replay::{is_equal, Replayed};
use crate::board::trace::borders;
use crate::draw::recordings::{has_many_stores, Recording};
use crate::judge::coverage::{kind, Kind};

/// A call whose answer is recorded.
struct Compared {
    call: Call,
    answer: Answer,
    recorded: Answer,
}

impl Compared {
    fn is_equal(&self) -> bool {
        is_equal(self.answer, self.recorded)
    }

    /// The bits of the value that were recorded otherwise.
    fn turned(&self) -> u64 {
        self.answer.value ^ self.recorded.value
    }

    fn is_refused(&self) -> bool {
        self.answer.number != 0
    }

    /// Is the number right, and the value wrong in this byte and in no other?
    fn is_wrong_in_byte(&self, byte: u32) -> bool {
        let in_byte = self.turned() >> (8 * byte);
        let is_only = self.turned() == (in_byte & 0xFF) << (8 * byte);
        self.answer.number == self.recorded.number && self.turned() != 0 && is_only
    }

    /// A look that shows these bits.
    fn is_look_with(&self, bits: u64) -> bool {
        matches!(self.call, Call::Look { .. }) && self.answer.value & bits == bits
    }

    fn is_look_but_for(&self, bit: u64) -> bool {
        matches!(self.call, Call::Look { .. }) && self.turned() == bit
    }

    fn has_many_stores(&self) -> bool {
        has_many_stores(&self.call, &self.answer)
    }
}

impl Recording {
    /// The recorded answers beside the board's.
    fn compared(&self) -> impl Iterator<Item = Compared> + '_ {
        let calls = self.calls.iter().zip(&self.answers).zip(&self.recorded);
        calls.filter_map(|((call, answer), recorded)| {
            Some(Compared {
                call: *call,
                answer: *answer,
                recorded: (*recorded)?,
            })
        })
    }

    fn agrees(&self) -> bool {
        matches!(self.expected, Replayed::Agree { .. })
    }

    fn agrees_with(&self, is_met: impl Fn(&Compared) -> bool) -> bool {
        self.agrees() && self.compared().any(|it| is_met(&it))
    }

    /// The call at which it differs, if it does.
    fn first_wrong(&self) -> Option<Compared> {
        let is_met = matches!(self.expected, Replayed::Differs { .. });
        self.compared().find(|it| is_met && !it.is_equal())
    }

    fn differs_at(&self, is_met: impl Fn(&Compared) -> bool) -> bool {
        self.first_wrong().is_some_and(|it| is_met(&it))
    }

    /// Index, count, and the calls of the list, if it differs.
    fn difference(&self) -> Option<(u64, u64, u64)> {
        match self.expected {
            Replayed::Differs { index, count } => Some((index, count, self.calls.len() as u64)),
            _ => None,
        }
    }

    fn is_refused_with(&self, wanted: u64) -> bool {
        matches!(self.expected, Replayed::Refused { number } if number == wanted)
    }

    /// The tags of the fields after the heading; the last field may be cut off.
    fn tags(&self) -> Vec<u8> {
        let starts = borders(&self.trace).into_iter();
        starts
            .filter_map(|at| self.trace.get(at).copied())
            .collect()
    }

    /// The place of the first 09H whose previous field is no call, and the last place, if it is refused for that.
    fn first_stray(&self) -> Option<(usize, usize)> {
        let tags = self.tags();
        let is_stray = |place: &usize| tags[*place] == 9 && (*place == 0 || tags[place - 1] == 9);
        let first = (0..tags.len()).find(is_stray)?;
        self.is_refused_with(26).then_some((first, tags.len() - 1))
    }

    /// The tag of the field in which the trace was cut off.
    fn tag_that_is_cut(&self) -> Option<u8> {
        let is_cut = self.way.starts_with("cut off") && self.is_refused_with(19);
        self.tags().last().copied().filter(|_| is_cut)
    }
}

fn met(
    name: impl Into<String>,
    least: u64,
    is_met: impl Fn(&Recording) -> bool + 'static,
) -> Kind<Recording> {
    kind(name, least, is_met)
}

/// Every kind, with the least count among the made-up recordings.
pub fn all_kinds() -> Vec<Kind<Recording>> {
    let mut kinds = agreeing_kinds();
    kinds.extend(agreeing_call_kinds());
    kinds.extend(differing_kinds());
    kinds.extend(differing_call_kinds());
    kinds.extend(place_kinds());
    kinds.extend(call_kinds());
    kinds.extend(refused_kinds());
    kinds
}

fn agreeing_kinds() -> Vec<Kind<Recording>> {
    let is_every = |it: &Recording| it.recorded.iter().all(Option::is_some);
    let is_none = |it: &Recording| it.recorded.iter().all(Option::is_none);
    vec![
        met("agrees, 09H after every call", 500, move |it| {
            it.agrees() && is_every(it) && !it.calls.is_empty()
        }),
        met("agrees, 09H after some calls", 500, move |it| {
            it.agrees() && !is_every(it) && !is_none(it)
        }),
        met("agrees, 09H after no call, 0 compared", 80, move |it| {
            it.agrees() && is_none(it) && !it.calls.is_empty()
        }),
        met("agrees, the heading alone", 20, |it| {
            it.agrees() && it.trace.len() == 8
        }),
        met("agrees, byte 2 of a value wrong alone", 200, |it| {
            it.agrees_with(|it| it.is_wrong_in_byte(2))
        }),
        met("agrees, byte 3 of a value wrong alone", 200, |it| {
            it.agrees_with(|it| it.is_wrong_in_byte(3))
        }),
    ]
}

fn agreeing_call_kinds() -> Vec<Kind<Recording>> {
    vec![
        met("agrees, a look with New, right", 300, |it| {
            it.agrees_with(|it| it.is_look_with(0x1_0000) && it.turned() == 0)
        }),
        met("agrees, a look with Missed, right", 200, |it| {
            it.agrees_with(|it| it.is_look_with(0x2_0000) && it.turned() == 0)
        }),
        met("agrees, a look with another New", 150, |it| {
            it.agrees_with(|it| it.is_look_but_for(0x1_0000))
        }),
        met("agrees, a look with another Missed", 150, |it| {
            it.agrees_with(|it| it.is_look_but_for(0x2_0000))
        }),
        met("agrees, a refused call, right", 300, |it| {
            it.agrees_with(|it| it.is_refused() && it.turned() == 0)
        }),
        met("agrees, above 65,535 stores, true count", 200, |it| {
            it.agrees_with(|it| it.has_many_stores() && it.turned() == 0)
        }),
        met("agrees, above 65,535 stores, modulo", 150, |it| {
            it.agrees_with(|it| it.has_many_stores() && it.recorded.value < 65_536)
        }),
    ]
}

fn differing_kinds() -> Vec<Kind<Recording>> {
    vec![
        met("differs in the number alone", 300, |it| {
            it.differs_at(|it| it.turned() == 0)
        }),
        met("differs in byte 0 of the value alone", 250, |it| {
            it.differs_at(|it| it.is_wrong_in_byte(0))
        }),
        met("differs in byte 1 of the value alone", 250, |it| {
            it.differs_at(|it| it.is_wrong_in_byte(1))
        }),
        met("differs in number and value", 100, |it| {
            it.differs_at(|it| it.turned() & 0xFFFF != 0 && it.answer.number != it.recorded.number)
        }),
        met("differs, and a later one is wrong too", 200, |it| {
            it.first_wrong().is_some() && it.compared().filter(|it| !it.is_equal()).count() > 1
        }),
        met("differs after one with other upper bytes", 30, |it| {
            let mut up_to = it.compared().take_while(Compared::is_equal);
            it.first_wrong().is_some() && up_to.any(|it| it.turned() != 0)
        }),
    ]
}

fn differing_call_kinds() -> Vec<Kind<Recording>> {
    let is_one_off = |it: &Compared| {
        let off = it.answer.value.wrapping_sub(it.recorded.value) % 65_536;
        it.has_many_stores() && matches!(off, 1 | 65_535)
    };
    vec![
        met("differs, a refused call, another number", 150, |it| {
            it.differs_at(|it| it.is_refused() && it.recorded.number != 0 && it.turned() == 0)
        }),
        met("differs, a refused call as accepted", 60, |it| {
            it.differs_at(|it| it.is_refused() && it.recorded.number == 0 && it.turned() == 0)
        }),
        met("differs, a refused call with a value", 80, |it| {
            it.differs_at(|it| it.is_refused() && it.answer.number == it.recorded.number)
        }),
        met("differs, an accepted call as refused", 200, |it| {
            it.differs_at(|it| !it.is_refused() && it.recorded.number != 0)
        }),
        met("differs, above 65,535 stores, one off", 200, move |it| {
            it.differs_at(is_one_off)
        }),
    ]
}

/// Where it differs.
fn place_kinds() -> Vec<Kind<Recording>> {
    let of = |name, least, is_met: fn(u64, u64, u64) -> bool| {
        met(name, least, move |it: &Recording| {
            it.difference()
                .is_some_and(|(index, count, calls)| is_met(index, count, calls))
        })
    };
    vec![
        of("differs at the first call", 300, |index, _, _| index == 1),
        of("differs at the last call", 200, |index, _, calls| {
            index == calls
        }),
        of("differs in the middle", 500, |index, _, calls| {
            index > 1 && index < calls
        }),
        of(
            "differs, 09H after every call before",
            300,
            |index, count, _| index > 1 && index == count,
        ),
        of(
            "differs, calls with no 09H before",
            300,
            |index, count, _| index > count,
        ),
        of("differs, its 09H the first", 200, |index, count, _| {
            index > 1 && count == 1
        }),
    ]
}

type IsCall = fn(&Call) -> bool;

/// Each kind of call, recorded right and wrong.
fn call_kinds() -> Vec<Kind<Recording>> {
    let names: [(&str, IsCall); 8] = [
        ("a read", |call| matches!(call, Call::Read { .. })),
        ("a write", |call| matches!(call, Call::Write { .. })),
        ("an input", |call| matches!(call, Call::Input { .. })),
        ("an advance", |call| matches!(call, Call::Advance { .. })),
        ("a trigger", |call| *call == Call::Trigger),
        ("a reset", |call| *call == Call::Reset),
        ("a look", |call| matches!(call, Call::Look { .. })),
        ("a clear", |call| matches!(call, Call::Clear { .. })),
    ];
    let both = |(name, is): (&str, IsCall)| {
        let agrees = met(format!("agrees, 09H after {name}"), 200, move |it| {
            it.agrees_with(|it| is(&it.call))
        });
        let differs = met(format!("differs at {name}"), 15, move |it| {
            it.differs_at(|it| is(&it.call))
        });
        [agrees, differs]
    };
    names.into_iter().flat_map(both).collect()
}

fn refused_kinds() -> Vec<Kind<Recording>> {
    let refused = |number| {
        met(format!("refused with {number}"), 300, move |it| {
            it.is_refused_with(number)
        })
    };
    let mut kinds: Vec<Kind<Recording>> = [18, 19, 26].map(refused).into();
    kinds.extend([
        met("cut off in a 09H", 100, |it| {
            it.tag_that_is_cut() == Some(9)
        }),
        met("cut off in a call", 100, |it| {
            it.tag_that_is_cut().is_some_and(|tag| tag != 9)
        }),
        met("cut off between two fields", 30, |it| {
            it.way.starts_with("cut off") && !matches!(it.expected, Replayed::Refused { .. })
        }),
        met("cut off in the heading", 5, |it| {
            it.way.starts_with("cut off") && it.is_refused_with(18)
        }),
        met("26, a 09H after the heading", 300, |it| {
            it.first_stray().is_some_and(|(place, _)| place == 0)
        }),
        met("26, a 09H after a 09H", 300, |it| {
            it.first_stray().is_some_and(|(place, _)| place > 0)
        }),
        met("26, for the last field alone", 150, |it| {
            it.first_stray().is_some_and(|(place, last)| place == last)
        }),
        met("26, and an answer is wrong too", 100, |it| {
            it.is_refused_with(26) && it.compared().any(|it| !it.is_equal())
        }),
    ]);
    kinds
}
