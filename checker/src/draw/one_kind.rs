//! Traces of one kind of call, to see where a player's time goes: what comes before, and the calls
//! that are repeated.

use crate::board::call::Call;

/// A kind of call, with calls that make a board ready for it.
pub struct Kind {
    pub name: &'static str,
    /// The calls before.
    before: Vec<Call>,
    /// What is repeated, in the round numbered so: mostly one call.
    repeated: fn(usize) -> Vec<Call>,
    /// Number and value of the last call of each round.
    pub expected: (u64, u64),
}

impl Kind {
    /// The list with so many rounds.
    pub fn calls(&self, rounds: usize) -> Vec<Call> {
        let repeated = (0..rounds).flat_map(self.repeated);
        self.before.iter().copied().chain(repeated).collect()
    }
}

/// A write of 16 bits.
pub fn write_16(offset: u16, value: u32) -> Call {
    Call::Write {
        width: 16,
        offset,
        value,
    }
}

fn read_16(offset: u16) -> Call {
    Call::Read { width: 16, offset }
}

/// 32 channels at I = 64, single ended, started in this mode.
pub fn started(control: u32) -> Vec<Call> {
    vec![
        write_16(0x04, control),
        write_16(0x08, 0x4000),
        write_16(0x0C, 1),
        write_16(0x10, 0x1F00),
        write_16(0x24, 1),
    ]
}

/// Uniform continuous; the first advance of 64 ticks meets a beginning only.
fn scanning() -> Vec<Call> {
    let mut calls = started(0x0909);
    calls.push(Call::Advance { ticks: 64 });
    calls
}

fn input(round: usize) -> Vec<Call> {
    vec![Call::Input {
        channel: (round % 32) as u8,
        microvolts: 1_000 * (round % 1_000) as i32,
    }]
}

/// A list with nothing before.
fn alone(name: &'static str, expected: (u64, u64), repeated: fn(usize) -> Vec<Call>) -> Kind {
    Kind {
        name,
        before: Vec::new(),
        repeated,
        expected,
    }
}

fn after(before: Vec<Call>, kind: Kind) -> Kind {
    Kind { before, ..kind }
}

fn advance_64(_: usize) -> Vec<Call> {
    vec![Call::Advance { ticks: 64 }]
}

/// The kinds that are measured.
pub fn kinds() -> Vec<Kind> {
    let mut kinds = accesses();
    kinds.extend([
        alone("input", (0, 0), input),
        alone("advance of 1, idle", (0, 0), |_| {
            vec![Call::Advance { ticks: 1 }]
        }),
        after(
            scanning(),
            alone("advance of 64, a store", (0, 1), advance_64),
        ),
    ]);
    kinds.extend(triggers());
    kinds.extend([
        alone("reset", (0, 0), |_| vec![Call::Reset]),
        alone("refused 3, a read", (3, 0), |_| vec![read_16(0x28)]),
        after(
            scanning(),
            alone("refused 6, a write", (6, 0), |_| vec![write_16(0x0C, 1)]),
        ),
    ]);
    kinds
}

fn accesses() -> Vec<Kind> {
    let mailbox = |round| vec![read_16(0x80 + 4 * (round % 32) as u16)];
    let look = |round| {
        let slot = (round % 32) as u8;
        vec![Call::Look { slot }]
    };
    let clear = |round| {
        let slot = (round % 32) as u8;
        vec![Call::Clear { slot }]
    };
    vec![
        alone("read of Control", (0, 0), |_| vec![read_16(0x04)]),
        alone("read of a mailbox", (0, 0), mailbox),
        alone("look", (0, 0), look),
        alone("clear", (0, 0), clear),
        alone("write of Timer", (0, 0), |round| {
            vec![write_16(0x0C, round as u32 % 65_536)]
        }),
    ]
}

fn triggers() -> Vec<Kind> {
    let armed = || started(0x0D0B);
    // A trigger is taken only 64 ticks after the last one: an advance comes with it.
    let advance_and_trigger = |_| vec![Call::Advance { ticks: 64 }, Call::Trigger];
    // A trigger arms only on an idle board: a stop and a Control write come with it.
    let off_and_on = |_| vec![write_16(0x04, 0x080B), write_16(0x04, 0x0D0B)];
    let off_on_and_trigger = |_| {
        let [off, on] = [0x080B, 0x0D0B].map(|word| write_16(0x04, word));
        vec![off, on, Call::Trigger]
    };
    vec![
        alone("trigger, ignored", (0, 0), |_| vec![Call::Trigger]),
        after(armed(), alone("advance of 64, armed", (0, 0), advance_64)),
        after(
            armed(),
            alone("the same, and trigger taken", (0, 0), advance_and_trigger),
        ),
        alone("Control off and on", (0, 0), off_and_on),
        alone(
            "the same, and trigger that arms",
            (0, 0),
            off_on_and_trigger,
        ),
    ]
}

#[cfg(test)]
mod tests {
    use super::*;
    use crate::board::call::Calls;
    use crate::board::Board;

    fn board_after(calls: &[Call]) -> (Board, (u64, u64)) {
        let mut board = Board::new(1).0;
        let mut last = (0, 0);
        for call in calls {
            let answer = board.call(call);
            last = (answer.number, answer.value);
        }
        (board, last)
    }

    #[test]
    fn each_kind_is_answered_as_its_name_says() {
        for kind in kinds() {
            for rounds in 1..40 {
                let (_, last) = board_after(&kind.calls(rounds));
                assert_eq!(last, kind.expected, "{}, {rounds}", kind.name);
            }
        }
    }

    #[test]
    fn triggers_are_taken_or_ignored() {
        for kind in kinds() {
            let (board, _) = board_after(&kind.calls(10));
            match kind.name {
                "the same, and trigger taken" => assert_eq!(board.cycle().unwrap().begun, 10),
                "advance of 64, armed" => assert_eq!(board.cycle().unwrap().begun, 0),
                "trigger, ignored" | "Control off and on" => assert!(board.is_idle()),
                "the same, and trigger that arms" => {
                    assert_eq!(board.cycle().unwrap().begun, 1);
                    assert_eq!((board.new_bits(), board.missed()), (1, 1));
                }
                _ => (),
            }
        }
    }
}
