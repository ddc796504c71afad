//! The traces stored for the program `stored_traces`, which `rt ci` runs: its input, and what it must write.

use crate::board::trace::{decoded, play, ANSWER};
use crate::cases::fields::PLAYED;
use crate::cases::recordings;
use crate::draw::made_up::{made_up, SEED};

/// Made-up traces are added until the input has so many bytes.
const ENOUGH: usize = 136 * 1024;

/// Longer ones with recorded answers are left out, so that more of the others fit.
const LONGEST_RECORDING: usize = 1_800;

/// A trace, and the buffer it is played with.
pub struct Lent {
    pub trace: Vec<u8>,
    pub answers: Vec<u8>,
}

impl Lent {
    /// As stored: the lengths of trace and buffer, two bytes each, the trace, the buffer.
    fn input(&self) -> Vec<u8> {
        let mut input = Vec::new();
        for bytes in [&self.trace, &self.answers] {
            let length = u16::try_from(bytes.len()).expect("stored traces are short");
            input.extend(length.to_le_bytes());
        }
        input.extend(&self.trace);
        input.extend(&self.answers);
        input
    }

    /// The result as 16 hexadecimal digits, and the buffer after the trace was played.
    fn output(&self) -> Vec<u8> {
        let mut answers = self.answers.clone();
        let result = play(&self.trace, &mut answers);
        let mut output = format!("{result:016x}").into_bytes();
        output.extend(answers);
        output
    }
}

/// The traces, and the bytes that the program reads and must write.
pub struct Stored {
    pub traces: Vec<Lent>,
    pub input: Vec<u8>,
    /// The answers of the independent player.
    pub output: Vec<u8>,
}

/// The typed-in traces and recordings, and then the first made-up traces.
pub fn stored() -> Stored {
    let mut stored = Stored {
        traces: Vec::new(),
        input: Vec::new(),
        output: Vec::new(),
    };
    typed_in().for_each(|lent| stored.put(lent));
    let mut made = made_up_ones();
    while stored.input.len() < ENOUGH {
        stored.put(made.next().expect("there is no last one"));
    }
    stored
}

impl Stored {
    fn put(&mut self, lent: Lent) {
        self.input.extend(lent.input());
        self.output.extend(lent.output());
        self.traces.push(lent);
    }
}

fn typed_in() -> impl Iterator<Item = Lent> {
    let bytes = PLAYED.iter().map(|(fields, length, _)| Lent {
        trace: fields.concat(),
        answers: vec![0xA5; *length],
    });
    let recordings = recordings().into_iter().map(|case| {
        let trace = case.trace();
        let calls = decoded(&trace).map_or(2, |(_, calls)| calls.len());
        Lent {
            trace,
            answers: vec![0x5A; ANSWER * calls + 1],
        }
    });
    bytes.chain(recordings)
}

fn made_up_ones() -> impl Iterator<Item = Lent> {
    let all = (0..).map(|index| made_up(SEED, index));
    let short = all.filter(|made| !made.is_recording || made.trace.len() <= LONGEST_RECORDING);
    short.map(|made| Lent {
        trace: made.trace,
        answers: made.answers,
    })
}
