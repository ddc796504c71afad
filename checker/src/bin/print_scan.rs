//! What happens in a scan, by the logbook: for a trace on standard input a line for each beginning and each store, and
//! one after each call for what can be seen then. The pictures of `tools/scan_picture.py` are compared with it.
//!
//! ```text
//! begin CALL TICK SLOT CODE
//! store CALL TICK SLOT CODE
//! after CALL NEW MISSED LINE
//! ```
//!
//! CALL counts from 1; TICK from the beginning of the trace, also after a reset. CODE, NEW and MISSED are hexadecimal,
//! with slot 0 in bit 0. LINE is 1 where the request line is up.

use checker::board::analog::Answer;
use checker::board::call::{Call, Calls};
use checker::board::logbook::{Beginning, Event, Logbook};
use checker::board::trace::decoded;
use std::io::{self, Read, Write};

fn main() -> io::Result<()> {
    let mut trace = Vec::new();
    io::stdin().read_to_end(&mut trace)?;
    let (range, calls) =
        decoded(&trace).map_err(|number| io::Error::other(format!("refused {number}")))?;
    let mut scan = Scan {
        logbook: Logbook::new(range),
        ticks: 0,
        reset_at: 0,
    };
    let mut lines = String::new();
    for (index, call) in calls.iter().enumerate() {
        scan.call(index + 1, call, &mut lines);
    }
    io::stdout().write_all(lines.as_bytes())
}

struct Scan {
    logbook: Logbook,
    /// Since the beginning of the trace; the logbook counts them from the last reset.
    ticks: u64,
    reset_at: u64,
}

impl Scan {
    fn call(&mut self, index: usize, call: &Call, lines: &mut String) {
        let events = self.logbook.events.len();
        let beginnings = self.logbook.beginnings.len();
        let answer = self.logbook.call(call);
        for event in &self.logbook.events[events..] {
            if let Event::Store {
                tick, slot, code, ..
            } = event
            {
                let tick = self.reset_at + tick;
                lines.push_str(&format!("store {index} {tick} {slot} {code:04X}\n"));
            }
        }
        for Beginning { tick, slot, code } in &self.logbook.beginnings[beginnings..] {
            let tick = self.reset_at + tick;
            lines.push_str(&format!("begin {index} {tick} {slot} {code:04X}\n"));
        }
        match *call {
            Call::Advance { ticks } if answer.number == 0 => self.ticks += u64::from(ticks),
            Call::Reset => self.reset_at = self.ticks,
            _ => (),
        }
        let new = self.word(0x14) | self.word(0x18) << 16;
        let missed = self.word(0x1C) | self.word(0x20) << 16;
        let line = u32::from(self.word(0x00) & 3 == 3);
        lines.push_str(&format!("after {index} {new:08X} {missed:08X} {line}\n"));
    }

    /// A register's word; such a read is no event.
    fn word(&mut self, offset: u16) -> u64 {
        let Answer { value, .. } = self.logbook.call(&Call::Read { width: 16, offset });
        value
    }
}
