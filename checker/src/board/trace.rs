//! Traces: their bytes, the player and the text program.

use crate::board::analog::Answer;
use crate::board::call::{Call, Calls};
use crate::board::Board;
use std::fmt::Write;

/// The most bytes of a trace.
pub const LONGEST_TRACE: usize = 16_777_216;

/// The program takes so many bytes of its standard input and ignores the rest.
pub const LONGEST_INPUT: usize = 32_768;

/// The bytes of an answer: number 1, value 4.
pub const ANSWER: usize = 5;

/// The tag of a recorded answer.
pub const ANSWERED: u8 = 0x09;

/// A field after the heading.
#[derive(Clone, Copy, Debug, PartialEq, Eq)]
pub enum Field {
    Call(Call),
    /// 09H, a number of one byte and a value of four: what a board answered to the call before it.
    Answered(Answer),
}

// Building.

/// A field: a tag of one byte, a length of two, and the body; numbers have their low byte first.
pub fn field(tag: u8, body: &[u8]) -> Vec<u8> {
    let length = u16::try_from(body.len()).expect("a body's length has two bytes");
    let mut field = Vec::with_capacity(3 + body.len());
    field.push(tag);
    field.extend(length.to_le_bytes());
    field.extend(body);
    field
}

/// The first field: 00H, length 5, the letters A330, and the range.
pub fn heading(range: u8) -> Vec<u8> {
    field(0x00, &[b'A', b'3', b'3', b'0', range])
}

/// The field of a call.
pub fn field_of(call: &Call) -> Vec<u8> {
    match *call {
        Call::Read { width, offset } => {
            let [low, high] = offset.to_le_bytes();
            field(0x01, &[width, low, high])
        }
        Call::Write {
            width,
            offset,
            value,
        } => {
            let mut body = vec![width];
            body.extend(offset.to_le_bytes());
            body.extend(value.to_le_bytes());
            field(0x02, &body)
        }
        Call::Input {
            channel,
            microvolts,
        } => {
            let mut body = vec![channel];
            body.extend(microvolts.to_le_bytes());
            field(0x03, &body)
        }
        Call::Advance { ticks } => field(0x04, &ticks.to_le_bytes()),
        Call::Trigger => field(0x05, &[]),
        Call::Reset => field(0x06, &[]),
        Call::Look { slot } => field(0x07, &[slot]),
        Call::Clear { slot } => field(0x08, &[slot]),
    }
}

/// The field of a recorded answer.
pub fn field_of_answer(answer: Answer) -> Vec<u8> {
    field(ANSWERED, &answer_bytes(answer))
}

/// A trace of calls.
pub fn trace_of(range: u8, calls: &[Call]) -> Vec<u8> {
    let mut trace = heading(range);
    for call in calls {
        trace.extend(field_of(call));
    }
    trace
}

/// A trace with recorded answers in it, wherever they stand.
pub fn trace_of_fields(range: u8, fields: &[Field]) -> Vec<u8> {
    let mut trace = heading(range);
    for field in fields {
        trace.extend(match field {
            Field::Call(call) => field_of(call),
            Field::Answered(answer) => field_of_answer(*answer),
        });
    }
    trace
}

// Reading.

/// Tag and body of the first field, and the bytes after it; none if the field isn't whole.
pub(crate) fn first_field(bytes: &[u8]) -> Option<(u8, &[u8], &[u8])> {
    let (start, rest) = bytes.split_at_checked(3)?;
    let length = u16::from_le_bytes([start[1], start[2]]);
    let (body, rest) = rest.split_at_checked(length.into())?;
    Some((start[0], body, rest))
}

/// Where the fields after the heading start and where the last one ends, or should end if it is cut off.
pub fn borders(trace: &[u8]) -> Vec<usize> {
    let byte = |place: usize| trace.get(place).copied().unwrap_or(0);
    let mut borders = vec![8];
    let mut end = 8;
    while end < trace.len() {
        let length = u16::from_le_bytes([byte(end + 1), byte(end + 2)]);
        end += 3 + usize::from(length);
        borders.push(end);
    }
    borders
}

/// Hands the call of a field on; none if its tag isn't a call's, or its length isn't that call's.
/// Each kind is handed on by itself, so that a player needn't tell them apart once more.
#[inline]
pub(crate) fn handed_on<R>(tag: u8, body: &[u8], to: impl FnOnce(Call) -> R) -> Option<R> {
    let result = match (tag, body) {
        (0x01, &[width, low, high]) => to(Call::Read {
            width,
            offset: u16::from_le_bytes([low, high]),
        }),
        (0x02, &[width, low, high, a, b, c, d]) => to(Call::Write {
            width,
            offset: u16::from_le_bytes([low, high]),
            value: u32::from_le_bytes([a, b, c, d]),
        }),
        (0x03, &[channel, a, b, c, d]) => to(Call::Input {
            channel,
            microvolts: i32::from_le_bytes([a, b, c, d]),
        }),
        (0x04, &[a, b, c, d]) => to(Call::Advance {
            ticks: u32::from_le_bytes([a, b, c, d]),
        }),
        (0x05, &[]) => to(Call::Trigger),
        (0x06, &[]) => to(Call::Reset),
        (0x07, &[slot]) => to(Call::Look { slot }),
        (0x08, &[slot]) => to(Call::Clear { slot }),
        _ => return None,
    };
    Some(result)
}

/// Question 18: has the trace at most 16,777,216 bytes, and is its first field the heading, with range 0 to 3? The
/// range, and the bytes after the heading.
fn headed(trace: &[u8]) -> Option<(u32, &[u8])> {
    if trace.len() > LONGEST_TRACE {
        return None;
    }
    match first_field(trace)? {
        (0x00, &[b'A', b'3', b'3', b'0', range @ 0..=3], rest) => Some((range.into(), rest)),
        _ => None,
    }
}

/// The bytes in the body of each tag's field: the calls' 01H to 08H, and 09H.
const BODIES: [usize; 9] = [3, 7, 5, 4, 0, 0, 1, 1, ANSWER];

/// Question 19: is every later field whole, with the tag of a call or 09H, and with its length? Question 26, after it:
/// is the field before each 09H a call? How many calls there are.
fn count_of(mut bytes: &[u8]) -> Result<usize, u64> {
    let mut count = 0;
    // The heading is no call.
    let (mut is_after_call, mut is_stray_met) = (false, false);
    while !bytes.is_empty() {
        let (tag, body, rest) = first_field(bytes).ok_or(19_u64)?;
        if BODIES.get(usize::from(tag).wrapping_sub(1)) != Some(&body.len()) {
            return Err(19);
        }
        let is_call = tag != ANSWERED;
        is_stray_met |= !is_call & !is_after_call;
        count += usize::from(is_call);
        is_after_call = is_call;
        bytes = rest;
    }
    // Only here: a field further on may be one that 19 refuses.
    if is_stray_met {
        return Err(26);
    }
    Ok(count)
}

/// Questions 18, 19 and 26: the range of a trace, the bytes after its heading, and how many calls they hold.
pub(crate) fn asked(trace: &[u8]) -> Result<(u32, &[u8], usize), u64> {
    let (range, bytes) = headed(trace).ok_or(18_u64)?;
    let count = count_of(bytes)?;
    Ok((range, bytes, count))
}

/// The range and the fields of a trace.
pub fn fields_of(trace: &[u8]) -> Result<(u32, Vec<Field>), u64> {
    let (range, mut bytes, _) = asked(trace)?;
    let mut fields = Vec::new();
    while let Some((tag, body, rest)) = first_field(bytes) {
        let call = handed_on(tag, body, Field::Call);
        fields.push(call.unwrap_or_else(|| Field::Answered(answer_of_bytes(body))));
        bytes = rest;
    }
    Ok((range, fields))
}

/// The range and the calls of a trace.
pub fn decoded(trace: &[u8]) -> Result<(u32, Vec<Call>), u64> {
    let (range, fields) = fields_of(trace)?;
    let call = |field| match field {
        Field::Call(call) => Some(call),
        Field::Answered(_) => None,
    };
    Ok((range, fields.into_iter().filter_map(call).collect()))
}

/// Is there a recorded answer in a trace that isn't refused?
pub fn has_answers(trace: &[u8]) -> bool {
    let is_answer = |field: &Field| matches!(field, Field::Answered(_));
    fields_of(trace).is_ok_and(|(_, fields)| fields.iter().any(is_answer))
}

// Playing.

pub(crate) fn new_board(range: u32) -> Board {
    let (board, answer) = Board::new(range);
    assert_eq!(answer.number, 0, "question 18 asks for a range of 0 to 3");
    board
}

fn answer_bytes(answer: Answer) -> [u8; ANSWER] {
    let number = u8::try_from(answer.number).expect("a number has one byte");
    let value = u32::try_from(answer.value).expect("a value has 32 bits");
    let [a, b, c, d] = value.to_le_bytes();
    [number, a, b, c, d]
}

/// Number and value of five bytes.
#[inline]
pub fn answer_of_bytes(bytes: &[u8]) -> Answer {
    Answer {
        number: bytes[0].into(),
        value: u32::from_le_bytes([bytes[1], bytes[2], bytes[3], bytes[4]]).into(),
    }
}

/// Plays a trace; gives 256 * calls answered + number. A refused trace leaves the buffer as it is.
pub fn play(trace: &[u8], answers: &mut [u8]) -> u64 {
    let (range, mut bytes, count) = match asked(trace) {
        Ok(asked) => asked,
        Err(number) => return number,
    };
    // Question 20: has the answer buffer at least 5 bytes per call?
    if answers.len() < ANSWER * count {
        return 20;
    }
    let mut board = new_board(range);
    let mut places = answers.chunks_exact_mut(ANSWER);
    while let Some((tag, body, rest)) = first_field(bytes) {
        // A recorded answer is handed on to nobody: the player passes over it.
        if let Some(answer) = handed_on(tag, body, |call| board.call(&call)) {
            let place = places.next().expect("question 20 is met");
            place.copy_from_slice(&answer_bytes(answer));
        }
        bytes = rest;
    }
    256 * count as u64
}

/// A line per call: index from 1 and number, both decimal, and value as eight hexadecimal digits, capitals, one blank
/// between. A refused trace prints `refused` and its number, alone.
pub fn lines(trace: &[u8]) -> String {
    let (range, calls) = match decoded(trace) {
        Ok(decoded) => decoded,
        Err(number) => return format!("refused {number}\n"),
    };
    let mut board = new_board(range);
    let mut lines = String::new();
    for (index, call) in calls.iter().enumerate() {
        let Answer { number, value } = board.call(call);
        writeln!(lines, "{} {number} {value:08X}", index + 1).expect("a String takes all");
    }
    lines
}

/// What the program prints for its standard input.
pub fn printed(input: &[u8]) -> String {
    lines(&input[..input.len().min(LONGEST_INPUT)])
}
