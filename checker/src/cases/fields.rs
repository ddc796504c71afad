//! Traces field by field, in bytes: those that are refused cannot be written as calls. Beside each is what a player or
//! a replay gives.

const TRIGGER: &[u8] = &[0x05, 0, 0];

const LOOK_31: &[u8] = &[0x07, 1, 0, 31];
const CLEAR_31: &[u8] = &[0x08, 1, 0, 31];

/// A trigger's answer, recorded.
const ANSWERED: &[u8] = &[0x09, 5, 0, 0, 0, 0, 0, 0];

/// No answer of a board.
const ANY_BYTES: &[u8] = &[0x09, 5, 0, 0xFE, 0xDC, 0xBA, 0x98, 0x76];

/// The head of a call without its body.
const HALF_A_READ: &[u8] = &[0x01, 3, 0];

/// A good heading.
const HEAD: &[u8] = &[0x00, 5, 0, b'A', b'3', b'3', b'0', 3];

/// Questions 18 to 20 and 26: the fields of a trace, the length of the buffer, and what a player gives.
pub const PLAYED: &[(&[&[u8]], usize, u64)] = &[
    (&[], 0, 18),
    (&[&[0x00, 5, 0, b'A', b'3', b'3', b'0']], 100, 18),
    (&[&[0x00, 5, 0, b'A', b'3', b'3', b'0', 4]], 0, 18),
    (&[&[0x00, 5, 0, b'A', b'3', b'3', b'0', 255]], 0, 18),
    (&[&[0x00, 4, 0, b'A', b'3', b'3', b'0']], 0, 18),
    (&[&[0x00, 6, 0, b'A', b'3', b'3', b'0', 1, 1]], 0, 18),
    (&[&[0x00, 5, 1, b'A', b'3', b'3', b'0', 1]], 0, 18),
    (&[&[0x00, 5, 0, b'a', b'3', b'3', b'0', 1]], 0, 18),
    (&[&[0x00, 5, 0, b'A', b'3', b'3', b'1', 1]], 0, 18),
    (&[&[0x01, 5, 0, b'A', b'3', b'3', b'0', 1]], 0, 18),
    (&[TRIGGER, HEAD], 100, 18),
    (&[&[0x00, 5, 0, b'A', b'3', b'3', b'0', 4, 0x05]], 0, 18),
    (&[HEAD], 0, 0),
    (&[HEAD], 100, 0),
    (&[HEAD, HEAD], 100, 19),
    (&[HEAD, &[0x05]], 100, 19),
    (&[HEAD, &[0x05, 0]], 100, 19),
    (&[HEAD, TRIGGER, &[0x09, 0, 0]], 0, 19),
    (&[HEAD, &[0x09, 1, 0, 0]], 100, 19),
    (&[HEAD, &[0x87, 1, 0, 0]], 100, 19),
    (&[HEAD, &[0x07, 0, 0]], 100, 19),
    (&[HEAD, &[0x08, 0, 0]], 100, 19),
    (&[HEAD, &[0x07, 1, 0]], 100, 19),
    (&[HEAD, &[0x08, 1, 0]], 100, 19),
    (&[HEAD, &[0x07, 2, 0, 0, 0]], 100, 19),
    (&[HEAD, &[0x08, 2, 0, 0, 0]], 100, 19),
    (&[HEAD, &[0x07, 1, 1, 0]], 100, 19),
    (&[HEAD, &[0x08, 4, 0, 0, 0, 0, 0]], 100, 19),
    (&[HEAD, &[0x05, 1, 0, 0]], 100, 19),
    (&[HEAD, &[0x06, 0, 1]], 100, 19),
    (&[HEAD, &[0x04, 4, 0, 1, 0, 0]], 100, 19),
    (&[HEAD, &[0x04, 3, 0, 1, 0, 0]], 100, 19),
    (&[HEAD, &[0x01, 4, 0, 8, 0, 0, 0]], 100, 19),
    (&[HEAD, TRIGGER], 4, 20),
    (&[HEAD, TRIGGER], 5, 256),
    (&[HEAD, TRIGGER, TRIGGER], 9, 20),
    (&[HEAD, TRIGGER, TRIGGER], 11, 512),
    (&[HEAD, LOOK_31], 4, 20),
    (&[HEAD, LOOK_31], 5, 256),
    (&[HEAD, CLEAR_31], 4, 20),
    (&[HEAD, CLEAR_31], 6, 256),
    (&[HEAD, CLEAR_31, LOOK_31, LOOK_31], 15, 768),
    // 19 admits 09H, of its length, and no other tag above it.
    (&[HEAD, TRIGGER, &[0x09, 4, 0, 0, 0, 0, 0]], 100, 19),
    (&[HEAD, TRIGGER, &[0x09, 6, 0, 0, 0, 0, 0, 0, 0]], 100, 19),
    (&[HEAD, TRIGGER, &[0x09, 5, 1, 0, 0, 0, 0, 0]], 100, 19),
    (&[HEAD, TRIGGER, &[0x09, 5, 0, 0, 0, 0, 0]], 100, 19),
    (&[HEAD, TRIGGER, &[0x09]], 100, 19),
    (&[HEAD, TRIGGER, &[0x0A, 6, 0, 0, 0, 0, 0, 0, 0]], 100, 19),
    (&[HEAD, TRIGGER, &[0x0A, 5, 0, 0, 0, 0, 0, 0]], 100, 19),
    // 26: its previous field is the heading, or another 09H.
    (&[HEAD, ANSWERED], 100, 26),
    (&[HEAD, ANSWERED, TRIGGER], 100, 26),
    (&[HEAD, TRIGGER, ANSWERED, ANSWERED], 100, 26),
    (&[HEAD, TRIGGER, ANSWERED, ANY_BYTES, TRIGGER], 100, 26),
    (
        &[HEAD, TRIGGER, TRIGGER, ANSWERED, ANSWERED, ANSWERED],
        100,
        26,
    ),
    // 18 before it, and 19, also of a field further on; 20 after it.
    (&[&[0x00, 5, 0, b'A', b'3', b'3', b'0', 4], ANSWERED], 0, 18),
    (&[ANSWERED, HEAD], 0, 18),
    (&[HEAD, ANSWERED, TRIGGER, &[0x0B, 0, 0]], 100, 19),
    (&[HEAD, TRIGGER, ANSWERED, ANSWERED, HALF_A_READ], 100, 19),
    (&[HEAD, ANSWERED, &[0x05]], 0, 19),
    (&[HEAD, &[0x0B, 0, 0], ANSWERED, ANSWERED], 0, 19),
    (&[HEAD, TRIGGER, TRIGGER, ANSWERED, ANSWERED], 0, 26),
    (&[HEAD, ANSWERED, TRIGGER], 4, 26),
    // The player passes over it: no call, and no room in the buffer.
    (&[HEAD, TRIGGER, ANSWERED], 5, 256),
    (&[HEAD, TRIGGER, ANY_BYTES], 5, 256),
    (&[HEAD, TRIGGER, ANSWERED], 4, 20),
    (&[HEAD, TRIGGER, ANY_BYTES, TRIGGER, ANSWERED], 10, 512),
    (&[HEAD, TRIGGER, ANSWERED, TRIGGER, ANSWERED], 9, 20),
    (
        &[HEAD, LOOK_31, ANSWERED, CLEAR_31, TRIGGER, ANSWERED],
        15,
        768,
    ),
];

/// The fields of a trace, and what a replay returns: number + 2^8 * index + 2^32 * count.
pub const REPLAYED: &[(&[&[u8]], u64)] = &[
    (&[], 18),
    (&[HEAD], 0),
    (&[TRIGGER, HEAD], 18),
    (&[&[0x00, 5, 0, b'A', b'3', b'3', b'0', 4], ANSWERED], 18),
    (&[HEAD, TRIGGER], 0),
    (&[HEAD, TRIGGER, ANSWERED], 1 << 32),
    (&[HEAD, TRIGGER, ANY_BYTES], 1 << 32 | 1 << 8),
    (
        &[HEAD, TRIGGER, TRIGGER, ANSWERED, TRIGGER, ANY_BYTES],
        2 << 32 | 3 << 8,
    ),
    (
        &[
            HEAD, TRIGGER, ANSWERED, LOOK_31, ANSWERED, CLEAR_31, ANSWERED,
        ],
        3 << 32,
    ),
    (
        &[HEAD, TRIGGER, ANY_BYTES, TRIGGER, ANY_BYTES],
        1 << 32 | 1 << 8,
    ),
    (
        &[HEAD, TRIGGER, &[0x09, 5, 0, 0, 1, 0, 0, 0]],
        1 << 32 | 1 << 8,
    ),
    (
        &[HEAD, TRIGGER, &[0x09, 5, 0, 0, 0, 1, 0, 0]],
        1 << 32 | 1 << 8,
    ),
    (&[HEAD, TRIGGER, &[0x09, 5, 0, 0, 0, 0, 1, 0]], 1 << 32),
    (&[HEAD, TRIGGER, &[0x09, 5, 0, 0, 0, 0, 0, 1]], 1 << 32),
    (
        &[HEAD, TRIGGER, &[0x09, 5, 0, 1, 0, 0, 0, 0]],
        1 << 32 | 1 << 8,
    ),
    (&[HEAD, ANSWERED], 26),
    (&[HEAD, TRIGGER, ANY_BYTES, ANSWERED], 26),
    (&[HEAD, TRIGGER, ANSWERED, HALF_A_READ], 19),
    (&[HEAD, TRIGGER, ANSWERED, ANSWERED, HALF_A_READ], 19),
    (&[HEAD, ANSWERED, &[0x0B, 0, 0]], 19),
    (&[HEAD, TRIGGER, &[0x09, 4, 0, 0, 0, 0, 0]], 19),
    (&[HEAD, TRIGGER, &[0x09, 5, 0, 0, 0, 0, 0]], 19),
    (&[HEAD, TRIGGER, &[0x0A, 6, 0, 0, 0, 0, 0, 0, 0]], 19),
];
