//! The cases of inputs of readback that a run must see.

use super::cases::Case;
use crate::model::cycle::RECORD;
use crate::model::probe::LONGEST;
use crate::model::readback::Readback;
use crate::model::replay::LIMIT;
use crate::model::text_calls::Pair;

/// Inputs that end inside the texts.
pub const CUT: &[Case<Readback>] = &[
    ("empty", |r| r.due.is_empty() && r.rest.is_empty()),
    ("cut before a length", |r| {
        !r.due.is_empty() && r.rest.is_empty()
    }),
    ("cut behind a length", |r| r.rest.len() == 1),
    ("cut inside a text", |r| r.rest.len() > 1),
    ("cut by one byte", one_byte_short),
    ("cut in text 0", |r| r.due.is_empty() && !r.rest.is_empty()),
    ("cut in text 3", |r| r.due.len() == 3 && !r.rest.is_empty()),
    ("cut, rest like a capture", |r| {
        !r.rest.is_empty() && r.rest.len() % RECORD == 0
    }),
];

/// Captures that are refused.
pub const REFUSED: &[Case<Readback>] = &[
    ("12289 records", |r| {
        r.number == 4 && r.rest.len() == (LIMIT + 1) * RECORD
    }),
    ("1 and 3", |r| r.number == 1 && bad(r)),
    ("1 and 4", |r| {
        r.number == 1 && r.rest.len() / RECORD > LIMIT
    }),
    ("4 and 3", |r| r.number == 4 && bad(r)),
    ("input over 65536, remainder 0", |r| over_by_texts(r, 0)),
    ("input over 65536, remainder 1", |r| over_by_texts(r, 1)),
    ("input over 65536, remainder 2", |r| over_by_texts(r, 2)),
    ("input over 65536, remainder 3", |r| over_by_texts(r, 3)),
    ("input over 65536, remainder 4", |r| over_by_texts(r, 4)),
    ("capture over 70000, remainder 0", |r| over_70000(r, 0)),
    ("capture over 70000, remainder 1", |r| over_70000(r, 1)),
    ("capture over 70000, remainder 2", |r| over_70000(r, 2)),
    ("capture over 70000, remainder 3", |r| over_70000(r, 3)),
    ("capture over 70000, remainder 4", |r| over_70000(r, 4)),
    ("long with empty texts", |r| {
        r.rest.len() > LONGEST && front(r) == 4
    }),
    ("long with long texts", |r| {
        r.rest.len() > LONGEST && front(r) == 1_024
    }),
];

/// Captures that are done.
pub const DONE: &[Case<Readback>] = &[
    ("no capture", |r| r.rest.is_empty()),
    ("12288 records", |r| r.rest.len() == LIMIT * RECORD),
    ("four same", |r| r.heads.iter().all(same)),
    ("four differ", |r| !r.heads.iter().any(same)),
    ("one of four differs", |r| {
        r.heads.iter().filter(|pair| !same(pair)).count() == 1
    }),
    ("texts of 255 bytes", |r| front(r) == 1_024),
    ("no text due", |r| front(r) == 4),
    ("text of 255 bytes same", |r| {
        r.heads.iter().any(|p| same(p) && p.due.len() == 255)
    }),
    ("256 bytes shown", |r| {
        r.heads.iter().any(|p| p.shown.len() == 256)
    }),
    ("12283 bytes shown", |r| {
        r.heads.iter().all(|p| p.shown.len() == LIMIT - 5)
    }),
    ("output over 65536", |r| r.output.len() > LONGEST),
];

pub fn of_readback(readback: &Readback) -> &'static [Case<Readback>] {
    match readback.number {
        0 => DONE,
        25 => CUT,
        _ => REFUSED,
    }
}

fn same(pair: &Pair) -> bool {
    pair.due == pair.shown
}

/// How many bytes the texts have with their lengths.
fn front(readback: &Readback) -> usize {
    readback.due.iter().map(|text| text.len() + 1).sum()
}

fn one_byte_short(readback: &Readback) -> bool {
    let length = readback.rest.first().copied().map(usize::from);
    length == Some(readback.rest.len())
}

fn bad(readback: &Readback) -> bool {
    let mut records = readback.rest.chunks(RECORD);
    records.any(|record| record[0] & 0x70 != 0)
}

/// The capture alone would not be over it.
fn over_by_texts(readback: &Readback, remainder: usize) -> bool {
    let length = readback.rest.len();
    length <= LONGEST && length + front(readback) > LONGEST && length % RECORD == remainder
}

fn over_70000(readback: &Readback, remainder: usize) -> bool {
    let length = readback.rest.len();
    length > 70_000 && length % RECORD == remainder
}
