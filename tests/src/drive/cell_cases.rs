//! The cases of cells read, and of requests with a buffer that are answered
//! in words, that a run must see.

use super::cases::Case;
use crate::model::cycle::{Inputs, RECORD};
use crate::model::frame_calls::ReadCall;
use crate::model::probe::{number, Outcome, LENGTH, LONGEST};
use crate::model::RIGHT;

/// Calls that find a cell.
pub const FOUND: &[Case<ReadCall>] = &[
    ("headers in record 0", |c| th(c) == Some(0)),
    ("headers later", |c| th(c) > Some(0)),
    ("ack 0 before headers", acked_before),
    ("header alone", |c| cell(c).len() == 1),
    ("zero in body", |c| cell(c).contains(&0)),
    ("zeros behind body", |c| cell(c).len() > 1 && behind(c) > 0),
    ("body to the end", |c| cell(c).len() > 1 && behind(c) == 0),
    ("more in part of record", |c| in_part(c) > Some(0)),
    ("exact room", |c| c.room == cell(c).len()),
    ("one byte too few", |c| c.room + 1 == cell(c).len()),
    ("room to spare", |c| c.room > cell(c).len()),
];

/// Calls that find none.
pub const NONE: &[Case<ReadCall>] = &[
    ("no record", |c| records(c).is_empty()),
    ("no active byte", |c| own(c).len() > 1 && th(c).is_none()),
    ("active in part of record", |c| {
        in_part(c).map_or(false, active)
    }),
    ("no such input", |c| c.input > 3 && th(c).is_some()),
    ("headers of others", |c| c.input < 4 && th(c).is_some()),
    ("own active byte later", |c| own(c).into_iter().any(active)),
    ("room for a cell", |c| c.room > 0),
];

pub fn of_call(call: &ReadCall) -> &'static [Case<ReadCall>] {
    if cell(call).is_empty() {
        NONE
    } else {
        FOUND
    }
}

/// A request that was answered in words.
pub struct Worded {
    pub payload: Vec<u8>,
    pub outcome: Outcome,
}

pub const WORDED: &[Case<Worded>] = &[
    ("malformed", |w| w.outcome == Outcome::Malformed),
    ("malformed and long", |w| {
        w.outcome == Outcome::Malformed && long(w)
    }),
    ("buffer too long", |w| {
        w.outcome == Outcome::TooLong && long(w)
    }),
];

fn long(worded: &Worded) -> bool {
    let room = worded.payload.get(..LENGTH);
    room.map_or(false, |bytes| number(bytes) > LONGEST as u64)
}

fn active(byte: u8) -> bool {
    byte & 1 == 1
}

fn records(call: &ReadCall) -> Vec<Inputs> {
    let records = call.frame.chunks_exact(RECORD);
    records.map(Inputs::from_record).collect()
}

fn th(call: &ReadCall) -> Option<usize> {
    let headers = |inputs: &Inputs| inputs.bytes.into_iter().any(active);
    records(call).iter().position(headers)
}

/// What the input sends, if there is such an input.
fn own(call: &ReadCall) -> Vec<u8> {
    let bytes = |inputs: &Inputs| inputs.bytes.get(call.input).copied();
    records(call).iter().filter_map(bytes).collect()
}

fn cell(call: &ReadCall) -> Vec<u8> {
    let mut cell = vec![0; call.frame.len()];
    let count = RIGHT.read_cell(&call.frame, call.input, &mut cell);
    cell.truncate(count);
    cell
}

/// How many records stand behind the cell.
fn behind(call: &ReadCall) -> usize {
    let before = th(call).unwrap_or(0);
    records(call).len() - before - cell(call).len()
}

/// Output 0 is acknowledged by the bit that marks a header elsewhere.
fn acked_before(call: &ReadCall) -> bool {
    let before = th(call).unwrap_or(0);
    records(call)[..before].iter().any(|inputs| inputs.acks[0])
}

/// The input's byte in a record that is not whole.
fn in_part(call: &ReadCall) -> Option<u8> {
    let part = call.frame.chunks_exact(RECORD).remainder();
    part.get(1 + call.input).copied()
}
