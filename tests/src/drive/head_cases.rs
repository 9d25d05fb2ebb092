//! The cases of a head's bytes taken out of answers that a run must see.

use super::cases::Case;
use crate::model::cycle::RECORD;
use crate::model::text_calls::HeadCall;
use crate::model::RIGHT;

/// Calls that find something.
pub const SHOWN: &[Case<HeadCall>] = &[
    ("head 0", |c| c.head == 0),
    ("head 1", |c| c.head == 1),
    ("head 2", |c| c.head == 2),
    ("head 3", |c| c.head == 3),
    ("zero first", |c| column(c).first() == Some(&0)),
    ("zero between", zero_between),
    ("zero last", |c| column(c).last() == Some(&0)),
    ("no zero", |c| !column(c).contains(&0)),
    ("exact room", |c| c.room == text(c).len()),
    ("one byte too few", |c| c.room + 1 == text(c).len()),
    ("far too few", |c| c.room * 2 < text(c).len() && c.room > 0),
    ("no room", |c| c.room == 0),
    ("room to spare", |c| c.room > text(c).len()),
    ("more in part of record", |c| in_part(c) > Some(&0)),
];

/// Calls that find nothing.
pub const NONE: &[Case<HeadCall>] = &[
    ("no record", |c| column(c).is_empty() && c.head < 4),
    ("only zeros", |c| !column(c).is_empty()),
    ("shown in part of record", |c| in_part(c) > Some(&0)),
    ("head 4", |c| c.head == 4 && like_a_head(c)),
    ("head above 4", |c| c.head > 4 && like_a_head(c)),
    ("room for some", |c| c.room > 0),
];

pub fn of_head(call: &HeadCall) -> &'static [Case<HeadCall>] {
    if text(call).is_empty() {
        NONE
    } else {
        SHOWN
    }
}

/// The head's bytes, if there is such a head.
fn column(call: &HeadCall) -> Vec<u8> {
    let records = call.answers.chunks_exact(RECORD);
    let byte = |record: &[u8]| record.get(1 + usize::from(call.head)).copied();
    records.filter_map(byte).collect()
}

fn text(call: &HeadCall) -> Vec<u8> {
    RIGHT.shown(&call.answers, call.head.into())
}

fn zero_between(call: &HeadCall) -> bool {
    let column = column(call);
    let bytes = column.split(|&byte| byte == 0);
    bytes.filter(|part| !part.is_empty()).count() > 1
}

/// The head's byte in a record that is not whole.
fn in_part(call: &HeadCall) -> Option<&u8> {
    let part = call.answers.chunks_exact(RECORD).remainder();
    part.get(1 + usize::from(call.head))
}

/// With fewer bits the number would be that of a head that shows something.
fn like_a_head(call: &HeadCall) -> bool {
    !RIGHT
        .shown(&call.answers, usize::from(call.head) % 4)
        .is_empty()
}
