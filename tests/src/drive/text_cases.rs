//! The cases of two texts compared that a run must see.

use super::cases::Case;
use super::cell_cases::Worded;
use crate::model::numerals::{is_numeral, Parting};
use crate::model::probe::{number, LENGTH, LONGEST};
use crate::model::text_calls::Pair;
use crate::model::RIGHT;

pub const SAME: &[Case<Pair>] = &[
    ("same", |p| !p.due.is_empty()),
    ("both empty", |p| p.due.is_empty()),
];

/// How two texts differ, by what stands at the place in each.
pub const WAYS: &[Case<Pair>] = &[
    ("point lost", |p| at(p).0 == Some(b'.')),
    ("point put in", |p| at(p).1 == Some(b'.')),
    ("comma lost", |p| at(p).0 == Some(b',')),
    ("comma put in", |p| at(p).1 == Some(b',')),
    ("digit for digit", |p| digit(at(p).0) && digit(at(p).1)),
    ("digit for another byte", |p| {
        other(at(p).0) && digit(at(p).1)
    }),
    ("byte for byte", |p| other(at(p).0) && other(at(p).1)),
    ("tail missing", |p| at(p).1.is_none()),
    ("tail added", |p| at(p).0.is_none()),
    ("nothing shown", |p| p.shown.is_empty()),
    ("nothing due", |p| p.due.is_empty()),
    ("place 0", |p| found(p).place == 0),
    ("place 10 or later", |p| found(p).place >= 10),
];

/// Where the piece lies, and what it is.
pub const PIECES: &[Case<Pair>] = &[
    ("piece of the station's text", |p| at(p).0.is_some()),
    ("piece of the head's text", |p| at(p).0.is_none()),
    ("numeral alone", |p| size(p) == 1 && in_numeral(p)),
    ("other byte alone", |p| !in_numeral(p) && !beside_run(p)),
    ("other byte beside a run", |p| {
        !in_numeral(p) && beside_run(p)
    }),
    ("longer piece", |p| size(p) > 1),
    ("place first in it", |p| size(p) > 1 && before(p) == 0),
    ("place inside it", |p| {
        before(p) > 0 && before(p) + 1 < size(p)
    }),
    ("place last in it", |p| {
        size(p) > 1 && before(p) + 1 == size(p)
    }),
    ("from the text's start", |p| {
        size(p) > 1 && around(p).0.is_none()
    }),
    ("to the text's end", |p| {
        size(p) > 1 && around(p).1.is_none()
    }),
    ("between other bytes", |p| {
        size(p) > 1 && other(around(p).0) && other(around(p).1)
    }),
    ("point in it", |p| found(p).piece()[1..].contains(&b'.')),
    ("comma in it", |p| found(p).piece()[1..].contains(&b',')),
];

/// Bytes that are no numerals: at the place, or next to a piece of some.
pub const BYTES: &[Case<Pair>] = &[
    ("2B at", |p| is(p, 0x2B)),
    ("2D at", |p| is(p, 0x2D)),
    ("2F at", |p| is(p, 0x2F)),
    ("3A at", |p| is(p, 0x3A)),
    ("2B next", |p| next(p, 0x2B)),
    ("2D next", |p| next(p, 0x2D)),
    ("2F next", |p| next(p, 0x2F)),
    ("3A next", |p| next(p, 0x3A)),
    ("zero at", |p| is(p, 0)),
    ("zero next", |p| next(p, 0)),
    ("letter at", |p| byte(p).is_ascii_alphabetic()),
    ("blank at", |p| is(p, b' ')),
    ("above 7F at", |p| byte(p) > 0x7F),
    ("numeral with bit 7 at", |p| {
        byte(p) > 0x7F && is_numeral(byte(p) & 0x7F)
    }),
];

/// Only a request has room for so much.
pub const LONG: &[Case<Pair>] = &[
    ("place 255", |p| found(p).place == 255),
    ("place 256", |p| found(p).place == 256),
    ("place above 256", |p| found(p).place > 256),
    ("longest piece", |p| size(p) == LONGEST - LENGTH),
];

pub const MISFITS: &[Case<Worded>] = &[
    ("no whole length", |w| w.payload.len() < LENGTH),
    ("length one too much", |w| too_much(w) == Some(1)),
    ("length far too much", |w| {
        too_much(w) > Some(LONGEST as u64)
    }),
];

pub fn of_pair(pair: &Pair) -> Vec<&'static [Case<Pair>]> {
    if pair.due == pair.shown {
        vec![SAME]
    } else {
        vec![WAYS, PIECES, BYTES, LONG]
    }
}

fn found(pair: &Pair) -> Parting<'_> {
    let parting = RIGHT.parting(&pair.due, &pair.shown);
    parting.expect("texts that differ")
}

/// What stands at the place in each of the texts.
fn at(pair: &Pair) -> (Option<u8>, Option<u8>) {
    let place = found(pair).place;
    let byte = |text: &[u8]| text.get(place).copied();
    (byte(&pair.due), byte(&pair.shown))
}

fn digit(byte: Option<u8>) -> bool {
    byte.map_or(false, |byte| byte.is_ascii_digit())
}

fn other(byte: Option<u8>) -> bool {
    byte.map_or(false, |byte| !is_numeral(byte))
}

/// The byte at the place, in the text of the piece.
fn byte(pair: &Pair) -> u8 {
    let found = found(pair);
    found.text[found.place]
}

fn in_numeral(pair: &Pair) -> bool {
    is_numeral(byte(pair))
}

fn size(pair: &Pair) -> usize {
    found(pair).run.len()
}

/// How many bytes of the piece stand before the place.
fn before(pair: &Pair) -> usize {
    let found = found(pair);
    found.place - found.run.start
}

/// What stands before and behind the piece in its text.
fn around(pair: &Pair) -> (Option<u8>, Option<u8>) {
    let found = found(pair);
    let before = found.text[..found.run.start].last();
    (before.copied(), found.text.get(found.run.end).copied())
}

fn beside_run(pair: &Pair) -> bool {
    let (before, behind) = around(pair);
    before.map_or(false, is_numeral) || behind.map_or(false, is_numeral)
}

fn is(pair: &Pair, this: u8) -> bool {
    byte(pair) == this
}

fn next(pair: &Pair, this: u8) -> bool {
    let (before, behind) = around(pair);
    in_numeral(pair) && (before == Some(this) || behind == Some(this))
}

/// By how much the text due is longer than what is there.
fn too_much(worded: &Worded) -> Option<u64> {
    let texts = worded.payload.get(LENGTH..)?;
    number(&worded.payload[..LENGTH]).checked_sub(texts.len() as u64)
}
