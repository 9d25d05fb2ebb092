//! Texts due, written by hand, for two captures.

use super::captures::document_capture;
use super::cells::written;
use super::readbacks::input;
use super::rng::Rng;
use crate::model::cycle::RECORD;
use crate::model::orders::{Cell, Order};
use crate::model::readback::HEADS;
use std::array::from_fn;

type Texts = [&'static [u8]; HEADS];

/// For the capture of document 01, which shows nothing, `2.5`, nothing and
/// `104`.
const DOCUMENT: &[Texts] = &[
    [b"", b"2.5", b"", b"104"],
    [b"", b"25", b"", b"104"],
    [b"", b"2,5", b"", b"1.04"],
    [b"", b"2.50", b"", b"10.4"],
    [b"", b"2.", b"", b"10"],
    [b"", b"2", b"", b"1"],
    [b"", b"", b"", b""],
    [b"2.5", b"", b"104", b""],
    [b"104", b"2.5", b"2.5", b"104"],
    [b"", b"104", b"", b"2.5"],
    [b"1", b"3.5", b"1", b"204"],
    [b"mg", b"2.6", b" ", b"105"],
    [b"2.5 mg", b"2.5 mg", b"1", b"104 mg"],
    [b"\x00", b"2\x00.5", b"\x00", b"\x00104"],
    [b"2", b"2.5\x00", b"0", b"104\x00"],
    [b"", b" 2.5", b"", b"+104"],
    [b"", b"2-5", b"", b"1/04"],
    [b"", b"2+5", b"", b"10:4"],
    [b"\xB2", b"\xB2.5", b"\xFF", b"10\xB4"],
    [b"", b"2.5", b"", b"104.104,104"],
    [b"1,2.3", b"12.5", b"0123456789", b"0104"],
    [b"a1,2.3b", b"a2.5b", b"0.", b"104x"],
];

/// Runs between other bytes.
const SHOWN: Texts = [b"m2.5g", b"+1,2-", b"/30:", b" 9.\xB9"];

const RUNS: &[Texts] = &[
    SHOWN,
    [b"m2.6g", b"+2,2-", b"/20:", b" 8.\xB9"],
    [b"m25g", b"+12-", b"/3:", b" 9\xB9"],
    [b"m2,5g", b"+1.2-", b"/3.0:", b" 9,\xB9"],
    [b"m2.55g", b"+1,20-", b"/300:", b" 9.9\xB9"],
    [b"n2.5g", b"-1,2-", b":30:", b"9.\xB9"],
    [b"m2.5h", b"+1,2+", b"/30/", b" 9.9"],
    [b"m+2.5g", b"+-1,2-", b"//30:", b" :9."],
    [b"m2+5g", b"+1-2-", b"/3/0:", b" 9:.\xB9"],
    [b"m2.5", b"+1,2", b"/30", b" 9."],
    [b"m2.5gg", b"+1,2-7", b"/30:0", b" 9.\xB9 "],
    [b"m\x002.5g", b"+1,2\x00", b"/\x00", b" 9.\x00"],
    [b"2.5", b"1,2", b"30", b"9."],
];

pub const HANDS: usize = 2 * (DOCUMENT.len() + RUNS.len());

/// Each with the whole capture, and without its last two records, in which
/// some of the heads still show something.
pub fn by_hand(_: &mut Rng, number: usize) -> Vec<u8> {
    let (texts, capture) = match RUNS.get(number / 2) {
        Some(texts) => (texts, runs_shown()),
        None => (&DOCUMENT[number / 2 - RUNS.len()], document_capture()),
    };
    let kept = capture.len() - number % 2 * 2 * RECORD;
    input(texts, &capture[..kept])
}

/// A frame that sends each text to its head, and ends when the longest is
/// shown.
fn runs_shown() -> Vec<u8> {
    written(&Order {
        gap: 1,
        length: 12,
        acks: 0x05,
        cells: from_fn(|head| {
            let (header, body) = (head as u8 * 4 + 1, SHOWN[head].to_vec());
            Some(Cell { header, body })
        }),
    })
}
