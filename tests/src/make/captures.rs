//! Captures: the fixed ones at the edges first, then random ones.

use super::frames::Tape;
use super::rng::Rng;
use super::spoil::{cut, some_bad_bits};
use crate::model::cycle::RECORD;
use crate::model::replay::LIMIT;

const FULL: usize = LIMIT * RECORD;

/// Runs of lengths in bytes, both ends included. Around the limit every
/// length is tried; far above it a few are enough.
const LENGTHS: &[(usize, usize)] = &[
    (0, 9),
    (FULL - 9, FULL + 9),
    (65_535, 65_537),
    (100_000, 100_001),
    (131_070, 131_074),
    (299_999, 300_001),
];

/// Lengths in bytes, with the bits to set in the first and the last record.
const SPOILED: &[(usize, u8, u8)] = &[
    (RECORD, 0x10, 0),
    (RECORD, 0x20, 0),
    (RECORD, 0x40, 0),
    (RECORD * 4, 0x20, 0x40),
    (RECORD * 20, 0, 0x10),
    (RECORD * 20 - 1, 0x70, 0),
    (FULL, 0x40, 0),
    (FULL, 0, 0x10),
    (FULL + RECORD, 0x20, 0),
    (FULL + RECORD, 0, 0x40),
    (FULL + RECORD + 1, 0x10, 0),
];

/// How many captures of nothing but meetings every run sends.
const MEETINGS: usize = 4;

/// The capture of document 01 that is given whole.
pub fn document_capture() -> Vec<u8> {
    let mut capture: Vec<u8> = (0..11).flat_map(|_| [0x02, 0, 0, 0, 0]).collect();
    capture[0] = 0x82;
    let rows = [
        (2, [0x05, 0x07, 0x0D]),
        (3, [0x32, 0x32, 0x31]),
        (4, [0x39, 0x2E, 0x30]),
        (5, [0x39, 0x35, 0x34]),
    ];
    for (cycle, bytes) in rows {
        capture[cycle * RECORD + 1..][..3].copy_from_slice(&bytes);
    }
    capture
}

/// The capture with a number: the same for the same seed.
pub fn capture(rng: &mut Rng, number: usize) -> Vec<u8> {
    let mut fixed = LENGTHS
        .iter()
        .flat_map(|&(least, most)| least..=most)
        .map(|length| (length, 0, 0))
        .chain(SPOILED.iter().copied());
    match number {
        0 => document_capture(),
        1..=MEETINGS => meetings(rng),
        _ => match fixed.nth(number - MEETINGS - 1) {
            Some((length, first, last)) => edge(rng, length, first, last),
            None => random(rng),
        },
    }
}

/// Many starts that meet a routing: what goes wrong there shows only later,
/// in a turn for the same output.
fn meetings(rng: &mut Rng) -> Vec<u8> {
    let mut tape = Tape::new(rng);
    tape.meetings(rng, 400);
    tape.bytes
}

fn edge(rng: &mut Rng, length: usize, first: u8, last: u8) -> Vec<u8> {
    let mut capture = sized(rng, length);
    let mut records = capture.chunks_mut(RECORD);
    if let Some(record) = records.next() {
        record[0] |= first;
    }
    if let Some(record) = records.last() {
        record[0] |= last;
    }
    capture
}

/// Frames that fill a length in bytes.
pub fn sized(rng: &mut Rng, length: usize) -> Vec<u8> {
    let mut tape = Tape::new(rng);
    tape.frames(rng, (length + RECORD - 1) / RECORD);
    tape.bytes.truncate(length);
    tape.bytes
}

pub fn random(rng: &mut Rng) -> Vec<u8> {
    let most = match rng.below(400) {
        0 => 20_000,
        1..=49 => 500,
        _ => 60,
    };
    let records = rng.below(most + 1);
    spoiled(rng, records)
}

/// A capture of any making, once in a while with mistakes.
pub fn spoiled(rng: &mut Rng, records: usize) -> Vec<u8> {
    let mut capture = good(rng, records);
    if rng.once_in(8) {
        some_bad_bits(rng, &mut capture);
    }
    if rng.once_in(10) {
        cut(rng, &mut capture);
    }
    capture
}

/// A capture without mistakes.
pub fn good(rng: &mut Rng, records: usize) -> Vec<u8> {
    let mut tape = Tape::new(rng);
    match rng.below(8) {
        0..=2 => tape.frames(rng, records),
        3 | 4 => tape.meetings(rng, records),
        5 => tape.sparse(rng, records),
        _ => {
            let gap = rng.pick(&[2, 8, 30]);
            tape.noise(rng, records, gap);
        }
    }
    tape.bytes
}
