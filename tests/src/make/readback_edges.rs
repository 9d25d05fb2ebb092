//! Inputs of readback that every run sends: ends inside the texts, long runs
//! of numerals at the heads, and lengths around and far above the limit.

use super::captures::sized;
use super::readbacks::{input, shown, LONGEST_TEXT};
use super::rng::Rng;
use super::spoil::bad_bits;
use super::texts::NUMERALS;
use crate::model::cycle::RECORD;
use crate::model::probe::LONGEST;
use crate::model::readback::HEADS;
use crate::model::replay::LIMIT;

/// Four texts with their lengths; the second is empty.
const SMALL: [u8; 10] = [2, b'2', b'5', 0, 3, b'1', b'.', b'5', 1, 0x51];
/// In bytes of four texts of 255 each: around the ends of each text.
const LONG_CUTS: [usize; 12] = [1, 2, 254, 255, 256, 257, 511, 512, 768, 1_022, 1_023, 1_024];

pub const CUTS: usize = SMALL.len() + 1 + HEADS + 1 + LONG_CUTS.len();

/// Ends in every place of small and of empty texts, and in some of long
/// ones; the last place of each is behind the texts.
pub fn cut(rng: &mut Rng, number: usize) -> Vec<u8> {
    let empty = SMALL.len() + 1;
    let longs = empty + HEADS + 1;
    if number < empty {
        SMALL[..number].to_vec()
    } else if number < longs {
        vec![0; number - empty]
    } else {
        let mut bytes = due(rng, LONGEST_TEXT);
        bytes.truncate(LONG_CUTS[number - longs]);
        bytes
    }
}

/// Texts of one length, of any bytes, with their lengths.
fn due(rng: &mut Rng, length: usize) -> Vec<u8> {
    let texts: Vec<Vec<u8>> = (0..HEADS).map(|_| rng.bytes(length)).collect();
    input(&texts, &[])
}

/// Numbers of records of one frame that fills all heads with numerals. Each
/// head shows five fewer.
const RECORDS: [usize; 6] = [259, 260, 261, 2_000, LIMIT, LIMIT + 1];
/// Where to cut the text due, and where to change it.
const CHANGES: [(usize, usize); 6] = [
    (LONGEST_TEXT, LONGEST_TEXT),
    (LONGEST_TEXT, 254),
    (LONGEST_TEXT, 130),
    (LONGEST_TEXT, 0),
    (100, LONGEST_TEXT),
    (0, LONGEST_TEXT),
];

pub const WIDES: usize = RECORDS.len() * CHANGES.len();

/// A piece at a head can be much longer than any text due. The headers come
/// with the frame start, so that nothing can be shown earlier.
pub fn wide(rng: &mut Rng, number: usize) -> Vec<u8> {
    let records = RECORDS[number / CHANGES.len()];
    let turned = rng.byte() & 3;
    let mut capture = vec![0x80];
    capture.extend([0, 1, 2, 3].map(|input| (input ^ turned) << 2 | 1));
    while capture.len() < records * RECORD {
        capture.push(rng.byte() & 15);
        capture.extend([0; HEADS].map(|_| rng.pick(NUMERALS)));
    }
    let (kept, changed) = CHANGES[number % CHANGES.len()];
    let mut due = shown(&capture);
    for text in &mut due {
        text.truncate(kept);
        text.iter_mut().skip(changed).take(1).for_each(|b| *b ^= 1);
    }
    input(&due, &capture)
}

/// Lengths of each of the texts.
const TEXTS: [usize; 3] = [0, 2, LONGEST_TEXT];
/// Bytes of the capture, or of the whole input, around each of these.
const AROUND: [usize; 3] = [LIMIT * RECORD, LONGEST, 70_000];
/// How many lengths next to each other, so that each remainder comes up on
/// both sides.
const NEAR: usize = 11;

pub const LONGS: usize = TEXTS.len() * AROUND.len() * NEAR * 2;

/// Half of them have a bad record too, which counts only within the limit.
pub fn long(rng: &mut Rng, number: usize) -> Vec<u8> {
    let (near, rest) = (number % NEAR, number / NEAR);
    let around = AROUND[rest % AROUND.len()] + near - NEAR / 2;
    let mut bytes = due(rng, TEXTS[rest / AROUND.len() % TEXTS.len()]);
    let whole = number < LONGS / 2;
    let length = around - if whole { bytes.len() } else { 0 };
    let mut capture = sized(rng, length);
    if rng.once_in(2) {
        let record = rng.below(length / RECORD);
        bad_bits(rng, &mut capture, record);
    }
    bytes.extend(capture);
    bytes
}
