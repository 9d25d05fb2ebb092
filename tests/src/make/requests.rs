//! Random requests for the probe.

use super::rng::Rng;
use super::{captures, cells, heads, orders, states, texts, words};
use crate::model::frame_calls::WriteCall;
use crate::model::probe::{LETTERS, LONGEST};

pub struct Request {
    pub letter: u8,
    pub payload: Vec<u8>,
}

impl Request {
    pub fn new(letter: u8, payload: Vec<u8>) -> Request {
        Request { letter, payload }
    }

    pub fn to_bytes(&self) -> Vec<u8> {
        let mut bytes = header(self.letter, self.payload.len());
        bytes.extend(&self.payload);
        bytes
    }
}

pub fn header(letter: u8, length: usize) -> Vec<u8> {
    let mut bytes = vec![letter];
    bytes.extend((length as u32).to_be_bytes());
    bytes
}

/// The payload of R, G and S: a state, a buffer length, and what follows.
pub fn lending(image: Vec<u8>, room: usize, rest: &[u8]) -> Vec<u8> {
    let mut payload = image;
    payload.extend((room as u32).to_be_bytes());
    payload.extend(rest);
    payload
}

/// Letters are drawn from here, so that the busy ones come more often.
const DRAWN: &[u8] = b"CCCCCDDDDDRRRGGGSSTTTEEEEWWWWKKKNNNHH";

pub fn random(rng: &mut Rng) -> Request {
    let letter = rng.pick(DRAWN);
    if rng.once_in(50) {
        return misfit(rng, letter);
    }
    let payload = match letter {
        b'C' | b'D' => cycle(rng),
        b'R' | b'G' => replay(rng),
        b'S' => {
            let room = rng.pick(&[0, 1, 17, 17, 18, 18, 18, 19, 19, 40]);
            lending(states::image(rng), room, &[])
        }
        b'T' => taken(rng),
        b'W' => written(rng),
        b'K' => cells::random(rng).payload(),
        b'N' => texts::pair(rng).payload(),
        b'H' => heads::random(rng).payload(),
        _ => words::block(rng).payload(),
    };
    Request::new(letter, payload)
}

fn cycle(rng: &mut Rng) -> Vec<u8> {
    let mut payload = states::image(rng);
    let mut record = rng.bytes(5);
    if rng.once_in(2) {
        record[0] &= 0x8F;
    }
    payload.extend(record);
    payload
}

/// State, capture and buffer are each wrong once in a while, so that the
/// order of the refusals is met too.
fn replay(rng: &mut Rng) -> Vec<u8> {
    let most = if rng.once_in(12) { 200 } else { 30 };
    let records = rng.below(most + 1);
    let capture = captures::spoiled(rng, records);
    let image = if rng.once_in(2) {
        states::good_image(rng)
    } else {
        states::image(rng)
    };
    let room = around(rng, capture.len());
    lending(image, room, &capture)
}

/// A room for so many bytes, or a little less or more.
pub fn around(rng: &mut Rng, length: usize) -> usize {
    match rng.below(12) {
        0 => length.saturating_sub(1),
        1 => length + 1,
        2 => length + rng.from_to(2, 40),
        3 => rng.pick(&[0, length.saturating_sub(5), length / 2]),
        _ => length,
    }
}

fn taken(rng: &mut Rng) -> Vec<u8> {
    let mut bytes = states::saved(rng);
    match rng.below(16) {
        0 => bytes.truncate(17),
        1 => bytes.push(rng.byte()),
        2 => {
            let length = rng.below(60);
            bytes = rng.bytes(length);
        }
        3 => bytes.clear(),
        4 => bytes = rng.bytes(18),
        _ => (),
    }
    bytes
}

/// The order is once in a while cut, or has something behind it.
fn written(rng: &mut Rng) -> Vec<u8> {
    let order = orders::order(rng);
    let room = around(rng, order.size()).min(LONGEST);
    let mut payload = WriteCall { room, order }.payload();
    match rng.below(30) {
        0 => payload.truncate(rng.below(payload.len())),
        1 => payload.push(rng.byte() & 1),
        _ => (),
    }
    payload
}

/// A payload of another length than its letter wants, or no letter at all.
fn misfit(rng: &mut Rng, letter: u8) -> Request {
    let length = rng.pick(&[0, 1, 7, 11, 15, 17, 18, 25, 28, 29, 30, 31, 34, 532]);
    let letter = if rng.once_in(2) {
        letter
    } else {
        unknown_letter(rng)
    };
    Request::new(letter, vec![0; length])
}

pub fn unknown_letter(rng: &mut Rng) -> u8 {
    let near = rng.pick(b"ABFJLQUVXZcdrgstewknh\0\n ");
    match rng.byte() {
        letter if LETTERS.contains(&letter) || rng.once_in(2) => near,
        letter => letter,
    }
}

/// A length that neither a payload nor a buffer may have.
pub fn too_much(rng: &mut Rng) -> usize {
    rng.pick(&[
        LONGEST + 1,
        LONGEST + 2,
        0x0010_0000,
        0x0100_0000,
        0x8000_0000,
        0xFFFF_FFFF,
    ])
}
