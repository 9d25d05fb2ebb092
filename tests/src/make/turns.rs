//! A table of every contest for one output: each holder, and each input not
//! asking, asking low or asking high.

use super::requests::Request;
use super::rng::Rng;
use crate::model::state::{State, SECOND};
use std::array::from_fn;

/// Outputs, holders, three ways for each of four inputs; each by C and by D.
pub const TURNS: usize = 4 * 4 * 81 * 2;

pub fn turn(rng: &mut Rng, number: usize) -> Request {
    let letter = if number % 2 == 0 { b'C' } else { b'D' };
    let (output, rest) = (number / 2 % 4, number / 8);
    let (holder, asking) = (rest % 4, rest / 4 % 81);
    let mut state = State::reset();
    state.waiting = true;
    state.holder = from_fn(|_| rng.byte() & 3);
    state.holder[output] = holder as u8;
    let ways = [asking, asking / 3, asking / 9, asking / 27];
    state.rows[SECOND] = ways.map(|way| header(rng, output as u8, way % 3));
    let mut payload = state.to_image();
    payload.extend(rng.bytes(5));
    Request::new(letter, payload)
}

/// Spare bits are random; who doesn't ask is idle or asks another output.
fn header(rng: &mut Rng, output: u8, way: usize) -> u8 {
    let random = rng.byte();
    match way {
        0 if rng.once_in(2) => random & !1,
        0 => random & !0x0C | ((output + 1 + random % 3) % 4) << 2,
        1 => random & !0x0F | output << 2 | 1,
        _ => random & !0x0F | output << 2 | 3,
    }
}
