//! State images: acceptable ones, and ones to be refused for each reason.

use super::rng::Rng;
use crate::model::state::{State, SECOND};
use std::array::from_fn;

/// A state in which nothing is wrong.
pub fn acceptable(rng: &mut Rng) -> State {
    let mut state = State::reset();
    match rng.below(10) {
        0 => return state,
        1..=4 => state.waiting = true,
        _ => state.shut = from_fn(|_| rng.once_in(3)),
    }
    let turned = order(rng);
    state.holder = from_fn(|o| {
        let free = state.shut[o] && rng.once_in(2);
        if free {
            rng.byte() & 3
        } else {
            turned[o]
        }
    });
    fill(rng, &mut state);
    state
}

/// The inputs in some order, so that open outputs have different holders.
fn order(rng: &mut Rng) -> [u8; 4] {
    let mut inputs = [0, 1, 2, 3];
    for last in (1..4).rev() {
        inputs.swap(last, rng.below(last + 1));
    }
    inputs
}

fn fill(rng: &mut Rng, state: &mut State) {
    let mask = rng.pick(&[0, 0x0F, 0xFF, 0xFF]);
    state.rows = from_fn(|_| from_fn(|_| rng.byte() & mask));
    if rng.once_in(2) {
        // Headers for one output, so that the turn has something to settle.
        let output = rng.byte() & 0x0C;
        let header = |_| rng.byte() & !0x0C | output;
        state.rows[SECOND] = from_fn(header);
    }
    if rng.once_in(8) {
        state.rows[SECOND] = state.rows[SECOND].map(|byte| byte & !1);
    }
}

/// Brings in one or more of the reasons of 14, 7 and 8.
fn spoil(rng: &mut Rng, state: &mut State) {
    let reasons = rng.from_to(1, 7);
    let output = rng.below(4);
    let other = (output + rng.from_to(1, 3)) % 4;
    if reasons & 4 != 0 {
        state.waiting &= reasons & 2 != 0;
        state.shut[output] = false;
        state.shut[other] = false;
        state.holder[other] = state.holder[output];
    }
    if reasons & 2 != 0 {
        state.waiting = true;
        state.shut[output] = false;
    }
    if reasons & 1 != 0 {
        let high = rng.pick(&[4, 4, 5, 6, 7, 8, 16, 64, 128, 252, 255]);
        state.holder[rng.below(4)] = high;
    }
}

/// The image of a state, its set flags as 1 or as any other number but 0.
fn image_of(rng: &mut Rng, state: &State) -> Vec<u8> {
    let mut image = state.to_image();
    if rng.once_in(3) {
        for flag in image[..5].iter_mut().filter(|flag| **flag != 0) {
            *flag = rng.pick(&[1, 2, 16, 128, 254, 255]);
        }
    }
    image
}

pub fn good_image(rng: &mut Rng) -> Vec<u8> {
    let state = acceptable(rng);
    image_of(rng, &state)
}

pub fn image(rng: &mut Rng) -> Vec<u8> {
    let mut state = acceptable(rng);
    if rng.once_in(4) {
        spoil(rng, &mut state);
    }
    image_of(rng, &state)
}

/// The saved form of a state, once in a while with mistakes in its word.
pub fn saved(rng: &mut Rng) -> Vec<u8> {
    let mut bytes = crate::model::RIGHT.saved(&acceptable(rng));
    match rng.below(6) {
        0 => bytes[1] |= rng.from_to(1, 7) as u8,
        1 => bytes[0] = rng.byte(),
        2 => bytes[..2].fill_with(|| rng.byte()),
        3 => {
            bytes[0] = rng.byte();
            bytes[1] = rng.byte() & 0xF8;
        }
        _ => (),
    }
    bytes
}
