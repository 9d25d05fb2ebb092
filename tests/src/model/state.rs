//! The state of the board, its 25-byte image, and the refusals 14, 7 and 8.

use super::wrong::Wrong;
use super::{first_refusal, Model};
use std::array::from_fn;

pub const IMAGE: usize = 25;

/// Places in `State::rows`.
pub const FIRST: usize = 0;
pub const SECOND: usize = 1;
pub const SWITCH: usize = 2;
pub const HEAD: usize = 3;

#[derive(Clone, Debug, PartialEq, Eq)]
pub struct State {
    pub waiting: bool,
    pub shut: [bool; 4],
    pub holder: [u8; 4],
    pub rows: [[u8; 4]; 4],
}

impl State {
    pub fn reset() -> State {
        State {
            waiting: false,
            shut: [true; 4],
            holder: [0; 4],
            rows: [[0; 4]; 4],
        }
    }

    /// Reads the first 25 bytes; a flag is set if it is not 0.
    pub fn from_image(image: &[u8]) -> State {
        State {
            waiting: image[0] != 0,
            shut: from_fn(|o| image[1 + o] != 0),
            holder: from_fn(|o| image[5 + o]),
            rows: rows_from(&image[9..IMAGE]),
        }
    }

    pub fn to_image(&self) -> Vec<u8> {
        let mut image = vec![u8::from(self.waiting)];
        image.extend(self.shut.map(u8::from));
        image.extend(self.holder);
        image.extend(self.rows.concat());
        image
    }

    fn open_outputs(&self) -> Vec<usize> {
        (0..4).filter(|&o| !self.shut[o]).collect()
    }
}

pub fn rows_from(bytes: &[u8]) -> [[u8; 4]; 4] {
    from_fn(|row| from_fn(|port| bytes[4 * row + port]))
}

impl Model {
    /// 14, 7 or 8, or 0 if the state is acceptable.
    pub fn check_state(&self, state: &State) -> u32 {
        let too_high = |o: usize| {
            let seen = !(self.has(Wrong::HolderOfShut) && state.shut[o]);
            state.holder[o] > 3 && seen
        };
        let mut tests = [
            (14, (0..4).any(too_high)),
            (7, state.waiting && !state.open_outputs().is_empty()),
            (8, self.shared_holder(state)),
        ];
        if self.has(Wrong::StateByNumber) {
            tests.rotate_left(1);
        }
        if self.has(Wrong::EightBeforeSeven) {
            tests.swap(1, 2);
        }
        first_refusal(&tests)
    }

    pub fn shared_holder(&self, state: &State) -> bool {
        let counted = if self.has(Wrong::EightIgnoresShut) {
            (0..4).collect()
        } else {
            state.open_outputs()
        };
        counted.iter().any(|&o| {
            let same = |&&p: &&usize| state.holder[p] == state.holder[o];
            counted.iter().filter(same).count() > 1
        })
    }
}
