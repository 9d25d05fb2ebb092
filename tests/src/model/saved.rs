//! Saving a state into 18 bytes and taking it up again.

use super::state::{rows_from, State};
use super::wrong::Wrong;
use super::{first_refusal, Model};
use std::array::from_fn;

pub const SAVED: usize = 18;

impl Model {
    /// Answers the refusal number; a refused call leaves the buffer alone.
    pub fn save(&self, state: &State, buffer: &mut [u8]) -> u32 {
        let least = SAVED - usize::from(self.has(Wrong::SaveShort));
        let checked = self.check_state(state);
        let mut tests = [(checked, checked != 0), (9, buffer.len() < least)];
        if self.has(Wrong::NineFirst) {
            tests.reverse();
        }
        let number = first_refusal(&tests);
        if number == 0 {
            let bytes = self.saved(state);
            let length = SAVED.min(buffer.len());
            buffer[..length].copy_from_slice(&bytes[..length]);
            if self.has(Wrong::SaveBeyond) && buffer.len() > SAVED {
                buffer[SAVED] = 0;
            }
        }
        number
    }

    /// The 18 bytes of a state whose holders are at most 3.
    pub fn saved(&self, state: &State) -> Vec<u8> {
        let mut word = u16::from(state.waiting) << 15;
        for o in 0..4 {
            word |= u16::from(state.shut[o]) << (11 + o);
            word |= u16::from(state.holder[o]) << self.holder_place(o);
        }
        let mut bytes = word.to_be_bytes().to_vec();
        bytes.extend(state.rows.concat());
        bytes
    }

    fn holder_place(&self, output: usize) -> usize {
        let reversed = self.has(Wrong::HoldersReversed);
        3 + 2 * if reversed { 3 - output } else { output }
    }

    /// The number, and the state taken up or the reset state.
    pub fn take(&self, bytes: &[u8]) -> (u32, State) {
        let mut whole = bytes.to_vec();
        whole.resize(SAVED, 0);
        let state = self.unpacked(&whole);
        let open = state.shut.contains(&false);
        let shared = self.shared_holder(&state) && !self.has(Wrong::TakeEightUnseen);
        let mut tests = [
            (5, bytes.len() != SAVED),
            (6, whole[1] & 7 != 0),
            (7, state.waiting && open),
            (8, shared),
        ];
        if self.has(Wrong::SixFirst) {
            tests.swap(0, 1);
        }
        match first_refusal(&tests) {
            number if number == 0 || self.has(Wrong::TakeKeeps) => (number, state),
            number => (number, State::reset()),
        }
    }

    fn unpacked(&self, bytes: &[u8]) -> State {
        let word = u16::from_be_bytes([bytes[0], bytes[1]]);
        State {
            waiting: word >> 15 == 1,
            shut: from_fn(|o| word >> (11 + o) & 1 == 1),
            holder: from_fn(|o| (word >> self.holder_place(o) & 3) as u8),
            rows: rows_from(&bytes[2..]),
        }
    }
}
