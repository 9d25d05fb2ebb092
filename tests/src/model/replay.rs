//! Replay of a capture into a lent buffer.

use super::cycle::{Inputs, RECORD};
use super::state::State;
use super::wrong::Wrong;
use super::{first_refusal, Model, Verdict, DONE};

pub const LIMIT: usize = 12_288;

impl Model {
    /// The verdict on a capture from reset, and the answers to it.
    pub fn from_reset(&self, capture: &[u8]) -> (Verdict, Vec<u8>) {
        let capture = if self.has(Wrong::ShortLength) {
            &capture[..capture.len() % 65_536]
        } else {
            capture
        };
        let mut answers = vec![0; capture.len()];
        let (verdict, _) = self.replay(&State::reset(), capture, &mut answers);
        (verdict, answers)
    }

    /// The verdict and the state afterwards; the buffer is written only if
    /// the replay is done, and then only as far as the capture is long.
    pub fn replay(&self, state: &State, capture: &[u8], buffer: &mut [u8]) -> (Verdict, State) {
        let verdict = self.check(state, capture, buffer.len());
        let length = capture.len().min(buffer.len());
        if verdict.number != 0 {
            if self.has(Wrong::PartialWrite) && verdict.number == 3 {
                buffer[..length].fill(0);
            }
            let kept = !self.has(Wrong::RefusedReset);
            return (verdict, if kept { state.clone() } else { State::reset() });
        }
        let (end, answers) = self.run(state, capture);
        buffer[..length].copy_from_slice(&answers);
        if self.has(Wrong::BeyondAnswer) {
            buffer[length..].iter_mut().take(1).for_each(|b| *b = 0);
        }
        (DONE, end)
    }

    /// The state's refusals go before the capture's.
    fn check(&self, state: &State, capture: &[u8], room: usize) -> Verdict {
        let number = self.check_state(state);
        let found = self.check_capture(capture, room);
        let capture_first = self.has(Wrong::CaptureBeforeState) && found.number != 0;
        if number == 0 || capture_first {
            found
        } else {
            Verdict { number, index: 0 }
        }
    }

    fn check_capture(&self, capture: &[u8], room: usize) -> Verdict {
        let bad = self.bad_record(capture);
        let mut tests = [
            (1, capture.len() % RECORD != 0),
            (4, capture.len() / RECORD > self.limit()),
            (2, room < capture.len()),
            (3, bad.is_some()),
        ];
        if self.has(Wrong::FourBeforeOne) {
            tests.swap(0, 1);
        }
        if self.has(Wrong::TwoBeforeFour) {
            tests.swap(1, 2);
        }
        if self.has(Wrong::ThreeBeforeFour) {
            tests.swap(1, 3);
        }
        if self.has(Wrong::ThreeBeforeTwo) {
            tests.swap(2, 3);
        }
        match first_refusal(&tests) {
            3 => Verdict {
                number: 3,
                index: bad.unwrap_or(0) + usize::from(self.has(Wrong::IndexPlusOne)),
            },
            number => Verdict { number, index: 0 },
        }
    }

    fn limit(&self) -> usize {
        LIMIT + usize::from(self.has(Wrong::LimitHigh)) - usize::from(self.has(Wrong::LimitLow))
    }

    fn bad_record(&self, capture: &[u8]) -> Option<usize> {
        let mask = if self.has(Wrong::BitFourUnseen) {
            0x60
        } else {
            0x70
        };
        let mut records = capture.chunks(RECORD);
        if self.has(Wrong::LastIndex) {
            let all: Vec<&[u8]> = records.collect();
            return all.iter().rposition(|record| record[0] & mask != 0);
        }
        records.position(|record| record[0] & mask != 0)
    }

    /// The cycles themselves, on a capture already found good.
    fn run(&self, state: &State, capture: &[u8]) -> (State, Vec<u8>) {
        let mut state = state.clone();
        let mut answers = Vec::with_capacity(capture.len());
        let mut late = 0;
        for record in capture.chunks(RECORD) {
            let cycle = self.cycle(&state, &Inputs::from_record(record));
            let mut answer = cycle.answer.to_record();
            if self.has(Wrong::AckLate) {
                std::mem::swap(&mut answer[0], &mut late);
            }
            answers.extend(answer);
            state = cycle.next;
        }
        (state, answers)
    }
}
