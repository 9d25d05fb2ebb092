//! The outcomes that a run must see.

use crate::model::probe::Outcome;

/// Who gave an outcome. Words about the requests themselves are counted
/// over all letters together.
#[derive(Clone, Copy, PartialEq, Eq, PartialOrd, Ord)]
pub enum Who {
    Replay,
    Write,
    Readback,
    Letter(u8),
    Requests,
}

const NUMBERS: &[(Who, &[u32])] = &[
    (Who::Replay, &[0, 1, 3, 4]),
    (Who::Letter(b'C'), &[0, 7, 8, 14]),
    (Who::Letter(b'D'), &[0, 7, 8, 14]),
    (Who::Letter(b'R'), &[0, 1, 2, 3, 4, 7, 8, 14]),
    (Who::Letter(b'G'), &[0, 1, 2, 3, 4, 7, 8, 14]),
    (Who::Letter(b'S'), &[0, 7, 8, 9, 14]),
    (Who::Letter(b'T'), &[0, 5, 6, 7, 8]),
    (Who::Letter(b'E'), &[0, 10, 11, 12, 13]),
    (Who::Letter(b'W'), &[0, 20, 21, 22, 23, 24]),
    (Who::Letter(b'K'), &[0]),
    (Who::Letter(b'N'), &[0]),
    (Who::Letter(b'H'), &[0]),
    (Who::Write, &[0, 20, 21, 22, 23]),
    (Who::Readback, &[0, 1, 3, 4, 25]),
];

const WORDS: &[(Who, Outcome)] = &[
    (Who::Requests, Outcome::Malformed),
    (Who::Requests, Outcome::Unknown),
    (Who::Requests, Outcome::TooLong),
    (Who::Requests, Outcome::CutShort),
    (Who::Write, Outcome::CutShort),
];

pub fn outcomes() -> Vec<(Who, Outcome)> {
    let numbers = NUMBERS.iter().flat_map(|&(who, numbers)| {
        numbers
            .iter()
            .map(move |&number| (who, Outcome::Number(number)))
    });
    numbers.chain(WORDS.iter().copied()).collect()
}
