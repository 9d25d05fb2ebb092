//! The requests of the probe: where each begins and ends, and its reply.

use super::state::IMAGE;
use super::wrong::Wrong;
use super::Model;
use std::ops::Range;

pub const LETTERS: &[u8] = b"CDRGSTEWKNH";
pub const LONGEST: usize = 65_536;
pub const MOST_WORDS: usize = 128;
/// A letter and a payload length.
pub const HEADER: usize = 5;
/// A buffer length.
pub const LENGTH: usize = 4;
/// A state image and a buffer length.
pub const STATE_AND_LENGTH: usize = IMAGE + LENGTH;

/// How a request ended; the number is a refusal number, or 0 for done.
#[derive(Clone, Copy, Debug, PartialEq, Eq, PartialOrd, Ord)]
pub enum Outcome {
    Number(u32),
    Malformed,
    Unknown,
    TooLong,
    CutShort,
}

impl Outcome {
    pub fn words(self) -> &'static str {
        match self {
            Outcome::Number(_) => "",
            Outcome::Malformed => "malformed",
            Outcome::Unknown => "unknown",
            Outcome::TooLong => "too long",
            Outcome::CutShort => "cut short",
        }
    }

    fn ends(self) -> bool {
        matches!(self, Outcome::TooLong | Outcome::CutShort)
    }
}

/// One answered request: where it lies in the input, and its line.
pub struct Reply {
    pub request: Range<usize>,
    pub letter: u8,
    pub outcome: Outcome,
    pub line: String,
}

/// What a letter's own work gives.
pub type Line = (Outcome, String);

pub fn plain(outcome: Outcome) -> Line {
    (outcome, String::from(outcome.words()))
}

pub fn number(bytes: &[u8]) -> u64 {
    bytes.iter().fold(0, |sum, &b| sum << 8 | u64::from(b))
}

impl Model {
    /// All replies to an input, up to the one that ends the program.
    pub fn replies(&self, input: &[u8]) -> Vec<Reply> {
        let mut replies = Vec::new();
        let mut at = 0;
        while at < input.len() {
            let (used, (outcome, line)) = self.reply(&input[at..]);
            let request = at..at + used;
            at = request.end;
            let unsaid = outcome == Outcome::CutShort && self.has(Wrong::CutUnsaid);
            if !unsaid {
                replies.push(Reply {
                    letter: input[request.start],
                    request,
                    outcome,
                    line,
                });
            }
            if outcome.ends() && !self.has(Wrong::GoesOn) {
                break;
            }
        }
        replies
    }

    /// The bytes that the first request takes, and its line.
    fn reply(&self, input: &[u8]) -> (usize, Line) {
        if input.len() < HEADER {
            return (input.len(), plain(Outcome::CutShort));
        }
        let (header, rest) = input.split_at(HEADER);
        let length = number(&header[1..]) as usize;
        let known = LETTERS.contains(&header[0]);
        if length > self.longest() {
            (HEADER, plain(Outcome::TooLong))
        } else if !known && self.has(Wrong::UnknownBeforeCut) {
            (input.len().min(HEADER + length), plain(Outcome::Unknown))
        } else if length > rest.len() {
            (input.len(), plain(Outcome::CutShort))
        } else {
            (HEADER + length, self.answer_to(header[0], &rest[..length]))
        }
    }

    pub fn longest(&self) -> usize {
        LONGEST - usize::from(self.has(Wrong::LowLongest))
    }
}
