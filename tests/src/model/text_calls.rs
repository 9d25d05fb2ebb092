//! The letters N and H of the probe: their payloads, and the lines printed.

use super::probe::{number, Line, Outcome, LENGTH};
use super::wrong::Wrong;
use super::Model;

/// A buffer length and the number of a head.
const LENGTH_AND_HEAD: usize = LENGTH + 1;

/// N: the text due, and the text shown.
#[derive(Clone, Debug, PartialEq, Eq)]
pub struct Pair {
    pub due: Vec<u8>,
    pub shown: Vec<u8>,
}

impl Pair {
    pub fn new(due: &[u8], shown: &[u8]) -> Pair {
        let (due, shown) = (due.to_vec(), shown.to_vec());
        Pair { due, shown }
    }

    pub fn payload(&self) -> Vec<u8> {
        let length = (self.due.len() as u32).to_be_bytes();
        [&length[..], &self.due, &self.shown].concat()
    }
}

/// H: what a head shows, to be put into a lent buffer.
#[derive(Clone)]
pub struct HeadCall {
    pub room: usize,
    pub head: u8,
    pub answers: Vec<u8>,
}

impl HeadCall {
    pub fn from_payload(payload: &[u8]) -> Option<HeadCall> {
        let answers = payload.get(LENGTH_AND_HEAD..)?.to_vec();
        let (room, head) = (number(&payload[..LENGTH]) as usize, payload[LENGTH]);
        Some(HeadCall {
            room,
            head,
            answers,
        })
    }

    pub fn payload(&self) -> Vec<u8> {
        let room = (self.room as u32).to_be_bytes();
        [&room[..], &[self.head], &self.answers].concat()
    }
}

impl Model {
    /// None if the bytes end inside the text due.
    pub fn pair(&self, payload: &[u8]) -> Option<Pair> {
        let texts = payload.get(LENGTH..)?;
        let mut length = payload[..LENGTH].to_vec();
        if self.has(Wrong::PairLowFirst) {
            length.reverse();
        }
        let (due, shown) = match number(&length) as usize {
            fits if fits <= texts.len() => texts.split_at(fits),
            _ if self.has(Wrong::PairCutTaken) => (texts, &[][..]),
            _ => return None,
        };
        Some(Pair::new(due, shown))
    }

    /// That nothing differs is no refusal, so this is always done.
    pub fn parted(&self, payload: &[u8]) -> Line {
        let Pair { due, shown } = self.pair(payload).expect("a payload that fits");
        let mut line = self.told(&due, &shown);
        if line == "same" && !self.has(Wrong::SameBare) {
            line.push_str(" -");
        }
        (Outcome::Number(0), line)
    }

    pub fn put_head(&self, payload: &[u8], buffer: &mut [u8]) -> Line {
        let call = HeadCall::from_payload(payload).expect("a payload that fits");
        let count = self.head_text(&call.answers, call.head.into(), buffer);
        (Outcome::Number(0), self.lent(count as u32, buffer))
    }
}
