//! What follows for the bytes of a head that are put into a buffer, tried on
//! the model.

use super::claims::{failures, held, Held, Seen};
use super::cycle::RECORD;
use super::text_calls::HeadCall;
use super::{Model, RIGHT};
use crate::make::heads::random;
use crate::make::rng::Rng;

/// A call, what it answered and what it left in the buffer.
pub struct Put {
    call: HeadCall,
    count: usize,
    buffer: Vec<u8>,
}

type Claim = fn(&Put) -> Held;

pub const CLAIMS: [(&str, Claim); 3] = [
    ("head's count", count),
    ("head's bytes", bytes),
    ("head's buffer", behind),
];

const TRIES: usize = 2_000;
const BEFORE: u8 = 0xA5;

impl Put {
    fn made(model: Model, number: usize) -> Put {
        let call = random(&mut Rng::for_work(1, 8, number));
        let mut buffer = vec![BEFORE; call.room];
        let count = model.head_text(&call.answers, call.head.into(), &mut buffer);
        Put {
            call,
            count,
            buffer,
        }
    }

    /// What is shown, record by record.
    fn shown(&self) -> Vec<u8> {
        let column = 1 + usize::from(self.call.head);
        let records = self.call.answers.chunks_exact(RECORD);
        let bytes = records.filter_map(|record| record.get(column).copied());
        bytes.filter(|&byte| byte != 0).collect()
    }

    fn claim(&self, holds: bool, words: &str) -> Held {
        let (head, answers) = (self.call.head, &self.call.answers);
        held(holds, || {
            format!("of head {head} in {answers:02X?}: {words}")
        })
    }
}

fn count(put: &Put) -> Held {
    let due = put.shown().len().min(put.call.room);
    put.claim(put.count == due, "all that has room is put")
}

fn bytes(put: &Put) -> Held {
    let first = put.shown().into_iter().take(put.call.room);
    let good = first.zip(&put.buffer).all(|(due, &byte)| due == byte);
    put.claim(good, "from the first byte on, without zeros")
}

fn behind(put: &Put) -> Held {
    let mut rest = put.buffer.iter().skip(put.shown().len());
    put.claim(rest.all(|&byte| byte == BEFORE), "the rest stays")
}

/// A claim on the call with a number.
pub fn tried(model: Model, claim: Claim, number: usize) -> Held {
    claim(&Put::made(model, number))
}

#[test]
fn heads_are_as_claimed() {
    assert_eq!(failures(&CLAIMS, TRIES, |c, n| tried(RIGHT, c, n)), []);
    let mut seen = Seen::default();
    for number in 0..TRIES {
        let put = Put::made(RIGHT, number);
        let length = put.shown().len();
        seen.count("something shown", length > 0);
        seen.count("no such head", put.call.head > 3);
        seen.count("buffer too short", put.call.room < length);
        seen.count("buffer longer", put.call.room > length);
    }
    seen.enough(4, 100);
}
