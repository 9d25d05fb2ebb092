//! How often each case of orders, cells and texts was seen.

use super::cases::{of_order, Case, DONE, ENDS, LONE, MIXED, ROOMS};
use super::cell_cases::{of_call, Worded, FOUND, NONE, WORDED};
use super::head_cases::{self, of_head, SHOWN};
use super::readback_cases::{self, of_readback, CUT, REFUSED};
use super::text_cases::{of_pair, BYTES, LONG, MISFITS, PIECES, SAME, WAYS};
use super::wanted::Who;
use crate::model::frame_calls::ReadCall;
use crate::model::probe::{Outcome, Reply};
use crate::model::readback::Readback;
use crate::model::text_calls::{HeadCall, Pair};
use crate::model::written::Written;
use crate::model::RIGHT;
use std::collections::BTreeMap;

const WRITER: Who = Who::Letter(b'W');
const READER: Who = Who::Letter(b'K');
const PAIRS: Who = Who::Letter(b'N');
const HEADS: Who = Who::Letter(b'H');

#[derive(Default)]
pub struct CaseTally(BTreeMap<(Who, &'static str), usize>);

impl CaseTally {
    fn look<T>(&mut self, who: Who, cases: &[Case<T>], thing: &T) {
        for (name, test) in cases {
            *self.0.entry((who, name)).or_default() += usize::from(test(thing));
        }
    }

    /// An order whose buffer is too short is no case of a good order.
    pub fn reply(&mut self, reply: &Reply, payload: &[u8]) {
        match (reply.letter, reply.outcome) {
            (b'W', Outcome::Number(number)) => {
                let call = RIGHT.write_call(payload).expect("it was answered");
                self.look(WRITER, ROOMS, &call);
                if number != 24 {
                    self.look(WRITER, of_order(&call.order), &call.order);
                }
            }
            (b'K', Outcome::Number(_)) => {
                let call = ReadCall::from_payload(payload).expect("it was answered");
                self.look(READER, of_call(&call), &call);
            }
            (b'N', Outcome::Number(_)) => {
                self.pair(PAIRS, &RIGHT.pair(payload).expect("it was answered"));
            }
            (b'H', Outcome::Number(_)) => {
                let call = HeadCall::from_payload(payload).expect("it was answered");
                self.look(HEADS, of_head(&call), &call);
            }
            (letter, outcome) => {
                let payload = payload.to_vec();
                let worded = Worded { payload, outcome };
                let cases = if letter == b'N' { MISFITS } else { WORDED };
                self.look(Who::Letter(letter), cases, &worded);
            }
        }
    }

    fn pair(&mut self, who: Who, pair: &Pair) {
        for cases in of_pair(pair) {
            self.look(who, cases, pair);
        }
    }

    pub fn readback(&mut self, readback: &Readback) {
        self.look(Who::Readback, of_readback(readback), readback);
        for pair in &readback.heads {
            self.pair(Who::Readback, pair);
        }
    }

    pub fn written(&mut self, written: &Written) {
        self.look(Who::Write, ENDS, written);
        for order in &written.orders {
            self.look(Who::Write, of_order(order), order);
        }
    }

    pub fn merge(&mut self, other: CaseTally) {
        for (case, times) in other.0 {
            *self.0.entry(case).or_default() += times;
        }
    }

    /// The cases of all that a run must see.
    pub fn wanted() -> Vec<(Who, &'static str)> {
        [
            names(WRITER, DONE),
            names(WRITER, LONE),
            names(WRITER, MIXED),
            names(WRITER, ROOMS),
            names(WRITER, WORDED),
            names(READER, FOUND),
            names(READER, NONE),
            names(READER, WORDED),
            names(Who::Write, DONE),
            names(Who::Write, LONE),
            names(Who::Write, MIXED),
            names(Who::Write, ENDS),
            texts(PAIRS),
            names(PAIRS, LONG),
            names(PAIRS, MISFITS),
            names(HEADS, SHOWN),
            names(HEADS, head_cases::NONE),
            names(HEADS, WORDED),
            names(Who::Readback, CUT),
            names(Who::Readback, REFUSED),
            names(Who::Readback, readback_cases::DONE),
            texts(Who::Readback),
        ]
        .concat()
    }

    /// Who gave the cases, and how often each of them was seen.
    pub fn told(&self) -> Vec<(Who, String)> {
        let whose = |who| {
            let own = Self::wanted().into_iter().filter(|case| case.0 == who);
            let items: Vec<String> = own
                .map(|case| format!("{} x {}", case.1, self.times(case)))
                .collect();
            (who, items.join(", "))
        };
        let all = [WRITER, READER, Who::Write, PAIRS, HEADS, Who::Readback];
        all.map(whose).into()
    }

    pub fn times(&self, case: (Who, &'static str)) -> usize {
        self.0.get(&case).copied().unwrap_or(0)
    }
}

fn names<T>(who: Who, cases: &[Case<T>]) -> Vec<(Who, &'static str)> {
    cases.iter().map(|(name, _)| (who, *name)).collect()
}

/// The cases of two texts, wherever they come from.
fn texts(who: Who) -> Vec<(Who, &'static str)> {
    [SAME, WAYS, PIECES, BYTES]
        .map(|cases| names(who, cases))
        .concat()
}
