//! Answer records out of which the bytes of a head are taken.

use super::requests::around;
use super::rng::Rng;
use super::spoil::cut;
use super::{captures, texts};
use crate::model::cycle::RECORD;
use crate::model::probe::LONGEST;
use crate::model::text_calls::HeadCall;
use crate::model::RIGHT;

/// No heads, though some look like one in fewer bits.
const NO_HEADS: [u8; 8] = [4, 5, 7, 8, 0x41, 0x80, 0xFE, 0xFF];

/// Zeros before, between and behind the bytes of a head; head 2 shows none.
const ANSWERS: [[u8; RECORD]; 6] = [
    [0x0F, 0x00, 0x31, 0x00, 0x41],
    [0x03, 0x32, 0x00, 0x00, 0x42],
    [0x01, 0x00, 0x2E, 0x00, 0x00],
    [0x02, 0x2C, 0x35, 0x00, 0x43],
    [0x08, 0x00, 0x00, 0x00, 0x44],
    [0x05, 0x33, 0x36, 0x00, 0x00],
];

/// A call with room for just the bytes of the head.
fn call(answers: Vec<u8>, head: u8) -> HeadCall {
    let room = RIGHT.shown(&answers, head.into()).len();
    HeadCall {
        room,
        head,
        answers,
    }
}

/// Calls that every run sends.
pub fn head_edges() -> Vec<HeadCall> {
    let answers = ANSWERS.concat();
    let mut calls = Vec::new();
    for head in (0..4).chain(NO_HEADS) {
        for spare in [0, 3] {
            let call = call(answers.clone(), head);
            let room = call.room + spare;
            calls.push(HeadCall { room, ..call });
        }
    }
    for room in 0..7 {
        calls.extend([1, 3].map(|head| HeadCall {
            room,
            ..call(answers.clone(), head)
        }));
    }
    for lost in 1..=2 * RECORD + 1 {
        let part = &answers[..answers.len() - lost];
        calls.extend([0, 1, 3].map(|head| HeadCall {
            room: 7,
            ..call(part.to_vec(), head)
        }));
    }
    calls.extend(of_lengths());
    calls
}

/// No record, nothing but zeros, and the longest payload and buffer.
fn of_lengths() -> Vec<HeadCall> {
    let most = LONGEST - 5;
    let cases = [
        (2, vec![]),
        (2, vec![0; 3 * RECORD]),
        (2, vec![0x37; RECORD - 1]),
        (0, vec![0x37; most]),
        (LONGEST, vec![0x37; most]),
        (most / RECORD - 1, vec![0x37; most]),
        (LONGEST, vec![]),
    ];
    cases
        .map(|(room, answers)| HeadCall {
            room,
            head: 2,
            answers,
        })
        .into()
}

pub fn random(rng: &mut Rng) -> HeadCall {
    let mut answers = answers(rng);
    if rng.once_in(4) {
        cut(rng, &mut answers);
    }
    let head = match rng.below(10) {
        0 => rng.pick(&NO_HEADS),
        1 => rng.byte(),
        _ => rng.byte() & 3,
    };
    let mut call = call(answers, head);
    call.room = around(rng, call.room);
    call
}

/// What a replay answers, or bytes of any making with more or fewer zeros.
fn answers(rng: &mut Rng) -> Vec<u8> {
    let most = rng.pick(&[3, 12, 60]);
    let records = rng.below(most + 1);
    if rng.once_in(3) {
        let capture = captures::good(rng, records);
        return RIGHT.from_reset(&capture).1;
    }
    let zeros = rng.pick(&[1, 2, 2, 5, 5, 90]);
    let mut answers = texts::text(rng, records * RECORD);
    for byte in &mut answers {
        *byte *= u8::from(!rng.once_in(zeros));
    }
    answers
}
