//! Inputs of readback: the fixed ones at the edges first, then random ones.

use super::orders::good;
use super::readback_edges::{cut, long, wide, CUTS, LONGS, WIDES};
use super::readback_hands::{by_hand, HANDS};
use super::rng::Rng;
use super::spoil::{self, some_bad_bits};
use super::texts::{damage, text};
use super::{captures, cells};
use crate::model::orders::Order;
use crate::model::readback::HEADS;
use crate::model::RIGHT;

/// A text has its length in a byte.
pub const LONGEST_TEXT: usize = 255;
/// Enough for all the fixed captures.
const CAPTURES: usize = 64;

/// Inputs of one kind: how many, and the one with a number.
type Part = (usize, fn(&mut Rng, usize) -> Vec<u8>);

const PARTS: [Part; 5] = [
    (CUTS, cut),
    (HANDS, by_hand),
    (CAPTURES, captured),
    (WIDES, wide),
    (LONGS, long),
];

/// The input with a number: the same for the same seed.
pub fn readback(rng: &mut Rng, number: usize) -> Vec<u8> {
    let mut number = number;
    for (count, make) in PARTS {
        if number < count {
            return make(rng, number);
        }
        number -= count;
    }
    random(rng)
}

pub fn input(due: &[impl AsRef<[u8]>], capture: &[u8]) -> Vec<u8> {
    let mut bytes = Vec::new();
    for text in due.iter().map(AsRef::as_ref) {
        bytes.push(text.len() as u8);
        bytes.extend(text);
    }
    bytes.extend(capture);
    bytes
}

/// What the heads show, as far as it can be due; nothing if the capture is
/// refused.
pub fn shown(capture: &[u8]) -> Vec<Vec<u8>> {
    let (_, answers) = RIGHT.from_reset(capture);
    let head = |head| {
        let mut text = RIGHT.shown(&answers, head);
        text.truncate(LONGEST_TEXT);
        text
    };
    (0..HEADS).map(head).collect()
}

/// The texts as shown, some of them with mistakes, or others altogether.
fn texts(rng: &mut Rng, capture: &[u8]) -> Vec<Vec<u8>> {
    let mut due = shown(capture);
    for text in &mut due {
        mistake(rng, text);
    }
    due
}

fn mistake(rng: &mut Rng, due: &mut Vec<u8>) {
    let any = rng.below(LONGEST_TEXT + 1);
    match rng.below(12) {
        0..=3 => (),
        4 => *due = text(rng, any),
        5 => *due = text(rng, LONGEST_TEXT),
        _ => damage(rng, due),
    }
    due.truncate(LONGEST_TEXT);
}

fn captured(rng: &mut Rng, number: usize) -> Vec<u8> {
    let capture = captures::capture(rng, number);
    let due = texts(rng, &capture);
    input(&due, &capture)
}

fn random(rng: &mut Rng) -> Vec<u8> {
    let (due, capture) = due_and_capture(rng);
    let mut bytes = input(&due, &capture);
    if rng.once_in(16) {
        let front = bytes.len() - capture.len();
        bytes.truncate(rng.below(front + 1));
    }
    bytes
}

/// The texts are those of a capture before it is spoiled.
pub fn due_and_capture(rng: &mut Rng) -> (Vec<Vec<u8>>, Vec<u8>) {
    let mut capture = match rng.below(8) {
        0 => captures::random(rng),
        _ => written(rng),
    };
    let due = texts(rng, &capture);
    match rng.below(24) {
        0 | 1 => some_bad_bits(rng, &mut capture),
        2 => spoil::cut(rng, &mut capture),
        _ => (),
    }
    (due, capture)
}

/// Frames whose bodies are texts, and no cell in the last, so that all the
/// others are shown whole.
fn written(rng: &mut Rng) -> Vec<u8> {
    let mut orders: Vec<Order> = (0..rng.from_to(1, 4)).map(|_| good(rng)).collect();
    for cell in orders.iter_mut().flat_map(|o| &mut o.cells).flatten() {
        cell.body = text(rng, cell.body.len());
        // Numerals have this bit, and no body may end in zero.
        if let Some(last) = cell.body.last_mut() {
            *last |= 0x20;
        }
    }
    orders.push(Order {
        gap: 1,
        length: rng.from_to(3, 6),
        acks: 0,
        cells: Default::default(),
    });
    orders.iter().flat_map(cells::written).collect()
}
