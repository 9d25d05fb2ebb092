//! Texts of numerals and other bytes, and mistakes in them.

use super::rng::Rng;
use crate::model::text_calls::Pair;

const DIGITS: &[u8] = b"0123456789";
const SIGNS: &[u8] = b".,";
pub const NUMERALS: &[u8] = b"0123456789.,";
/// Next to the numerals, and yet none.
const BESIDE: &[u8] = &[0x2B, 0x2D, 0x2F, 0x3A];

fn other(rng: &mut Rng) -> u8 {
    let (beside, high, any) = (rng.pick(BESIDE), rng.byte() | 0x80, rng.byte());
    rng.pick(&[b'm', b'g', b' ', beside, beside, 0, high, any])
}

/// A text of a length: runs of numerals, and other bytes between them.
pub fn text(rng: &mut Rng, length: usize) -> Vec<u8> {
    let longest = rng.pick(&[1, 3, 8, 40]);
    let mut text = Vec::new();
    while text.len() < length {
        let numerals = rng.once_in(2);
        for _ in 0..rng.from_to(1, longest) {
            text.push(match numerals {
                true => rng.pick(NUMERALS),
                false => other(rng),
            });
        }
    }
    text.truncate(length);
    text
}

/// One mistake. A text without a byte that it could hit stays as it is.
pub fn damage(rng: &mut Rng, bytes: &mut Vec<u8>) {
    let place = rng.below(bytes.len() + 1);
    let others = [other(rng)];
    match rng.below(9) {
        0 => hit(rng, bytes, DIGITS, DIGITS),
        1 => hit(rng, bytes, SIGNS, SIGNS),
        2 => hit(rng, bytes, SIGNS, &[]),
        3 => hit(rng, bytes, NUMERALS, &others),
        4 => bytes.insert(place, rng.pick(SIGNS)),
        5 => bytes.insert(place, rng.pick(DIGITS)),
        6 => bytes.insert(place, others[0]),
        7 => bytes.truncate(place),
        _ => {
            let more = rng.from_to(1, 9);
            bytes.extend(text(rng, more));
        }
    }
}

/// Some byte of these gives way to one of those, or to none if there is none.
fn hit(rng: &mut Rng, bytes: &mut Vec<u8>, these: &[u8], those: &[u8]) {
    let places: Vec<usize> = (0..bytes.len())
        .filter(|&k| these.contains(&bytes[k]))
        .collect();
    if places.is_empty() {
        return;
    }
    let place = rng.pick(&places);
    let new = (!those.is_empty()).then(|| rng.pick(those));
    bytes.splice(place..=place, new).for_each(drop);
}

fn length(rng: &mut Rng) -> usize {
    let (few, any) = (rng.from_to(2, 12), rng.from_to(2, 64));
    match rng.below(40) {
        0 => rng.from_to(254, 1_000),
        1..=3 => rng.below(2),
        4..=9 => any,
        _ => few,
    }
}

/// Two texts that differ by a mistake, seldom by two or by all, or in nothing.
pub fn pair(rng: &mut Rng) -> Pair {
    let (one, other) = (length(rng), length(rng));
    let due = text(rng, one);
    let mut shown = match rng.below(12) {
        0 => text(rng, other),
        _ => due.clone(),
    };
    for _ in 0..rng.pick(&[0, 1, 1, 1, 1, 1, 1, 2]) {
        damage(rng, &mut shown);
    }
    if rng.once_in(2) {
        Pair::new(&shown, &due)
    } else {
        Pair::new(&due, &shown)
    }
}

/// A table of every byte, around a digit that differs and in the place of one.
pub const BYTES: usize = 2 * 256;

pub fn of_byte(rng: &mut Rng, number: usize) -> Pair {
    let byte = (number / 2) as u8;
    let (digit, another) = (rng.pick(b"01234"), rng.pick(b"56789"));
    if number % 2 == 0 {
        Pair::new(&[byte, digit, byte], &[byte, another, byte])
    } else {
        let not_it = byte ^ 1 << rng.below(8);
        Pair::new(&[digit, byte, digit], &[digit, not_it, digit])
    }
}
