//! Batches of requests, each the whole input of one run of the probe.

use super::edges::edges;
use super::frame_edges::{frame_edges, long_buffer};
use super::requests::{header, lending, random, too_much, unknown_letter, Request};
use super::rng::Rng;
use super::states;
use super::text_edges::{compare, text_edges};
use super::texts::{of_byte, BYTES};
use super::turns::{turn, TURNS};
use crate::model::probe::LETTERS;

const BATCH: usize = 300;
/// Chosen so that a run of the default size goes through both whole tables.
const TURNS_IN_BATCH: usize = 29;
const BYTES_IN_BATCH: usize = 6;

/// One batch more than the calls need: the last is an empty input.
pub fn batches(calls: usize) -> usize {
    (calls + BATCH - 1) / BATCH + 1
}

/// The batch with a number: the same for the same seed and number of calls.
pub fn batch(rng: &mut Rng, number: usize, calls: usize) -> Vec<u8> {
    let wanted = calls.saturating_sub(number * BATCH).min(BATCH);
    if wanted == 0 {
        return Vec::new();
    }
    let mut requests = match number {
        0 => edges(rng),
        1 => frame_edges(rng),
        2 => text_edges(rng),
        _ => Vec::new(),
    };
    for place in 0..TURNS_IN_BATCH {
        requests.push(turn(rng, (number * TURNS_IN_BATCH + place) % TURNS));
    }
    for place in 0..BYTES_IN_BATCH {
        let pair = of_byte(rng, (number * BYTES_IN_BATCH + place) % BYTES);
        requests.push(compare(&pair));
    }
    while requests.len() < wanted {
        requests.push(random(rng));
    }
    let mut input: Vec<u8> = requests[..wanted]
        .iter()
        .flat_map(Request::to_bytes)
        .collect();
    input.extend(tail(rng, number));
    input
}

/// The end of an input: clean, too long, or cut short. What follows a
/// request that is too long must not be answered.
fn tail(rng: &mut Rng, number: usize) -> Vec<u8> {
    let letter = rng.pick(LETTERS);
    match number % 11 {
        1 => {
            let long = header(letter, too_much(rng));
            followed(rng, long)
        }
        2 => header(unknown_letter(rng), too_much(rng)),
        3 => {
            let letter = rng.pick(b"RGS");
            let rest = if letter == b'S' { 0 } else { rng.below(20) };
            let (image, room) = (states::image(rng), too_much(rng));
            let payload = lending(image, room, &rng.bytes(rest));
            followed(rng, Request::new(letter, payload).to_bytes())
        }
        4 => header(letter, 0)[..rng.from_to(1, 4)].to_vec(),
        5 => cut_payload(rng, letter),
        6 => {
            let letter = unknown_letter(rng);
            cut_payload(rng, letter)
        }
        7 => header(letter, rng.from_to(1, 40)),
        8 => long_then_more(rng, b'W'),
        9 => long_then_more(rng, b'K'),
        10 => long_then_more(rng, b'H'),
        _ => Vec::new(),
    }
}

fn long_then_more(rng: &mut Rng, letter: u8) -> Vec<u8> {
    let long = long_buffer(rng, letter);
    followed(rng, long.to_bytes())
}

fn followed(rng: &mut Rng, mut bytes: Vec<u8>) -> Vec<u8> {
    for _ in 0..rng.from_to(1, 4) {
        bytes.extend(random(rng).to_bytes());
    }
    bytes
}

fn cut_payload(rng: &mut Rng, letter: u8) -> Vec<u8> {
    let length = rng.from_to(2, 60);
    let mut bytes = header(letter, length);
    let kept = rng.from_to(1, length - 1);
    bytes.extend(vec![0; kept]);
    bytes
}

#[cfg(test)]
mod tests {
    use super::*;

    /// What does not fit into its batch would be left out unseen.
    #[test]
    fn fixed_requests_fit() {
        let mut rng = Rng::for_work(1, 1, 1);
        let all = [edges(&mut rng), frame_edges(&mut rng), text_edges(&mut rng)];
        for fixed in all {
            assert!(fixed.len() + TURNS_IN_BATCH + BYTES_IN_BATCH <= BATCH);
        }
    }

    #[test]
    fn tables_are_gone_through() {
        let batches = crate::drive::options::CALLS / BATCH;
        assert!(batches * TURNS_IN_BATCH >= TURNS);
        assert!(batches * BYTES_IN_BATCH >= BYTES);
    }
}
