//! Requests that every run sends: the lengths at which an answer changes.

use super::captures::sized;
use super::requests::{lending, too_much, unknown_letter, Request};
use super::rng::Rng;
use super::spoil::bad_bits;
use super::{states, words};
use crate::model::cycle::RECORD;
use crate::model::gates::NETS;
use crate::model::probe::{LETTERS, LONGEST, STATE_AND_LENGTH};
use crate::model::replay::LIMIT;
use crate::model::state::State;

const FULL: usize = LIMIT * RECORD;

pub fn edges(rng: &mut Rng) -> Vec<Request> {
    let mut requests = lengths();
    requests.extend(long_ones(rng));
    requests.extend(replays(rng));
    requests.extend(saves(rng));
    requests.extend(blocks(rng));
    requests
}

/// Each letter with the lengths around those it wants.
fn lengths() -> Vec<Request> {
    let around = [0, 15, 16, 17, 18, 19, 20, 28, 29, 30, 31, 32, 528, 532];
    let pairs = LETTERS
        .iter()
        .flat_map(|&letter| around.map(|length| (letter, length)));
    pairs
        .map(|(letter, length)| Request::new(letter, vec![0; length]))
        .collect()
}

/// The longest payloads and buffers that are not too long, and a malformed
/// one whose buffer would be.
fn long_ones(rng: &mut Rng) -> Vec<Request> {
    let image = State::reset().to_image();
    let mut long_save = lending(image.clone(), too_much(rng), &[]);
    long_save.push(0);
    let most = LONGEST - STATE_AND_LENGTH;
    let mut requests = vec![
        Request::new(unknown_letter(rng), vec![0; LONGEST]),
        Request::new(b'T', vec![0; LONGEST]),
        Request::new(b'E', vec![0; LONGEST]),
        Request::new(b'S', lending(image.clone(), LONGEST, &[])),
        Request::new(b'S', long_save),
    ];
    for letter in *b"RG" {
        let whole = lending(image.clone(), LONGEST, &sized(rng, most));
        requests.push(Request::new(letter, lending(image.clone(), LONGEST, &[])));
        requests.push(Request::new(letter, lending(image.clone(), 0, &[])));
        requests.push(Request::new(letter, whole));
    }
    requests
}

/// Around the limit; then two reasons at a time, so that the order shows.
fn replays(rng: &mut Rng) -> Vec<Request> {
    let cases = [
        (FULL - RECORD, FULL - RECORD, false),
        (FULL, FULL, false),
        (FULL, FULL + 1, false),
        (FULL, FULL - 1, false),
        (FULL, FULL, true),
        (FULL - 1, FULL - 1, false),
        (FULL + 1, FULL + 1, false),
        (FULL + RECORD, FULL + RECORD, false),
        (FULL + RECORD, FULL + RECORD, true),
        (FULL + RECORD, FULL + RECORD - 1, false),
        (FULL + RECORD + 1, FULL + RECORD, true),
        (15, 14, true),
        (14, 13, false),
        (14, 14, true),
        (15, 15, true),
    ];
    let mut requests = Vec::new();
    for letter in *b"RG" {
        for (length, room, bad) in cases {
            let mut capture = sized(rng, length);
            if bad {
                bad_bits(rng, &mut capture, length / RECORD - 1);
            }
            let payload = lending(states::good_image(rng), room, &capture);
            requests.push(Request::new(letter, payload));
        }
    }
    requests
}

fn saves(rng: &mut Rng) -> Vec<Request> {
    [0, 17, 18, 19, 40]
        .map(|room| Request::new(b'S', lending(states::good_image(rng), room, &[])))
        .into()
}

/// Every gate; the most nets and one more for each count; wrong counts.
fn blocks(rng: &mut Rng) -> Vec<Request> {
    let mut blocks: Vec<words::Block> = (0..16).map(words::every_gate).collect();
    for count in 1..=8 {
        for length in [1, NETS - count, NETS + 1 - count] {
            blocks.push(words::good(rng, count, length));
        }
    }
    for &count in words::WRONG_COUNTS {
        let mut block = words::good(rng, 2, 3);
        block.count = count;
        blocks.push(block);
    }
    let payloads = blocks.iter().map(words::Block::payload);
    payloads
        .map(|payload| Request::new(b'E', payload))
        .collect()
}
