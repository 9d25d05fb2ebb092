//! Inputs of write_frame: the fixed ones at the edges first, then random
//! ones.

use super::order_edges::order_edges;
use super::orders::{bad, good};
use super::rng::Rng;
use crate::model::orders::Order;

/// A small order with two cells, and in how many places it can be cut.
const SMALL: [u8; 13] = [1, 0, 9, 5, 0, 2, 0x0D, 0x40, 0x41, 0, 1, 0x07, 0x42];
const CUTS: usize = SMALL.len() - 1;

/// Numbers of frames before the one that ends an input: where the printed
/// number has more digits, or would not fit in a byte. The last is more than
/// a pipe holds at once.
const FRAMES: [usize; 7] = [6, 9, 10, 100, 255, 256, 10_000];

/// The input with a number: the same for the same seed.
pub fn input(rng: &mut Rng, number: usize) -> Vec<u8> {
    let edges = order_edges(rng);
    let cuts = edges.len() + 1;
    let counts = cuts + 2 * CUTS;
    let randoms = counts + 4 * FRAMES.len();
    match number {
        0 => Vec::new(),
        _ if number < cuts => around(rng, &edges[number - 1]),
        _ if number < counts => cut_small(rng, number - cuts),
        _ if number < randoms => counted(rng, number - counts),
        _ => random(rng),
    }
}

/// An order with others before and behind it, for what is refused must leave
/// those before it and end those behind it.
fn around(rng: &mut Rng, order: &Order) -> Vec<u8> {
    let (before, behind) = (rng.below(4), rng.below(3));
    let mut bytes = goods(rng, before);
    bytes.extend(order.to_bytes());
    bytes.extend(goods(rng, behind));
    bytes
}

fn goods(rng: &mut Rng, times: usize) -> Vec<u8> {
    (0..times).flat_map(|_| good(rng).to_bytes()).collect()
}

/// A cut order is neither done nor refused, though its gap be 0.
fn cut_small(rng: &mut Rng, number: usize) -> Vec<u8> {
    let mut bytes = goods(rng, number % 3);
    let mut small = SMALL;
    small[0] = (number / CUTS) as u8;
    bytes.extend(&small[..number % CUTS + 1]);
    bytes
}

/// Many small frames, and then an end, a cut order or a refused one; or the
/// refused one before them all.
fn counted(rng: &mut Rng, number: usize) -> Vec<u8> {
    let frames = SMALL.repeat(FRAMES[number / 4]);
    let refused = bad(rng).to_bytes();
    match number % 4 {
        0 => frames,
        1 => [&frames[..], &SMALL[..1]].concat(),
        2 => [frames, refused].concat(),
        _ => [refused, frames].concat(),
    }
}

fn random(rng: &mut Rng) -> Vec<u8> {
    let orders = rng.below(7);
    let mut bytes = Vec::new();
    for _ in 0..orders {
        let order = if rng.once_in(6) { bad(rng) } else { good(rng) };
        bytes.extend(order.to_bytes());
    }
    if rng.once_in(4) {
        bytes.truncate(rng.below(bytes.len() + 1));
    }
    bytes
}
