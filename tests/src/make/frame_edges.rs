//! Requests for the writer and the reader that every run sends.

use super::cells::{cell_edges, random};
use super::heads;
use super::order_edges::order_edges;
use super::orders::good;
use super::requests::{too_much, Request};
use super::rng::Rng;
use super::text_edges::show;
use crate::model::frame_calls::{ReadCall, WriteCall};
use crate::model::orders::Order;
use crate::model::probe::LONGEST;
use crate::model::text_calls::HeadCall;

pub fn frame_edges(rng: &mut Rng) -> Vec<Request> {
    let mut requests = lengths();
    requests.extend(misfits(rng));
    requests.extend(order_edges(rng).into_iter().map(exact));
    requests.extend(rooms(rng));
    let cells = cell_edges();
    requests.extend(cells.iter().map(read));
    requests
}

fn write(room: usize, order: Order) -> Request {
    Request::new(b'W', WriteCall { room, order }.payload())
}

fn exact(order: Order) -> Request {
    write(order.size(), order)
}

fn read(call: &ReadCall) -> Request {
    Request::new(b'K', call.payload())
}

/// Zeros of the lengths around those wanted; 12 zeros hold an order.
fn lengths() -> Vec<Request> {
    let around = [3, 4, 5, 7, 8, 9, 11, 12, 13, LONGEST];
    let pairs = around
        .iter()
        .flat_map(|&length| [(b'W', length), (b'K', length)]);
    pairs
        .map(|(letter, length)| Request::new(letter, vec![0; length]))
        .collect()
}

/// Malformed, though the buffer would be too long: no order or one that is
/// cut or has something behind it, and no input.
fn misfits(rng: &mut Rng) -> Vec<Request> {
    let long = long_buffer(rng, b'W').payload;
    let longer = [&long[..], &[0]].concat();
    let cut = long[..long.len() - 1].to_vec();
    [longer, cut, long[..5].to_vec(), long[..4].to_vec()]
        .map(|payload| Request::new(b'W', payload))
        .into_iter()
        .chain([Request::new(b'K', vec![0xFF; 7])])
        .collect()
}

/// A good request but for its buffer, which is too long.
pub fn long_buffer(rng: &mut Rng, letter: u8) -> Request {
    let room = too_much(rng);
    match letter {
        b'W' => write(room, good(rng)),
        b'K' => read(&ReadCall {
            room,
            ..random(rng)
        }),
        _ => show(&HeadCall {
            room,
            ..heads::random(rng)
        }),
    }
}

/// Buffers around what a frame needs; then none at all, also for orders with
/// another reason to be refused.
fn rooms(rng: &mut Rng) -> Vec<Request> {
    let mut requests = Vec::new();
    let mut order = good(rng);
    order.length = order.length.min(100);
    let size = order.size();
    for room in [0, 1, size - 5, size - 1, size, size + 1, size + 5, LONGEST] {
        requests.push(write(room, order.clone()));
    }
    let some = order_edges(rng).into_iter().step_by(4);
    requests.extend(some.map(|order| write(0, order)));
    requests
}
