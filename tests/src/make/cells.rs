//! Frames for the reader: written ones, and records of any making.

use super::captures;
use super::orders::good;
use super::requests::around;
use super::rng::Rng;
use super::spoil::cut;
use crate::model::cycle::RECORD;
use crate::model::frame_calls::ReadCall;
use crate::model::orders::{Cell, Order};
use crate::model::probe::LONGEST;
use crate::model::RIGHT;

/// No inputs, though some look like one in fewer bits.
const NO_INPUTS: [usize; 7] = [4, 5, 7, 0x100, 0x1_0001, 0x8000_0002, 0xFFFF_FFFF];

/// A call with room for the cell, as many bytes as it has.
fn call(frame: Vec<u8>, input: usize) -> ReadCall {
    let room = RIGHT.read_cell(&frame, input, &mut []);
    ReadCall { room, input, frame }
}

pub fn written(order: &Order) -> Vec<u8> {
    let mut frame = vec![0; order.size()];
    RIGHT.write_frame(order, &mut frame);
    frame
}

/// Calls that every run sends.
pub fn cell_edges() -> Vec<ReadCall> {
    let mut calls = by_input();
    calls.extend(by_room());
    calls.extend(by_cut());
    calls.extend(small_ones());
    calls.push(call(vec![0x11; LONGEST - 8], 2));
    calls
}

/// Two cells, one of them with zeros inside. Input 1 has none, though later
/// it sends bytes that look like one; the last record is full.
fn example() -> Vec<u8> {
    let cell = |header, body: &[u8]| {
        let body = body.to_vec();
        Some(Cell { header, body })
    };
    let mut frame = written(&Order {
        gap: 2,
        length: 12,
        acks: 0x0F,
        cells: [
            cell(0xA5, &[1, 0, 0, 7, 0, 8]),
            None,
            cell(0x0D, &[3]),
            None,
        ],
    });
    frame[5 * RECORD + 2] = 0x0F;
    frame.extend([0x0F, 0x21, 0x23, 0x25, 0x27]);
    frame
}

/// With room for just the cell, and for more.
fn by_input() -> Vec<ReadCall> {
    let mut calls = Vec::new();
    for input in (0..4).chain(NO_INPUTS) {
        for spare in [0, 3] {
            let mut call = call(example(), input);
            call.room += spare;
            calls.push(call);
        }
    }
    calls
}

fn by_room() -> Vec<ReadCall> {
    let whole = call(example(), 0).room;
    [0, 1, whole - 1, whole, whole + 1, LONGEST]
        .map(|room| ReadCall {
            room,
            ..call(example(), 0)
        })
        .into()
}

/// Bytes of a record that is not whole must not count.
fn by_cut() -> Vec<ReadCall> {
    let whole = example().len();
    let cuts = (0..=2 * RECORD).flat_map(|lost| [(lost, 0), (lost, 2)]);
    cuts.map(|(lost, input)| call(example()[..whole - lost].to_vec(), input))
        .collect()
}

/// No record, or one or two, with a header alone, none, or one beside.
fn small_ones() -> Vec<ReadCall> {
    let frames: [&[u8]; 10] = [
        &[],
        &[0x81],
        &[0x81, 0, 0, 0],
        &[0x8F, 0, 0, 0, 0],
        &[0x80, 0xFE, 2, 4, 8],
        &[0x00, 0x01, 0, 0, 0],
        &[0x80, 0xFF, 3, 0, 0, 0, 0, 0, 0, 0],
        &[0x80, 0, 0, 1, 0, 0, 1, 9, 0, 0],
        &[0x81, 0x40, 0, 0, 0, 0, 0x41, 0, 0, 0, 0, 0x42],
        &[0x80, 0x40, 0, 0, 0, 0, 0x41, 0x41, 0],
    ];
    let pairs = frames.iter().flat_map(|&frame| [(frame, 0), (frame, 1)]);
    pairs
        .map(|(frame, input)| call(frame.to_vec(), input))
        .collect()
}

pub fn random(rng: &mut Rng) -> ReadCall {
    let mut frame = frame(rng);
    if rng.once_in(4) {
        cut(rng, &mut frame);
    }
    let any = rng.draw() as u32 as usize;
    let input = match rng.below(12) {
        0 => rng.pick(&NO_INPUTS),
        1 => any,
        _ => rng.below(4),
    };
    let mut call = call(frame, input);
    call.room = around(rng, call.room);
    call
}

fn frame(rng: &mut Rng) -> Vec<u8> {
    let most = rng.pick(&[3, 12, 40]);
    let records = rng.below(most + 1);
    match rng.below(4) {
        0 | 1 => written(&good(rng)),
        2 => captures::good(rng, records),
        _ => thin(rng, records),
    }
}

/// Few bytes in all, so that a header often has nothing behind it, or there
/// is none.
fn thin(rng: &mut Rng, records: usize) -> Vec<u8> {
    let gap = rng.pick(&[2, 6, 20]);
    let odd = rng.pick(&[1, 2, 40]);
    let mut bytes = Vec::new();
    for _ in 0..records {
        bytes.push(rng.byte());
        for _ in 1..RECORD {
            let byte = rng.byte() & !1 | u8::from(rng.once_in(odd));
            bytes.push(if rng.once_in(gap) { byte } else { 0 });
        }
    }
    bytes
}
