//! The rules of written frames in figures, worked out by hand, so that the
//! model is known to agree with them before it judges anything.

use super::orders::{Cell, Order};
use super::probe::Outcome;
use super::RIGHT;
use crate::make::captures::document_capture;

fn cell(header: u8, body: &[u8]) -> Option<Cell> {
    let body = body.to_vec();
    Some(Cell { header, body })
}

fn order(gap: usize, length: usize, cells: [Option<Cell>; 4]) -> Order {
    Order {
        gap,
        length,
        acks: 0xF5,
        cells,
    }
}

fn written(order: &Order, room: usize) -> (u32, Vec<u8>) {
    let mut buffer = vec![0xA5; room];
    let number = RIGHT.write_frame(order, &mut buffer);
    (number, buffer)
}

/// The capture that document 01 gives whole is one frame.
#[test]
fn capture_of_the_document() {
    let cells = [
        cell(0x05, &[0x32, 0x39, 0x39]),
        cell(0x07, &[0x32, 0x2E, 0x35]),
        cell(0x0D, &[0x31, 0x30, 0x34]),
        None,
    ];
    let mut order = order(1, 11, cells);
    order.acks = 0x02;
    assert_eq!(written(&order, 55), (0, document_capture()));
}

#[test]
fn frame_given_whole() {
    let order = order(2, 7, [None, None, None, cell(0xF3, &[0, 1])]);
    let mut frame = vec![0x85, 0, 0, 0, 0];
    for byte in [0, 0, 0xF3, 0, 1, 0] {
        frame.extend([5, 0, 0, 0, byte]);
    }
    frame.push(0xA5);
    assert_eq!(written(&order, 36), (0, frame));
    assert_eq!(written(&order, 34), (24, vec![0xA5; 34]));
    let bytes = [2, 0, 7, 0xF5, 0, 0, 0, 2, 0xF3, 0, 1];
    assert_eq!(order.to_bytes(), bytes);
    assert_eq!(RIGHT.order(&bytes), Some((order, 11)));
    assert_eq!(RIGHT.order(&bytes[..10]), None);
}

#[test]
fn sizes() {
    let number = |gap, length| {
        let order = order(gap, length, Default::default());
        written(&order, 30_000).0
    };
    assert_eq!([number(0, 9), number(1, 9)], [20, 0]);
    assert_eq!([number(16, 99), number(17, 99)], [0, 20]);
    assert_eq!([number(1, 2), number(1, 3)], [20, 0]);
    assert_eq!([number(16, 17), number(16, 18)], [20, 0]);
    assert_eq!([number(1, 4_096), number(1, 4_097)], [0, 20]);
}

/// With gap 1 the headers are in cycle 2, so a body of 64 ends in cycle 66.
#[test]
fn cells_refused() {
    let number = |length, header, body: &[u8]| {
        let order = order(1, length, [None, cell(header, body), None, None]);
        written(&order, 1_000).0
    };
    assert_eq!(number(68, 0x01, &[7; 64]), 0);
    assert_eq!(number(67, 0x01, &[7; 64]), 23);
    assert_eq!(number(67, 0x01, &[7; 65]), 22);
    assert_eq!(number(67, 0xFE, &[7; 65]), 21);
    assert_eq!(number(2, 0xFE, &[7; 65]), 20);
    assert_eq!(number(99, 0x01, &[7, 0]), 22);
    assert_eq!([number(5, 0x01, &[7]), number(4, 0x01, &[7])], [0, 23]);
}

/// A number is looked for at all inputs before the next one.
#[test]
fn all_inputs_first() {
    let (late, zero) = (cell(0x01, &[7; 9]), cell(0x01, &[0]));
    let idle = cell(0x02, &[7]);
    let number = |cells| written(&order(1, 9, cells), 0).0;
    assert_eq!(number([zero.clone(), None, None, idle.clone()]), 21);
    assert_eq!(number([late.clone(), None, idle, zero.clone()]), 21);
    assert_eq!(number([late.clone(), zero, None, None]), 22);
    assert_eq!(number([None, None, None, late]), 23);
    assert_eq!(number([None, None, None, None]), 24);
}

#[test]
fn cells_read() {
    // Input 1 has no header in the first active record, only later.
    let mut frame = vec![0x8F, 0, 0, 0, 0, 0x0F, 0x40, 2, 4, 6];
    frame.extend([0, 0x05, 0x20, 0x01, 0, 0, 0, 0x21, 0, 0]);
    frame.extend([0, 9, 9, 0, 0, 0x80, 0, 0, 0, 0, 0, 7, 7, 7]);
    let read = |input, room| {
        let mut buffer = vec![0xA5; room];
        let count = RIGHT.read_cell(&frame, input, &mut buffer);
        (count, buffer)
    };
    assert_eq!(read(0, 4), (3, vec![0x05, 0, 9, 0xA5]));
    assert_eq!(read(0, 3), (3, vec![0x05, 0, 9]));
    assert_eq!(read(0, 2), (3, vec![0xA5; 2]));
    assert_eq!(read(2, 1), (1, vec![0x01]));
    for input in [1, 3, 4, 0x100] {
        assert_eq!(read(input, 1), (0, vec![0xA5]));
    }
    assert_eq!(RIGHT.read_cell(&frame[..10], 0, &mut []), 0);
}

#[test]
fn inputs_of_the_program() {
    let good = [1, 0, 3, 0x18, 0, 0, 0, 0];
    let idle = [1, 0, 9, 0, 1, 2, 3, 0, 0, 0];
    let frame = [0x88, 0, 0, 0, 0, 8, 0, 0, 0, 0, 8, 0, 0, 0, 0];
    let told = |parts: &[&[u8]]| {
        let written = RIGHT.written(&parts.concat());
        assert_eq!(written.output, frame.repeat(written.output.len() / 15));
        (written.output.len() / 15, written.errors, written.end)
    };
    let clean = Outcome::Number(0);
    assert_eq!(told(&[]), (0, "".into(), clean));
    assert_eq!(told(&[&good, &good]), (2, "".into(), clean));
    let refused = (2, "refused 21 at 2\n".into(), Outcome::Number(21));
    assert_eq!(told(&[&good, &good, &idle, &good]), refused);
    let cut = |frames, errors: &str| (frames, errors.into(), Outcome::CutShort);
    assert_eq!(told(&[&good[..1]]), cut(0, "cut short at 0\n"));
    assert_eq!(told(&[&good, &idle[..9]]), cut(1, "cut short at 1\n"));
    assert_eq!(told(&[&[0; 7]]), cut(0, "cut short at 0\n"));
}

#[test]
fn requests_of_the_probe() {
    let line = |letter: u8, payload: &[u8]| {
        let length = (payload.len() as u32).to_be_bytes();
        let replies = RIGHT.replies(&[&[letter], &length[..], payload].concat());
        replies[0].line.clone()
    };
    let order = [1, 0, 3, 0x18, 0, 0, 0, 0];
    let lend = |room: u32, rest: &[u8]| [&room.to_be_bytes(), rest].concat();
    let done = "0 880000000008000000000800000000A5";
    assert_eq!(line(b'W', &lend(16, &order)), done);
    assert_eq!(line(b'W', &lend(1, &order)), "24 A5");
    assert_eq!(line(b'W', &lend(0, &[0; 8])), "20 -");
    assert_eq!(line(b'W', &lend(65_537, &order)), "too long");
    assert_eq!(line(b'W', &lend(65_537, &order[..7])), "malformed");
    assert_eq!(line(b'W', &lend(16, &[0; 9])), "malformed");
    assert_eq!(line(b'W', &[0; 3]), "malformed");
    let frame = [0, 0, 0, 2, 0x80, 0, 0, 0x41, 0, 0, 0, 0, 0x42, 0];
    assert_eq!(line(b'K', &lend(3, &frame)), "2 4142A5");
    assert_eq!(line(b'K', &lend(1, &frame)), "2 A5");
    assert_eq!(line(b'K', &lend(0, &[0; 4])), "0 -");
    assert_eq!(line(b'K', &lend(65_537, &[0; 4])), "too long");
    assert_eq!(line(b'K', &lend(65_537, &[0; 3])), "malformed");
}
