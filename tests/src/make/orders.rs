//! Orders for frames: good ones, and ones to be refused for each reason.

use super::rng::Rng;
use crate::model::orders::{Cell, Order};
use crate::model::writer::{MOST_BODY, MOST_GAP, MOST_LENGTH};
use std::array::from_fn;

/// Bits of the reasons that an order can be made with.
pub const SIZE: usize = 1;
pub const HEADER: usize = 2;
pub const BODY: usize = 4;
pub const LATE: usize = 8;

/// The least length that takes the bodies of an order.
pub fn tight(order: &Order) -> usize {
    let bodies = order.cells.iter().flatten().map(|cell| cell.body.len());
    order.gap + 2 + bodies.max().map_or(0, |longest| longest + 1)
}

/// An order of any making; half of them are good.
pub fn order(rng: &mut Rng) -> Order {
    let reasons = if rng.once_in(2) { rng.below(16) } else { 0 };
    made(rng, reasons)
}

pub fn good(rng: &mut Rng) -> Order {
    made(rng, 0)
}

/// An order to be refused for one reason or more.
pub fn bad(rng: &mut Rng) -> Order {
    let reasons = rng.from_to(1, 15);
    made(rng, reasons)
}

fn made(rng: &mut Rng, reasons: usize) -> Order {
    let any = rng.from_to(1, MOST_GAP);
    let mut order = Order {
        gap: rng.pick(&[1, 1, 2, 3, MOST_GAP, any]),
        length: 0,
        acks: rng.byte(),
        cells: cells(rng),
    };
    if reasons & HEADER != 0 {
        spoiled(rng, &mut order).header &= !1;
    }
    if reasons & BODY != 0 {
        let cell = spoiled(rng, &mut order);
        spoil_body(rng, &mut cell.body);
    }
    order.length = length(rng, &order);
    if reasons & LATE != 0 {
        shorten(rng, &mut order);
    }
    if reasons & SIZE != 0 {
        spoil_size(rng, &mut order);
    }
    order
}

/// Once in a while there is no cell at all; often they contend.
fn cells(rng: &mut Rng) -> [Option<Cell>; 4] {
    let fill = rng.pick(&[1, 1, 2, 4]);
    let none = rng.once_in(8);
    let common = rng.once_in(2).then(|| rng.byte() & 0x0C);
    from_fn(|_| {
        let mut cell = cell(rng);
        if let Some(output) = common {
            cell.header = cell.header & !0x0C | output;
        }
        (!none && rng.once_in(fill)).then_some(cell)
    })
}

fn cell(rng: &mut Rng) -> Cell {
    let (few, any) = (rng.from_to(1, 12), rng.from_to(1, MOST_BODY));
    let length = rng.pick(&[1, 1, 2, 3, few, few, any, MOST_BODY]);
    Cell {
        header: rng.byte() | 1,
        body: body(rng, length),
    }
}

/// Any bytes, often many zeros among them, but none at the end.
pub fn body(rng: &mut Rng, length: usize) -> Vec<u8> {
    let mut body = rng.bytes(length);
    if rng.once_in(2) {
        body.iter_mut().for_each(|b| *b *= u8::from(rng.once_in(3)));
    }
    if body[length - 1] == 0 {
        body[length - 1] = 1 << rng.below(8);
    }
    body
}

/// The cell of some input, put there if there is none.
fn spoiled<'a>(rng: &mut Rng, order: &'a mut Order) -> &'a mut Cell {
    let input = rng.below(4);
    order.cells[input].get_or_insert_with(|| cell(rng))
}

fn spoil_body(rng: &mut Rng, bytes: &mut Vec<u8>) {
    if rng.once_in(2) {
        let any = rng.from_to(MOST_BODY + 1, 255);
        let length = rng.pick(&[MOST_BODY + 1, any, 255]);
        *bytes = body(rng, length);
    } else {
        let zeros = rng.from_to(1, bytes.len());
        let rest = bytes.len() - zeros;
        bytes[rest..].fill(0);
    }
}

fn length(rng: &mut Rng, order: &Order) -> usize {
    let least = tight(order);
    match rng.below(40) {
        0 => MOST_LENGTH,
        1 => rng.from_to(least, MOST_LENGTH),
        2..=19 => least,
        20..=25 => least + 1,
        _ => least + rng.from_to(2, 30),
    }
}

/// Too short for some body, but not for a frame.
fn shorten(rng: &mut Rng, order: &mut Order) {
    if order.cells.iter().all(Option::is_none) {
        spoiled(rng, order);
    }
    let most = tight(order) - 1;
    let any = rng.from_to(order.gap + 2, most);
    order.length = rng.pick(&[most, most, any]);
}

/// The length goes along with a gap, so that only one of them is wrong.
fn spoil_size(rng: &mut Rng, order: &mut Order) {
    if rng.once_in(2) {
        let any = rng.from_to(MOST_GAP + 1, 255);
        let gap = rng.pick(&[0, 0, MOST_GAP + 1, MOST_GAP + 1, any]);
        order.length = (order.length + gap - gap.min(order.gap)).min(MOST_LENGTH);
        order.gap = gap;
    } else {
        let (less, more) = (
            rng.below(order.gap + 2),
            rng.from_to(MOST_LENGTH + 1, 65_535),
        );
        let near = [order.gap + 1, MOST_LENGTH + 1];
        order.length = rng.pick(&[near[0], near[0], near[1], near[1], less, more]);
    }
}
