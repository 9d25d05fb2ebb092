//! The cases of orders that a run must see: a count of refusals says nothing
//! of the edges at which they begin.

use crate::model::frame_calls::WriteCall;
use crate::model::orders::{Cell, Order};
use crate::model::probe::Outcome;
use crate::model::writer::{MOST_BODY, MOST_GAP, MOST_LENGTH};
use crate::model::written::Written;
use crate::model::RIGHT;

/// A name, and the test whether something is such a case.
pub type Case<T> = (&'static str, fn(&T) -> bool);

/// Orders that are done.
pub const DONE: &[Case<Order>] = &[
    ("gap 1", |o| o.gap == 1),
    ("gap 16", |o| o.gap == MOST_GAP),
    ("length gap+2", |o| o.length == o.gap + 2),
    ("length 4096", |o| o.length == MOST_LENGTH),
    ("no cell", |o| bodies(o).is_empty()),
    ("four cells", |o| bodies(o).len() == 4),
    ("spare bits", |o| cells(o).any(|c| c.header >> 4 != 0)),
    ("no spare bits", |o| cells(o).any(|c| c.header >> 4 == 0)),
    ("bits beside acks", |o| o.acks >> 4 != 0),
    ("body 1", |o| bodies(o).contains(&1)),
    ("body 64", |o| bodies(o).contains(&MOST_BODY)),
    ("zero in body", |o| cells(o).any(|c| c.body.contains(&0))),
    ("active in body", |o| cells(o).any(active_in_body)),
    ("last byte at te-2", |o| last(o) + 2 == o.length),
];

/// Orders that are refused for a single reason.
pub const LONE: &[Case<Order>] = &[
    ("gap 0", |o| o.gap == 0 && length_good(o)),
    ("gap 17", |o| o.gap == MOST_GAP + 1 && length_good(o)),
    ("length gap+1", |o| o.length == o.gap + 1 && gap_good(o)),
    ("length 4097", |o| {
        o.length == MOST_LENGTH + 1 && gap_good(o)
    }),
    ("header not active", |o| cells(o).any(|c| c.header & 1 == 0)),
    ("body 65", |o| bodies(o).contains(&(MOST_BODY + 1))),
    ("body ends in zero", |o| cells(o).any(short_with_zero)),
    ("last byte at te-1", |o| {
        told(o) == [23] && last(o) + 1 == o.length
    }),
    ("last byte later", |o| {
        told(o) == [23] && last(o) >= o.length
    }),
];

/// Orders that are refused and have several reasons.
pub const MIXED: &[Case<Order>] = &[
    ("20 and 21", |o| both(o, 20, 21)),
    ("20 and 22", |o| both(o, 20, 22)),
    ("20 and 23", |o| both(o, 20, 23)),
    ("21 behind 22", |o| behind(o, 21, 22)),
    ("21 behind 23", |o| behind(o, 21, 23)),
    ("22 behind 23", |o| behind(o, 22, 23)),
    ("22 behind 21", |o| behind(o, 22, 21)),
    ("23 behind 21", |o| behind(o, 23, 21)),
    ("23 behind 22", |o| behind(o, 23, 22)),
];

pub fn of_order(order: &Order) -> &'static [Case<Order>] {
    match told(order).len() {
        0 => DONE,
        1 => LONE,
        _ => MIXED,
    }
}

pub const ROOMS: &[Case<WriteCall>] = &[
    ("buffer exact", |c| c.room == c.order.size() && done(c)),
    ("buffer one longer", |c| {
        c.room == c.order.size() + 1 && done(c)
    }),
    ("buffer one short", |c| {
        c.room + 1 == c.order.size() && done(c)
    }),
    ("no buffer", |c| c.room == 0 && done(c)),
    ("24 and another", |c| c.room < c.order.size() && !done(c)),
];

pub const ENDS: &[Case<Written>] = &[
    ("empty", |w| clean(w) && w.orders.is_empty()),
    ("frames alone", |w| clean(w) && !w.orders.is_empty()),
    ("six frames", |w| clean(w) && w.orders.len() == 6),
    ("refused first", |w| w.refused() && w.orders.len() == 1),
    ("refused later", |w| w.refused() && w.orders.len() > 1),
    ("refused at 10", |w| w.refused() && w.orders.len() == 11),
    ("refused at 256", |w| w.refused() && w.orders.len() == 257),
    ("refused and more", |w| w.refused() && !w.rest.is_empty()),
    ("cut first", |w| cut(w) && w.orders.is_empty()),
    ("cut later", |w| cut(w) && !w.orders.is_empty()),
    ("cut at 10", |w| cut(w) && w.orders.len() == 10),
    ("cut at 256", |w| cut(w) && w.orders.len() == 256),
    ("cut before cells", |w| cut(w) && w.rest.len() < 4),
    ("cut by one byte", |w| cut(w) && one_byte_short(&w.rest)),
    ("cut though wrong", |w| cut(w) && wrong_front(&w.rest)),
];

/// The numbers, but for 24, that apply to an order with some of its cells.
fn applying(order: &Order, cells: &[Option<Cell>]) -> Vec<u32> {
    let tests = RIGHT.reasons(order, cells);
    let hold = tests.iter().filter(|test| test.1);
    hold.map(|test| test.0).collect()
}

fn told(order: &Order) -> Vec<u32> {
    applying(order, &order.cells)
}

fn done(call: &WriteCall) -> bool {
    told(&call.order).is_empty()
}

fn both(order: &Order, one: u32, other: u32) -> bool {
    let told = told(order);
    told.contains(&one) && told.contains(&other)
}

/// The first input with a reason has only `early`; one behind it has `late`.
fn behind(order: &Order, late: u32, early: u32) -> bool {
    let of = |i: usize| applying(order, &order.cells[i..=i]);
    match (0..4).find(|&i| !of(i).is_empty()) {
        Some(first) => of(first) == [early] && (first..4).any(|i| of(i).contains(&late)),
        None => false,
    }
}

fn gap_good(order: &Order) -> bool {
    (1..=MOST_GAP).contains(&order.gap)
}

fn length_good(order: &Order) -> bool {
    (order.gap + 2..=MOST_LENGTH).contains(&order.length)
}

fn cells(order: &Order) -> impl Iterator<Item = &Cell> {
    order.cells.iter().flatten()
}

fn bodies(order: &Order) -> Vec<usize> {
    cells(order).map(|cell| cell.body.len()).collect()
}

fn active_in_body(cell: &Cell) -> bool {
    cell.body.iter().any(|byte| byte & 1 == 1)
}

fn short_with_zero(cell: &Cell) -> bool {
    cell.body.last() == Some(&0) && cell.body.len() <= MOST_BODY
}

/// The cycle of the last byte of all, or of the headers.
fn last(order: &Order) -> usize {
    order.th() + bodies(order).into_iter().max().unwrap_or(0)
}

fn clean(written: &Written) -> bool {
    written.end == Outcome::Number(0)
}

fn cut(written: &Written) -> bool {
    written.end == Outcome::CutShort
}

fn one_byte_short(rest: &[u8]) -> bool {
    RIGHT.order(&[rest, &[0]].concat()).is_some()
}

fn wrong_front(rest: &[u8]) -> bool {
    RIGHT
        .front(rest)
        .map_or(false, |order| !told(&order).is_empty())
}
