//! Orders that every run sends: where an answer changes, and two reasons at
//! a time at every two inputs.

use super::orders::{body, tight};
use super::rng::Rng;
use crate::model::orders::{Cell, Order};
use crate::model::writer::{MOST_BODY, MOST_GAP, MOST_LENGTH};

pub fn order_edges(rng: &mut Rng) -> Vec<Order> {
    let mut orders = sizes(rng);
    orders.extend(bodies(rng));
    orders.extend(bytes(rng));
    orders.extend(pairs(rng));
    orders
}

/// No cell yet, and no length.
fn bare(rng: &mut Rng, gap: usize) -> Order {
    Order {
        gap,
        length: 0,
        acks: rng.byte(),
        cells: Default::default(),
    }
}

fn sizes(rng: &mut Rng) -> Vec<Order> {
    let mut orders = Vec::new();
    for gap in [0, 1, MOST_GAP, MOST_GAP + 1] {
        for length in [gap + 1, gap + 2, MOST_LENGTH, MOST_LENGTH + 1] {
            let mut order = bare(rng, gap);
            order.length = length;
            orders.push(order);
        }
    }
    orders
}

/// The last byte of a body behind te, at te-1, at te-2 and before.
fn bodies(rng: &mut Rng) -> Vec<Order> {
    let mut orders = Vec::new();
    for gap in [1, MOST_GAP] {
        for length in [1, MOST_BODY, MOST_BODY + 1] {
            let mut order = bare(rng, gap);
            let header = rng.byte() | 1;
            let body = body(rng, length);
            order.cells[rng.below(4)] = Some(Cell { header, body });
            let least = tight(&order);
            for length in [gap + 2, least - 1, least, least + 1] {
                order.length = length;
                orders.push(order.clone());
            }
        }
    }
    orders
}

/// Headers with and without spare bits, and bodies with zeros and with
/// active bits; some of them end in a zero. Then headers that ask for nothing.
fn bytes(rng: &mut Rng) -> Vec<Order> {
    let bodies: [&[u8]; 7] = [
        &[0xFF, 0x01],
        &[0, 0, 0x80],
        &[0, 1, 0, 1],
        &[0],
        &[0x12, 0],
        &[0; MOST_BODY],
        &[0; MOST_BODY + 1],
    ];
    let active = bodies.iter().flat_map(|&body| [(0x01, body), (0xFF, body)]);
    let idle = [0x00, 0xFE].map(|header| (header, bodies[0]));
    let mut orders = Vec::new();
    for (place, (header, body)) in active.chain(idle).enumerate() {
        let mut order = bare(rng, 1);
        let body = body.to_vec();
        order.cells[place % 4] = Some(Cell { header, body });
        order.length = tight(&order);
        orders.push(order);
    }
    orders
}

/// A wrong header, a wrong body and a late one: each two of them, at each
/// two inputs, also at one and the same. Then all three with a wrong gap.
fn pairs(rng: &mut Rng) -> Vec<Order> {
    let mut orders = Vec::new();
    for (one, other) in [(0, 1), (0, 2), (1, 2)] {
        for (i, j) in (0..16).map(|pair| (pair / 4, pair % 4)) {
            let mut order = bare(rng, 1);
            order.length = 8;
            spoil(&mut order, i, one);
            spoil(&mut order, j, other);
            orders.push(order);
        }
    }
    for way in 0..3 {
        let mut order = bare(rng, 0);
        order.length = 8;
        spoil(&mut order, way, way);
        orders.push(order);
    }
    orders
}

fn spoil(order: &mut Order, input: usize, way: usize) {
    let cell = order.cells[input].get_or_insert(Cell {
        header: 0x05,
        body: vec![0x11, 0x22],
    });
    match way {
        0 => cell.header = 0x04,
        1 => cell.body.push(0),
        _ => cell.body.splice(..0, [0x33; 9]).for_each(drop),
    }
}
