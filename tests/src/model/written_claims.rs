//! What follows for frames that the writer has written, tried on the model:
//! their cells can be read back, and a run of them shows what was put in.

use super::claims::{claim, failures, Headers, Held, Run, Seen};
use super::cycle::RECORD;
use super::frame_tapes::{frames, Frame};
use super::orders::{Cell, Order};
use super::writer::MOST_BODY;
use super::{Model, RIGHT};
use crate::make::orders::order;
use crate::make::rng::Rng;
use std::array::from_fn;

/// Frames written one after the other, and a run of them from reset.
pub struct Tape {
    model: Model,
    orders: Vec<Order>,
    capture: Vec<u8>,
    run: Run,
}

type Claim = fn(&Tape) -> Held;

pub const CLAIMS: [(&str, Claim); 4] = [
    ("written cells", cells),
    ("written frames", places),
    ("written bodies", bodies),
    ("written acks", acks),
];

const TRIES: usize = 1_000;
/// Longer frames would only add quiet cycles, and slow the rest down.
const LONGEST: usize = 200;
/// What is claimed of the last frame but one looks this far behind its end.
const TAIL: usize = 4;

impl Tape {
    /// Of all orders the model at hand takes what it does not refuse: the
    /// claims say that it refuses enough.
    fn write(model: Model, number: usize) -> Result<Tape, String> {
        let mut rng = Rng::for_work(1, 5, number);
        let wanted = rng.from_to(2, 6);
        let (mut orders, mut capture) = (Vec::new(), Vec::new());
        let mut buffer = vec![0; LONGEST * RECORD];
        while orders.len() < wanted {
            let order = order(&mut rng);
            let tail = orders.len() + 1 < wanted || order.length >= TAIL;
            let fits = order.length <= LONGEST && tail;
            if fits && model.write_frame(&order, &mut buffer) == 0 {
                capture.extend(&buffer[..order.size()]);
                orders.push(order);
            }
        }
        let run = Run::if_taken(model, &capture).ok_or("replay refuses it")?;
        Ok(Tape {
            model,
            orders,
            capture,
            run,
        })
    }

    /// Each order with the frame that is due for it. The last order only
    /// ends the frame before it.
    fn frames(&self) -> Vec<(&Order, Frame)> {
        let mut te = 0;
        let ended = &self.orders[..self.orders.len() - 1];
        let frames = ended.iter().map(|order| {
            let ts = te;
            te += order.length;
            let some = order.cells.iter().any(Option::is_some);
            let th = some.then(|| ts + order.th());
            (order, Frame { ts, th, te })
        });
        frames.collect()
    }
}

fn headers(order: &Order) -> Headers {
    let header = |cell: &Option<Cell>| cell.as_ref().map_or(0, |cell| cell.header);
    Headers(from_fn(|i| header(&order.cells[i])))
}

/// Read back into a buffer of just its size, each cell is as it was.
fn cells(tape: &Tape) -> Held {
    for (order, Frame { ts, te, .. }) in tape.frames() {
        let records = &tape.capture[ts * RECORD..te * RECORD];
        for (i, cell) in order.cells.iter().enumerate() {
            let sent = cell.as_ref().map_or(Vec::new(), Cell::to_bytes);
            let mut buffer = vec![0; sent.len()];
            let count = tape.model.read_cell(records, i, &mut buffer);
            let same = count == sent.len() && buffer == sent;
            claim(same, "the cell read back", ts, i)?;
        }
    }
    Ok(())
}

/// By the definition there are just the frames that were ordered, active
/// with their headers in th, or inactive.
fn places(tape: &Tape) -> Held {
    let found = frames(&tape.run.inputs);
    let due = tape.frames();
    for (n, (_, frame)) in due.iter().enumerate() {
        let same = found.get(n) == Some(frame);
        claim(same, "a frame as ordered", frame.ts, 0)?;
    }
    claim(found.len() == due.len(), "no other frame", 0, 0)
}

/// Without the zeros at its end, what a head shows is the winner's body. A
/// head that is not asked for shows zeros.
fn bodies(tape: &Tape) -> Held {
    for (order, frame) in tape.frames() {
        let first = frame.ts + order.th() + 5;
        for o in 0..4 {
            let heads = (first..=frame.te + 2).map(|t| tape.run.head(t, o));
            let mut shown: Vec<u8> = heads.collect();
            while shown.last() == Some(&0) {
                shown.pop();
            }
            let winner = frame.winner(&tape.run, o);
            let cell = winner.and_then(|i| order.cells[i].as_ref());
            let body = cell.map_or(Vec::new(), |cell| cell.body.clone());
            claim(shown == body, "the body shown", first, o)?;
            let good = headers(order).may_win(o, winner);
            claim(good, "a winner of those asking", first, o)?;
        }
    }
    Ok(())
}

/// What follows from an acknowledgement is claimed of all frames; here it
/// only has to be there.
fn acks(tape: &Tape) -> Held {
    for (order, frame) in tape.frames() {
        for t in frame.ts..frame.te {
            for (o, told) in tape.run.inputs[t].acks.iter().enumerate() {
                let due = order.acks >> o & 1 == 1;
                claim(*told == due, "the acknowledgement", t, o)?;
            }
        }
    }
    Ok(())
}

/// A claim on the tape with a number.
pub fn tried(model: Model, claim: Claim, number: usize) -> Held {
    claim(&Tape::write(model, number)?)
}

fn see(tape: &Tape, seen: &mut Seen) {
    for (order, frame) in tape.frames() {
        let bodies = || order.cells.iter().flatten().map(|cell| &cell.body);
        let longest = bodies().map(Vec::len).max().unwrap_or(0);
        let last = order.th() + longest;
        seen.count("active frame", frame.th.is_some());
        seen.count("inactive frame", frame.th.is_none());
        seen.count("four cells", bodies().count() == 4);
        seen.count("length gap+2", order.length == order.gap + 2);
        seen.count("body of 64 bytes", longest == MOST_BODY);
        seen.count("zero in body", bodies().any(|body| body.contains(&0)));
        seen.count("last byte at te-2", longest > 0 && last + 2 == order.length);
        for o in 0..4 {
            let askers = headers(order).askers(o).len();
            seen.count("contended output", askers > 1);
            seen.count("unasked output", askers == 0 && frame.th.is_some());
            seen.count("body shown", frame.winner(&tape.run, o).is_some());
        }
    }
}

#[test]
fn written_frames_are_as_claimed() {
    assert_eq!(failures(&CLAIMS, TRIES, |c, n| tried(RIGHT, c, n)), []);
    let mut seen = Seen::default();
    for number in 0..TRIES {
        let tape = Tape::write(RIGHT, number).expect("a capture");
        see(&tape, &mut seen);
    }
    seen.enough(10, 100);
}
