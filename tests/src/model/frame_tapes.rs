//! Tapes with well-formed frames after any history, and where those lie.

use super::claims::Headers;
use super::cycle::Inputs;
use crate::make::frames::Tape;
use crate::make::rng::Rng;
use std::array::from_fn;

/// A frame start, the header cycle and the next start. An inactive frame is
/// one whose header never comes.
#[derive(PartialEq, Eq)]
pub struct Frame {
    pub ts: usize,
    pub th: Option<usize>,
    pub te: usize,
}

/// All the well-formed frames of a tape, meant or not, by the definition.
/// The last claim about a frame is three cycles after its end.
pub fn frames(inputs: &[Inputs]) -> Vec<Frame> {
    let looked_at = 0..inputs.len() - 3;
    let starts: Vec<usize> = looked_at.filter(|&t| inputs[t].start).collect();
    let pairs = starts.windows(2);
    pairs
        .filter_map(|pair| well_formed(inputs, pair[0], pair[1]))
        .collect()
}

fn well_formed(inputs: &[Inputs], ts: usize, te: usize) -> Option<Frame> {
    let active = |t: usize| Headers(inputs[t].bytes).some_active();
    // Before cycle 0 there is nothing active.
    let th = (ts.saturating_sub(1)..te).find(|&t| active(t));
    let good = match th {
        Some(th) => ts < th && th + 3 <= te && !active(te - 1),
        None => true,
    };
    good.then_some(Frame { ts, th, te })
}

/// What the bytes of a cycle may be.
#[derive(Clone, Copy)]
enum Bytes {
    Quiet,
    Header,
    Any,
}

fn push(rng: &mut Rng, tape: &mut Tape, times: usize, start: bool, kind: Bytes) {
    for _ in 0..times {
        // One header is sure, and each other input may have none.
        let sure = rng.below(4);
        let bytes = from_fn(|i| match kind {
            Bytes::Header if i == sure || rng.once_in(2) => rng.byte() | 1,
            Bytes::Header | Bytes::Quiet => rng.byte() & !1,
            Bytes::Any => rng.byte(),
        });
        tape.push(rng, start, bytes);
    }
}

/// Anything at all, and then the one quiet cycle that a frame needs before
/// it. That cycle may have a frame start of its own.
fn history(rng: &mut Rng, tape: &mut Tape) {
    let (length, gap) = (rng.from_to(3, 12), rng.pick(&[1, 2, 4, 9]));
    tape.noise(rng, length, gap);
    let start = rng.once_in(3);
    push(rng, tape, 1, start, Bytes::Quiet);
}

/// A frame, active or not; the start that ends it is still to come.
fn frame(rng: &mut Rng, tape: &mut Tape) {
    let (lead, gap) = (rng.below(3), rng.below(3));
    push(rng, tape, 1, true, Bytes::Quiet);
    push(rng, tape, lead, false, Bytes::Quiet);
    if !rng.once_in(4) {
        let length = rng.pick(&[1, 1, 2, 4, 9]);
        push(rng, tape, 1, false, Bytes::Header);
        push(rng, tape, length, false, Bytes::Any);
        push(rng, tape, 1, false, Bytes::Quiet);
    }
    push(rng, tape, gap, false, Bytes::Quiet);
}

/// Frames one after another, twice, with a history before them. Half of the
/// tapes have none before the first, whose start is then in cycle 0.
pub fn write(rng: &mut Rng) -> Vec<u8> {
    let mut tape = Tape::new(rng);
    if rng.once_in(2) {
        history(rng, &mut tape);
    }
    for _ in 0..2 {
        for _ in 0..rng.from_to(1, 4) {
            frame(rng, &mut tape);
        }
        push(rng, &mut tape, 1, true, Bytes::Any);
        history(rng, &mut tape);
    }
    tape.bytes
}
