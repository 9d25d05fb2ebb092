//! What document 01 says follows for well-formed frames, tried on the model.
//! The claims count cycles from frame starts and headers and not by rules,
//! so a delay that is one too long in the model would show here.

use super::claims::{claim, failures, Headers, Held, Run, Seen};
use super::frame_tapes::{frames, write, Frame};
use super::{Model, RIGHT};
use crate::make::rng::Rng;

type Claim = fn(&Run, &Frame) -> Held;

pub const CLAIMS: [(&str, Claim); 4] = [
    ("frame routing", routing),
    ("frame heads", heads),
    ("frame acks", acks),
    ("frame holders", holders),
];

const TRIES: usize = 1_000;

impl Frame {
    /// A number of cycles after the header, or later.
    fn after_header(&self, cycles: usize, t: usize) -> bool {
        self.th.map_or(false, |th| t >= th + cycles)
    }

    /// The headers as they were sent.
    fn headers(&self, run: &Run) -> Headers {
        Headers(self.th.map_or([0; 4], |th| run.inputs[th].bytes))
    }

    pub fn winner(&self, run: &Run, output: usize) -> Option<usize> {
        let report = self.th.and_then(|th| run.reports[th + 2]);
        let win = report.and_then(|wins| wins[output]);
        win.map(|win| usize::from(win.winner))
    }
}

/// The only routing is two cycles after the header, and there each output
/// asked for has a winner, which is one of its askers.
fn routing(run: &Run, frame: &Frame) -> Held {
    for t in frame.ts + 1..=frame.te + 1 {
        let due = frame.th.map_or(false, |th| t == th + 2);
        claim(run.reports[t].is_some() == due, "a routing when due", t, 0)?;
    }
    for o in 0..4 {
        let good = frame.headers(run).may_win(o, frame.winner(run, o));
        claim(good, "a winner among the askers", frame.ts, o)?;
    }
    Ok(())
}

fn heads(run: &Run, frame: &Frame) -> Held {
    for t in frame.ts + 3..=frame.te + 3 {
        let shows = frame.after_header(5, t) && t <= frame.te + 2;
        for o in 0..4 {
            let winner = frame.winner(run, o).filter(|_| shows);
            let byte = winner.map_or(0, |i| run.inputs[t - 4].bytes[i]);
            claim(run.head(t, o) == byte, "the head byte", t, o)?;
        }
    }
    Ok(())
}

fn acks(run: &Run, frame: &Frame) -> Held {
    for t in frame.ts + 1..=frame.te {
        for i in 0..4 {
            let won = |o: usize| frame.winner(run, o) == Some(i);
            let told = (0..4).any(|o| won(o) && run.inputs[t].acks[o]);
            let acked = frame.after_header(3, t) && told;
            claim(run.acked(t, i) == acked, "the acknowledgement", t, i)?;
        }
    }
    Ok(())
}

/// A routing of the history may still fall in cycle ts, so holders are
/// compared with those of the cycle after it.
fn holders(run: &Run, frame: &Frame) -> Held {
    for t in frame.ts + 1..=frame.te + 1 {
        for o in 0..4 {
            let winner = frame.winner(run, o).filter(|_| frame.after_header(3, t));
            let holder = winner.unwrap_or_else(|| run.holder(frame.ts + 1, o));
            claim(run.holder(t, o) == holder, "the holder", t, o)?;
        }
    }
    Ok(())
}

fn see(run: &Run, frame: &Frame, seen: &mut Seen) {
    let &Frame { ts, th, te } = frame;
    seen.count("frame in cycle 0", ts == 0);
    seen.count("start in cycle ts-1", ts > 0 && run.inputs[ts - 1].start);
    seen.count("routing in cycle ts", run.reports[ts].is_some());
    seen.count("active frame", th.is_some());
    seen.count("inactive frame", th.is_none());
    seen.count("te is th+3", th.map_or(false, |th| te == th + 3));
    for o in 0..4 {
        let headers = frame.headers(run);
        let (all, left) = (headers.askers(o).len(), headers.foremost(o).len());
        let unasked = th.is_some() && all == 0;
        let told = run.inputs[te].acks[o];
        seen.count("output open in cycle ts", run.open(ts, o));
        seen.count("unasked output", unasked);
        seen.count("unasked output acknowledged", unasked && told);
        seen.count("contended output", all > 1);
        seen.count("high over low", left < all);
        seen.count("input acknowledged", run.acked(te, o));
    }
}

fn run(model: Model, number: usize) -> (Run, Vec<Frame>) {
    let capture = write(&mut Rng::for_work(1, 3, number));
    let run = Run::of(model, &capture);
    let frames = frames(&run.inputs);
    (run, frames)
}

/// A claim on all the frames of the tape with a number.
pub fn tried(model: Model, claim: Claim, number: usize) -> Held {
    let (run, frames) = run(model, number);
    frames.iter().try_for_each(|frame| claim(&run, frame))
}

#[test]
fn frames_are_as_claimed() {
    assert_eq!(failures(&CLAIMS, TRIES, |c, n| tried(RIGHT, c, n)), []);
    let mut seen = Seen::default();
    for number in 0..TRIES {
        let (run, frames) = run(RIGHT, number);
        frames.iter().for_each(|frame| see(&run, frame, &mut seen));
    }
    seen.enough(12, 300);
}
