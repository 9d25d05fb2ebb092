//! The runs on which demand 3 is tried, and how much they bring up.

use super::claims::{failures, Held, Run, Seen};
use super::demand_claims::{fours, place, routings, wins, Claim, CLAIMS};
use super::{Model, RIGHT};
use crate::make::frames::Tape;
use crate::make::rng::Rng;
use std::array::from_fn;

const TRIES: usize = 1_000;

/// Each run has its own habits. Many starts make many routings, which meet
/// them; few different bytes make inputs ask for one output again and again.
fn run(model: Model, number: usize) -> Run {
    let mut rng = Rng::for_work(1, 4, number);
    let gap = rng.pick(&[1, 2, 3, 6, 12]);
    let activity = rng.pick(&[1, 1, 2, 8]);
    let kinds = rng.pick(&[1, 2, 3, 4, 100]);
    let kinds = rng.bytes(kinds);
    let mut tape = Tape::new(&mut rng);
    for _ in 0..100 {
        let start = rng.once_in(gap);
        let bytes = from_fn(|_| {
            let byte = rng.pick(&kinds) & !1;
            byte | u8::from(rng.once_in(activity))
        });
        tape.push(&mut rng, start, bytes);
    }
    Run::of(model, &tape.bytes)
}

fn see_routing(run: &Run, t: usize, seen: &mut Seen) {
    let start = run.inputs[t].start;
    seen.count("routing", true);
    seen.count("routing meets start", start);
    for o in 0..4 {
        let (all, left) = (run.headers(t).askers(o), run.headers(t).foremost(o));
        let (old, new) = (run.holder(t, o), run.holder(t + 1, o));
        let passed = |i: &usize| place(old, *i) < place(old, new);
        seen.count("output opens", !start && !all.is_empty());
        seen.count("unasked output", all.is_empty());
        seen.count("contended output", all.len() > 1);
        seen.count("four askers", all.len() == 4);
        seen.count("old holder loses", left.len() > 1 && left.contains(&old));
        seen.count("old holder wins", left == [old]);
        seen.count("high over low in turn", all.iter().any(passed));
    }
}

fn see_cycle(run: &Run, t: usize, seen: &mut Seen) {
    let open = (0..4).filter(|&o| run.open(t, o)).count();
    seen.count("two outputs open", open > 1);
    for o in 0..4 {
        let (open, then) = (run.open(t, o), run.open(t + 1, o));
        let asked = !run.headers(t).askers(o).is_empty();
        seen.count("output shuts", open && !then);
        seen.count("open output asked for", open && asked);
        seen.count("shut output stays shut", !open && !then && asked);
        seen.count("byte shown", run.head(t, o) != 0);
    }
}

fn see(run: &Run, seen: &mut Seen) {
    routings(run)
        .iter()
        .for_each(|&t| see_routing(run, t, seen));
    (0..run.cycles()).for_each(|t| see_cycle(run, t, seen));
    for (four, i, o) in fours(run) {
        let late = !four[..3].iter().any(|&t| wins(run, t, i, o));
        seen.count("four in a row", true);
        seen.count("only the fourth won", late);
    }
}

/// A claim on the run with a number.
pub fn tried(model: Model, claim: Claim, number: usize) -> Held {
    claim(&run(model, number))
}

#[test]
fn demand_is_met() {
    assert_eq!(failures(&CLAIMS, TRIES, |c, n| tried(RIGHT, c, n)), []);
    let mut seen = Seen::default();
    for number in 0..TRIES {
        see(&run(RIGHT, number), &mut seen);
    }
    seen.enough(16, 1_000);
}

/// All ask for output 0 in every cycle, and starts keep the board waiting.
#[test]
fn three_lost_and_the_fourth_won() {
    let run = Run::of(RIGHT, &[0x80, 1, 1, 1, 1].repeat(6));
    assert_eq!(routings(&run), [2, 3, 4, 5]);
    let won = [2, 3, 4, 5].map(|t| wins(&run, t, 0, 0));
    assert_eq!(won, [false, false, false, true]);
    let winner = |t: usize| run.reports[t].and_then(|report| report[0].map(|win| win.winner));
    let named = [0, 1, 2, 3, 4, 5].map(winner);
    assert_eq!(named, [None, None, Some(1), Some(2), Some(3), Some(0)]);
}
