//! The six parts of demand 3, each said of a whole run from reset. They speak
//! of what is seen before and after a cycle, and read headers by themselves.

use super::claims::{claim, Held, Run};
use super::cycle::Win;

pub type Claim = fn(&Run) -> Held;

pub const CLAIMS: [(&str, Claim); 6] = [
    ("opening", opening),
    ("winner", winner),
    ("holding", holding),
    ("apart", apart),
    ("showing", showing),
    ("four routings", four_routings),
];

/// The cycles in which a routing happens: there is an active header, and no
/// routing after the last frame start. The phase in the state is not asked,
/// for it could be wrong. A routing in the start's own cycle is not after it.
pub fn routings(run: &Run) -> Vec<usize> {
    let (mut start, mut routing) = (None, None);
    let mut found = Vec::new();
    for t in 0..run.cycles() {
        if run.headers(t).some_active() && start.is_some() && start >= routing {
            routing = Some(t);
            found.push(t);
        }
        if run.inputs[t].start {
            start = Some(t);
        }
    }
    found
}

/// How many inputs come before this one, counting on from the old holder.
pub fn place(old: usize, input: usize) -> usize {
    (input + 3 - old) % 4
}

/// To win is to be the new holder, also where a start keeps the output shut.
pub fn wins(run: &Run, t: usize, input: usize, output: usize) -> bool {
    run.holder(t + 1, output) == input
}

fn opening(run: &Run) -> Held {
    let routings = routings(run);
    for t in 0..run.cycles() {
        let routed = routings.contains(&t);
        let start = run.inputs[t].start;
        for o in 0..4 {
            let (open, then) = (run.open(t, o), run.open(t + 1, o));
            let asked = !run.headers(t).askers(o).is_empty();
            let opens = routed && asked && !start;
            claim(!(open && t == 0), "all are shut at reset", t, o)?;
            claim(!(open && routed), "all are shut at a routing", t, o)?;
            claim(open || then == opens, "opens when it should", t, o)?;
            claim(!open || then != start, "shuts on a start alone", t, o)?;
        }
    }
    Ok(())
}

fn winner(run: &Run) -> Held {
    let routings = routings(run);
    for t in 0..run.cycles() {
        let routed = routings.contains(&t);
        let report = run.reports[t];
        claim(report.is_some() == routed, "routings are reported", t, 0)?;
        for o in 0..4 {
            let named = report.and_then(|wins| wins[o]);
            if routed && !run.headers(t).askers(o).is_empty() {
                won(run, t, o, named)?;
            } else {
                let kept = run.holder(t + 1, o) == run.holder(t, o);
                claim(kept, "the holder is kept", t, o)?;
                claim(named.is_none(), "the report is quiet", t, o)?;
            }
        }
    }
    Ok(())
}

/// At an output asked for.
fn won(run: &Run, t: usize, o: usize, named: Option<Win>) -> Held {
    let (old, new) = (run.holder(t, o), run.holder(t + 1, o));
    let left = run.headers(t).foremost(o);
    claim(left.contains(&new), "the winner is in the class", t, o)?;
    let first = left.iter().all(|&i| place(old, new) <= place(old, i));
    claim(first, "the winner is first in turn", t, o)?;
    let win = Win {
        winner: new as u8,
        turned_away: run.headers(t).askers(o).len() - 1,
    };
    claim(named == Some(win), "the report names the winner", t, o)
}

fn holding(run: &Run) -> Held {
    for t in 0..run.cycles() {
        for o in 0..4 {
            let stays = run.open(t, o) && run.open(t + 1, o);
            let same = run.holder(t, o) == run.holder(t + 1, o);
            claim(!stays || same, "the holder stays", t, o)?;
        }
    }
    Ok(())
}

fn apart(run: &Run) -> Held {
    for t in 0..=run.cycles() {
        for o in 0..4 {
            let shared = |p: usize| run.open(t, p) && run.holder(t, p) == run.holder(t, o);
            let alone = !run.open(t, o) || !(0..o).any(shared);
            claim(alone, "nobody holds two", t, o)?;
        }
    }
    Ok(())
}

/// Cycles before 0 count as zeros, with all outputs shut.
fn showing(run: &Run) -> Held {
    for t in 0..run.cycles() {
        for o in 0..4 {
            let holder = |t: usize| run.open(t, o).then(|| run.holder(t, o));
            let from = t.checked_sub(2).and_then(holder);
            let sent = |i: usize| t.checked_sub(4).map(|t| run.inputs[t].bytes[i]);
            let byte = from.and_then(sent).unwrap_or(0);
            claim(run.head(t, o) == byte, "the byte shown", t, o)?;
        }
    }
    Ok(())
}

/// Each four routings next to each other, with an input that asks for the
/// same output at all of them and is never set aside.
pub fn fours(run: &Run) -> Vec<(Vec<usize>, usize, usize)> {
    let mut found = Vec::new();
    for four in routings(run).windows(4) {
        for (i, o) in (0..16).map(|pair| (pair / 4, pair % 4)) {
            let asks = |t: &usize| run.headers(*t).foremost(o).contains(&i);
            if four.iter().all(asks) {
                found.push((four.to_vec(), i, o));
            }
        }
    }
    found
}

fn four_routings(run: &Run) -> Held {
    for (four, i, o) in fours(run) {
        let one = four.iter().any(|&t| wins(run, t, i, o));
        claim(one, "one of four is won", four[0], i)?;
    }
    Ok(())
}
