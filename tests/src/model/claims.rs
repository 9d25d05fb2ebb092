//! What the claims about the model stand on: a run, its headers, and a count
//! of what was seen in it.

use super::cycle::{Inputs, Routing, RECORD};
use super::state::State;
use super::{Model, DONE};
use std::collections::BTreeMap;

/// A run from reset. There is one state more than there are cycles: a cycle
/// has the one at its start, and the last is left at the end.
pub struct Run {
    pub inputs: Vec<Inputs>,
    pub reports: Vec<Option<Routing>>,
    states: Vec<State>,
    answers: Vec<u8>,
}

impl Run {
    pub fn of(model: Model, capture: &[u8]) -> Run {
        Run::if_taken(model, capture).expect("a good capture")
    }

    /// The answers come from a whole replay, where a fault can also stand
    /// between two cycles.
    pub fn if_taken(model: Model, capture: &[u8]) -> Option<Run> {
        let mut answers = vec![0; capture.len()];
        let (verdict, _) = model.replay(&State::reset(), capture, &mut answers);
        if verdict != DONE {
            return None;
        }
        let inputs: Vec<Inputs> = capture.chunks(RECORD).map(Inputs::from_record).collect();
        let mut states = vec![State::reset()];
        let mut reports = Vec::new();
        for (t, input) in inputs.iter().enumerate() {
            let cycle = model.cycle(&states[t], input);
            states.push(cycle.next);
            reports.push(cycle.report);
        }
        Some(Run {
            inputs,
            reports,
            states,
            answers,
        })
    }

    pub fn cycles(&self) -> usize {
        self.inputs.len()
    }

    pub fn head(&self, t: usize, output: usize) -> u8 {
        self.answers[t * RECORD + 1 + output]
    }

    pub fn acked(&self, t: usize, input: usize) -> bool {
        self.answers[t * RECORD] >> input & 1 == 1
    }

    pub fn open(&self, t: usize, output: usize) -> bool {
        !self.states[t].shut[output]
    }

    pub fn holder(&self, t: usize, output: usize) -> usize {
        usize::from(self.states[t].holder[output])
    }

    /// What the second latches have to hold: the bytes of two cycles before.
    /// The latches are not asked, for they could be late.
    pub fn headers(&self, t: usize) -> Headers {
        let sent = t.checked_sub(2).map(|t| self.inputs[t].bytes);
        Headers(sent.unwrap_or([0; 4]))
    }
}

/// Four headers, read here and not by the model, which could read them
/// wrongly.
pub struct Headers(pub [u8; 4]);

impl Headers {
    pub fn some_active(&self) -> bool {
        self.0.iter().any(|byte| byte & 1 == 1)
    }

    pub fn askers(&self, output: usize) -> Vec<usize> {
        let asks = |byte: u8| byte & 1 == 1 && usize::from(byte >> 2 & 3) == output;
        (0..4).filter(|&i| asks(self.0[i])).collect()
    }

    /// The askers of an output that are in the highest class asking for it.
    pub fn foremost(&self, output: usize) -> Vec<usize> {
        let mut askers = self.askers(output);
        let high = |&i: &usize| self.0[i] & 2 == 2;
        if askers.iter().any(high) {
            askers.retain(high);
        }
        askers
    }

    /// Whether an output may have this winner, or none.
    pub fn may_win(&self, output: usize, winner: Option<usize>) -> bool {
        let left = self.foremost(output);
        winner.map_or(left.is_empty(), |i| left.contains(&i))
    }
}

/// The error says what does not hold, and where.
pub type Held = Result<(), String>;

pub fn claim(holds: bool, words: &str, t: usize, port: usize) -> Held {
    held(holds, || format!("in cycle {t} at port {port}: {words}"))
}

pub fn held(holds: bool, told: impl FnOnce() -> String) -> Held {
    if holds {
        Ok(())
    } else {
        Err(format!("not so {}", told()))
    }
}

/// The claims that do not hold in all of the tries, and where first.
pub fn failures<C: Copy>(
    claims: &[(&'static str, C)],
    tries: usize,
    tried: impl Fn(C, usize) -> Held,
) -> Vec<(&'static str, String)> {
    let mut found = Vec::new();
    for &(name, claim) in claims {
        let first = (0..tries).find_map(|number| {
            let held = tried(claim, number);
            held.err().map(|why| format!("try {number}: {why}"))
        });
        found.extend(first.map(|why| (name, why)));
    }
    found
}

/// How often each case was seen: a claim says nothing of cases that never
/// came up.
#[derive(Default)]
pub struct Seen(BTreeMap<&'static str, usize>);

impl Seen {
    pub fn count(&mut self, case: &'static str, seen: bool) {
        *self.0.entry(case).or_insert(0) += usize::from(seen);
    }

    /// The number of cases is said too, for one that was not even looked for
    /// has no count.
    pub fn enough(&self, cases: usize, least: usize) {
        let good = self.0.len() == cases && self.0.values().all(|&times| times >= least);
        assert!(good, "{cases} cases, {least} times each: {:#?}", self.0);
    }
}
