//! What a run has seen, and whether it has seen enough.

use super::case_tally::CaseTally;
use super::wanted::{outcomes, Who};
use crate::model::probe::{Outcome, Reply, HEADER, LETTERS};
use crate::model::readback::Readback;
use crate::model::written::Written;
use std::collections::BTreeMap;

#[derive(Default)]
pub struct Tally {
    pub examples: usize,
    pub captures: usize,
    inputs: usize,
    readbacks: usize,
    calls: BTreeMap<u8, usize>,
    seen: BTreeMap<(Who, Outcome), usize>,
    cases: CaseTally,
}

impl Tally {
    pub fn capture(&mut self, number: u32) {
        self.captures += 1;
        self.add(Who::Replay, Outcome::Number(number), 1);
    }

    /// An input of write_frame: its frames, and what ended it if not its end.
    pub fn written(&mut self, written: &Written) {
        self.inputs += 1;
        for _ in usize::from(written.refused())..written.orders.len() {
            self.add(Who::Write, Outcome::Number(0), 1);
        }
        if written.end != Outcome::Number(0) {
            self.add(Who::Write, written.end, 1);
        }
        self.cases.written(written);
    }

    pub fn readback(&mut self, readback: &Readback) {
        self.readbacks += 1;
        self.add(Who::Readback, Outcome::Number(readback.number), 1);
        self.cases.readback(readback);
    }

    pub fn reply(&mut self, reply: &Reply, request: &[u8]) {
        if LETTERS.contains(&reply.letter) {
            *self.calls.entry(reply.letter).or_default() += 1;
        }
        if b"WKNH".contains(&reply.letter) {
            let payload = request.get(HEADER..).unwrap_or_default();
            self.cases.reply(reply, payload);
        }
        let who = match reply.outcome {
            Outcome::Number(_) => Who::Letter(reply.letter),
            _ => Who::Requests,
        };
        self.add(who, reply.outcome, 1);
    }

    fn add(&mut self, who: Who, outcome: Outcome, times: usize) {
        *self.seen.entry((who, outcome)).or_default() += times;
    }

    pub fn merge(&mut self, other: Tally) {
        self.examples += other.examples;
        self.captures += other.captures;
        self.inputs += other.inputs;
        self.readbacks += other.readbacks;
        self.cases.merge(other.cases);
        for (letter, times) in other.calls {
            *self.calls.entry(letter).or_default() += times;
        }
        for ((who, outcome), times) in other.seen {
            self.add(who, outcome, times);
        }
    }

    /// Refuses a run that has not seen all; a smaller run than the default
    /// only says so.
    pub fn covered(&self, small: bool) -> Result<Option<String>, String> {
        let missing = self.missing();
        let told = format!("never seen: {}", missing.join(", "));
        match (missing.is_empty(), small) {
            (true, _) => Ok(None),
            (_, true) => Ok(Some(format!("{told} (a run below the default counts)"))),
            (_, false) => Err(told),
        }
    }

    /// What a run must see and this one did not.
    fn missing(&self) -> Vec<String> {
        let cases = CaseTally::wanted().into_iter();
        let unmet = cases.filter(|&case| self.cases.times(case) == 0);
        outcomes()
            .into_iter()
            .filter(|key| !self.seen.contains_key(key))
            .map(|(who, outcome)| format!("{} {}", name(who), said(outcome)))
            .chain(unmet.map(|(who, case)| format!("{} {case}", name(who))))
            .collect()
    }

    /// A line for the captures, for the inputs of write_frame and of
    /// readback, for each letter and for the requests; then the cases, of
    /// which there are many.
    pub fn lines(&self) -> Vec<String> {
        let mut lines = Vec::new();
        if self.examples > 0 {
            lines.push(format!("examples {}", self.examples));
        }
        let captures = format!("captures {}", self.captures);
        lines.push(captures + &self.outcomes(Who::Replay));
        let inputs = format!("write inputs {}", self.inputs);
        lines.push(inputs + &self.outcomes(Who::Write));
        let readbacks = format!("readback inputs {}", self.readbacks);
        lines.push(readbacks + &self.outcomes(Who::Readback));
        for (&letter, times) in &self.calls {
            let calls = format!("{} calls {times}", char::from(letter));
            lines.push(calls + &self.outcomes(Who::Letter(letter)));
        }
        lines.push(String::from("requests") + &self.outcomes(Who::Requests));
        for (who, cases) in self.cases.told() {
            lines.push(format!("{} cases: {cases}", name(who)));
        }
        lines
    }

    fn outcomes(&self, who: Who) -> String {
        let own = self.seen.iter().filter(|((whose, _), _)| *whose == who);
        let items: Vec<String> = own
            .map(|((_, outcome), times)| format!("{} x {times}", said(*outcome)))
            .collect();
        format!(": {}", items.join(", "))
    }
}

fn name(who: Who) -> String {
    match who {
        Who::Replay => "replay".into(),
        Who::Write => "write".into(),
        Who::Readback => "readback".into(),
        Who::Letter(letter) => char::from(letter).into(),
        Who::Requests => "requests".into(),
    }
}

fn said(outcome: Outcome) -> String {
    match outcome {
        Outcome::Number(number) => number.to_string(),
        _ => outcome.words().into(),
    }
}

#[cfg(test)]
mod tests {
    use super::*;

    #[test]
    fn an_empty_run_misses_all() {
        let mut tally = Tally::default();
        let all = outcomes().len() + CaseTally::wanted().len();
        assert_eq!(tally.missing().len(), all);
        tally.capture(3);
        assert_eq!(tally.missing().len(), all - 1);
        assert!(tally.covered(false).is_err());
        assert!(matches!(tally.covered(true), Ok(Some(_))));
    }
}
