//! The cycle rules 1 to 7 and the report of a cycle.

use super::state::{State, FIRST, HEAD, SECOND, SWITCH};
use super::wrong::Wrong;
use super::Model;
use std::array::from_fn;

pub const RECORD: usize = 5;

pub struct Inputs {
    pub start: bool,
    pub acks: [bool; 4],
    pub bytes: [u8; 4],
}

impl Inputs {
    /// Bits 6..4 of byte 0 are not looked at; replay refuses them earlier.
    pub fn from_record(record: &[u8]) -> Inputs {
        Inputs {
            start: record[0] >> 7 == 1,
            acks: from_fn(|o| record[0] >> o & 1 == 1),
            bytes: from_fn(|i| record[1 + i]),
        }
    }
}

pub struct Answer {
    pub acks: [bool; 4],
    pub heads: [u8; 4],
}

impl Answer {
    pub fn to_record(&self) -> [u8; RECORD] {
        let acks = (0..4).map(|i| u8::from(self.acks[i]) << i).sum();
        let [h0, h1, h2, h3] = self.heads;
        [acks, h0, h1, h2, h3]
    }
}

/// What happened at one asked output.
#[derive(Clone, Copy, Debug, PartialEq, Eq)]
pub struct Win {
    pub winner: u8,
    pub turned_away: usize,
}

/// For each output: quiet (None), or the winner.
pub type Routing = [Option<Win>; 4];

pub struct Cycle {
    pub next: State,
    pub answer: Answer,
    pub report: Option<Routing>,
}

impl Model {
    pub fn cycle(&self, now: &State, inputs: &Inputs) -> Cycle {
        let routing = self.route(now);
        let unsaid = self.has(Wrong::NoReportAtStart) && inputs.start;
        Cycle {
            next: self.next(now, inputs, routing.as_ref()),
            answer: self.answer(now, inputs),
            report: if unsaid { None } else { routing },
        }
    }

    /// Rules 1 and 2.
    fn answer(&self, now: &State, inputs: &Inputs) -> Answer {
        let acked = |i: usize| {
            (0..4).any(|o| {
                let open = !now.shut[o] || self.has(Wrong::StaleAck);
                open && usize::from(now.holder[o]) == i && inputs.acks[o]
            })
        };
        let head = |o: usize| match now.rows[HEAD][o] {
            0x2E if self.has(Wrong::Head2E) => 0,
            byte => byte,
        };
        Answer {
            acks: from_fn(acked),
            heads: from_fn(head),
        }
    }

    /// Rules 3 and 4.
    fn route(&self, now: &State) -> Option<Routing> {
        let headers = &now.rows[SECOND];
        let ready = now.waiting || self.has(Wrong::HeaderWhileRunning);
        let called = headers.iter().any(|&h| self.active(h));
        (ready && called).then(|| from_fn(|o| self.contest(o, now.holder[o], headers)))
    }

    fn active(&self, header: u8) -> bool {
        let spare = self.has(Wrong::SpareBits) && header >> 4 == 0xF;
        let idle = self.has(Wrong::IdlePriority) && header & 2 != 0;
        (header & 1 != 0 || idle) && !spare
    }

    fn high(&self, header: u8) -> bool {
        self.active(header) && header & 2 != 0 && !self.has(Wrong::NoPriority)
    }

    fn contest(&self, output: usize, holder: u8, headers: &[u8; 4]) -> Option<Win> {
        let header = |i: u8| headers[usize::from(i)];
        let asks = |i: &u8| self.active(header(*i)) && usize::from(header(*i) >> 2 & 3) == output;
        let askers: Vec<u8> = (0..4).filter(asks).collect();
        let highs: Vec<u8> = askers
            .iter()
            .copied()
            .filter(|&i| self.high(header(i)))
            .collect();
        let board_high = headers.iter().any(|&h| self.high(h));
        let lows_out = !highs.is_empty() || (self.has(Wrong::BoardPriority) && board_high);
        let left = if lows_out { &highs } else { &askers };
        let counted = if self.has(Wrong::LowNotCounted) {
            left
        } else {
            &askers
        };
        self.turn(holder)
            .into_iter()
            .find(|i| left.contains(i))
            .map(|winner| Win {
                winner,
                turned_away: counted.len() - 1,
            })
    }

    /// The order in which inputs are looked at after an old holder.
    fn turn(&self, holder: u8) -> [u8; 4] {
        let begin = u8::from(!self.has(Wrong::TurnAtHolder));
        from_fn(|step| (holder % 4 + begin + step as u8) % 4)
    }

    /// Rules 5 to 7, with the holders of rule 4.
    fn next(&self, now: &State, inputs: &Inputs, routing: Option<&Routing>) -> State {
        let win = |o: usize| routing.and_then(|wins| wins[o]);
        let start = inputs.start;
        let stuck = start && self.has(Wrong::StartHoldsHolder);
        let ended = routing.is_some() && self.has(Wrong::PhaseAtStart);
        let holder = |o: usize| match win(o) {
            Some(w) if !stuck => w.winner,
            None if routing.is_some() && self.has(Wrong::UnaskedHolder) => 0,
            _ => now.holder[o],
        };
        let shut = |o: usize| {
            let opens = win(o).is_some();
            let keeps = start && !(opens && self.has(Wrong::RoutingWins));
            keeps || (now.shut[o] && !opens)
        };
        State {
            waiting: (start && !ended) || (now.waiting && routing.is_none()),
            shut: from_fn(shut),
            holder: from_fn(holder),
            rows: self.next_rows(now, inputs),
        }
    }

    fn next_rows(&self, now: &State, inputs: &Inputs) -> [[u8; 4]; 4] {
        let mut rows = now.rows;
        rows[FIRST] = inputs.bytes;
        rows[SECOND] = now.rows[FIRST];
        rows[SWITCH] = from_fn(|o| {
            if now.shut[o] && !self.has(Wrong::ShutPasses) {
                0
            } else {
                now.rows[SECOND][usize::from(now.holder[o])]
            }
        });
        rows[HEAD] = if self.has(Wrong::EarlyHead) {
            rows[SWITCH]
        } else {
            now.rows[SWITCH]
        };
        rows
    }
}
