//! Captures of one length and three kinds, the same in every run, and the
//! answers that are right for them.

use outside_model::make::rng::Rng;
use outside_model::model::cycle::{Inputs, RECORD};
use outside_model::model::state::State;
use outside_model::model::RIGHT;
use std::array::from_fn;

pub const RECORDS: usize = 1_000_000;
const SEED: u64 = 3;

/// What one kind of capture does, frame by frame or record by record.
type Habit = fn(&mut Capture, &mut Rng);

pub const KINDS: [(&str, Habit); 3] = [
    ("ATM-sized frames", atm_frame),
    ("short frames with contention", short_frame),
    ("random bytes without meetings", random_record),
];

pub struct Capture {
    pub bytes: Vec<u8>,
    pub answers: Vec<u8>,
    pub routings: usize,
    /// How often a winner is chosen: once for each output that is asked for.
    pub choices: usize,
    state: State,
}

impl Capture {
    pub fn of_kind(kind: usize) -> Capture {
        let mut rng = Rng::for_work(SEED, 0, kind);
        let mut capture = Capture {
            bytes: Vec::new(),
            answers: Vec::new(),
            routings: 0,
            choices: 0,
            state: State::reset(),
        };
        while !capture.is_full() {
            KINDS[kind].1(&mut capture, &mut rng);
        }
        capture
    }

    fn is_full(&self) -> bool {
        self.bytes.len() == RECORD * RECORDS
    }

    /// A frame that does not fit whole is cut where the capture is full.
    fn push(&mut self, start: bool, acks: u8, bytes: [u8; 4]) {
        if self.is_full() {
            return;
        }
        let mut record = vec![u8::from(start) << 7 | acks & 15];
        record.extend(bytes);
        let cycle = RIGHT.cycle(&self.state, &Inputs::from_record(&record));
        self.answers.extend(cycle.answer.to_record());
        if let Some(outcomes) = cycle.report {
            self.routings += 1;
            self.choices += outcomes.iter().flatten().count();
        }
        self.state = cycle.next;
        self.bytes.extend(record);
    }

    /// Whether the next cycle has a routing, which nothing that comes in then
    /// can change.
    fn routes_next(&self) -> bool {
        let nothing = Inputs::from_record(&[0; RECORD]);
        RIGHT.cycle(&self.state, &nothing).report.is_some()
    }

    fn quiet(&mut self, start: bool, cycles: usize) {
        (0..cycles).for_each(|_| self.push(start, 15, [0; 4]));
    }

    fn body(&mut self, rng: &mut Rng, cycles: usize) {
        (0..cycles).for_each(|_| self.push(false, 15, from_fn(|_| rng.byte())));
    }
}

/// 64 cycles. Behind the header that the fabric reads come the second routing
/// byte and the 53 bytes of an ATM cell. Three inputs of four have a cell.
fn atm_frame(capture: &mut Capture, rng: &mut Rng) {
    let header = |rng: &mut Rng| if rng.once_in(4) { 0 } else { rng.byte() | 1 };
    capture.quiet(true, 1);
    capture.quiet(false, 1);
    capture.push(false, 15, from_fn(|_| header(rng)));
    capture.body(rng, 54);
    capture.quiet(false, 7);
}

/// 5 cycles, the shortest frame whose routing meets no start. All inputs have
/// a cell, and they ask for two outputs at most.
fn short_frame(capture: &mut Capture, rng: &mut Rng) {
    let outputs = [rng.byte() & 0x0C, rng.byte() & 0x0C];
    let header = |rng: &mut Rng| rng.byte() & 2 | rng.pick(&outputs) | 1;
    capture.quiet(true, 1);
    capture.push(false, 15, from_fn(|_| header(rng)));
    capture.body(rng, 2);
    capture.quiet(false, 1);
}

/// A start in every second record on average, and never at a routing.
fn random_record(capture: &mut Capture, rng: &mut Rng) {
    let start = rng.once_in(2) && !capture.routes_next();
    capture.push(start, rng.byte(), from_fn(|_| rng.byte()));
}
