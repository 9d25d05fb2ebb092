//! Records on a tape: frames, well formed or not, and noise.

use super::rng::Rng;
use crate::model::cycle::RECORD;
use std::array::from_fn;

/// How the output acknowledgements of a tape come about.
#[derive(Clone, Copy)]
enum Acks {
    Random,
    Fixed(u8),
    Seldom,
}

/// A capture being written, with habits that last for the whole tape.
pub struct Tape {
    pub bytes: Vec<u8>,
    acks: Acks,
    zeros_when_quiet: bool,
    /// The output of bits 3..2 that inputs contend for, frame after frame,
    /// so that a holder left wrong shows in a later turn.
    favourite: u8,
}

impl Tape {
    pub fn new(rng: &mut Rng) -> Tape {
        let acks = match rng.below(4) {
            0 | 1 => Acks::Random,
            2 => Acks::Fixed(rng.byte() & 15),
            _ => Acks::Seldom,
        };
        Tape {
            bytes: Vec::new(),
            acks,
            zeros_when_quiet: rng.once_in(2),
            favourite: rng.byte() & 0x0C,
        }
    }

    pub fn records(&self) -> usize {
        self.bytes.len() / RECORD
    }

    pub fn push(&mut self, rng: &mut Rng, start: bool, bytes: [u8; 4]) {
        let acks = match self.acks {
            Acks::Random => rng.byte() & 15,
            Acks::Fixed(mask) => mask,
            Acks::Seldom => (1 << rng.below(16) & 15) as u8,
        };
        self.bytes.push(u8::from(start) << 7 | acks);
        self.bytes.extend(bytes);
    }

    /// Bytes without an active bit; the other bits must not matter.
    fn quiet_byte(&self, rng: &mut Rng) -> u8 {
        if self.zeros_when_quiet {
            0
        } else {
            rng.byte() & !1
        }
    }

    fn quiet(&mut self, rng: &mut Rng, start: bool) {
        let bytes = from_fn(|_| self.quiet_byte(rng));
        self.push(rng, start, bytes);
    }

    fn idle(&mut self, rng: &mut Rng, cycles: usize) {
        (0..cycles).for_each(|_| self.quiet(rng, false));
    }

    /// One to four cells: all for the favourite output, or each for any.
    fn headers(&mut self, rng: &mut Rng) {
        let sure = rng.below(4);
        let fill = rng.pick(&[1, 1, 2, 4]);
        let common = rng.once_in(2).then_some(self.favourite);
        let bytes = from_fn(|input| {
            if input == sure || rng.once_in(fill) {
                let random = rng.byte() | 1;
                common.map_or(random, |output| random & !0x0C | output)
            } else {
                self.quiet_byte(rng)
            }
        });
        self.push(rng, false, bytes);
    }

    fn body(&mut self, rng: &mut Rng, cycles: usize) {
        for _ in 0..cycles {
            let bytes = from_fn(|_| rng.byte());
            self.push(rng, false, bytes);
        }
    }

    /// A well-formed frame; the next one may start in the cycle after it.
    fn frame(&mut self, rng: &mut Rng) {
        self.quiet(rng, true);
        let lead = rng.pick(&[0, 0, 1, 2, 5]);
        self.idle(rng, lead);
        if !rng.once_in(5) {
            self.headers(rng);
            let length = rng.from_to(1, 12);
            self.body(rng, length);
            self.idle(rng, 1);
        }
        let gap = rng.pick(&[0, 0, 1, 3]);
        self.idle(rng, gap);
    }

    /// A header that meets the next start at its routing, or a cycle or two
    /// around it.
    fn meeting(&mut self, rng: &mut Rng) {
        self.quiet(rng, true);
        let lead = rng.below(3);
        self.idle(rng, lead);
        self.headers(rng);
        let between = rng.pick(&[0, 1, 1, 1, 2, 3]);
        if rng.once_in(2) {
            self.idle(rng, between);
        } else {
            self.body(rng, between);
        }
    }

    pub fn frames(&mut self, rng: &mut Rng, records: usize) {
        let lead = rng.below(4);
        self.idle(rng, lead);
        while self.records() < records {
            self.frame(rng);
        }
        self.bytes.truncate(records * RECORD);
    }

    pub fn meetings(&mut self, rng: &mut Rng, records: usize) {
        while self.records() < records {
            if rng.once_in(4) {
                self.frame(rng);
            } else {
                self.meeting(rng);
            }
        }
        self.bytes.truncate(records * RECORD);
    }

    /// Any bytes; starts come once in `gap` cycles.
    pub fn noise(&mut self, rng: &mut Rng, records: usize, gap: usize) {
        for _ in 0..records {
            let start = rng.once_in(gap);
            let bytes = from_fn(|_| rng.byte());
            self.push(rng, start, bytes);
        }
    }

    /// Active bytes and starts are both seldom.
    pub fn sparse(&mut self, rng: &mut Rng, records: usize) {
        for _ in 0..records {
            let start = rng.once_in(12);
            let bytes = from_fn(|_| {
                if rng.once_in(16) {
                    rng.byte() | 1
                } else {
                    self.quiet_byte(rng)
                }
            });
            self.push(rng, start, bytes);
        }
    }
}
