//! What the program write_frame prints for the orders on its input.

use super::cycle::RECORD;
use super::orders::Order;
use super::probe::Outcome;
use super::writer::MOST_LENGTH;
use super::wrong::Wrong;
use super::Model;

pub struct Written {
    /// The orders read whole; the last of them may be a refused one.
    pub orders: Vec<Order>,
    /// What stands behind these on the input.
    pub rest: Vec<u8>,
    /// Number 0 where the input ends between two orders.
    pub end: Outcome,
    pub output: Vec<u8>,
    pub errors: String,
}

impl Written {
    pub fn refused(&self) -> bool {
        matches!(self.end, Outcome::Number(number) if number != 0)
    }
}

impl Model {
    pub fn written(&self, input: &[u8]) -> Written {
        let mut all = Written {
            orders: Vec::new(),
            rest: Vec::new(),
            end: Outcome::Number(0),
            output: Vec::new(),
            errors: String::new(),
        };
        // One buffer for all frames, with room for the longest.
        let mut buffer = vec![0; MOST_LENGTH * RECORD];
        let mut rest = input;
        while !rest.is_empty() && self.goes_on(all.end) {
            let frame = all.orders.len();
            let used = self.step(rest, &mut buffer, &mut all);
            rest = &rest[used..];
            all.errors += &self.complaint(all.end, frame);
        }
        all.rest = rest.to_vec();
        self.misprint(&mut all);
        all
    }

    fn goes_on(&self, end: Outcome) -> bool {
        match end {
            Outcome::Number(0) => true,
            Outcome::Number(_) => self.has(Wrong::PastRefused),
            _ => false,
        }
    }

    /// Takes up one order, and says how many bytes it was.
    fn step(&self, rest: &[u8], buffer: &mut [u8], all: &mut Written) -> usize {
        let (order, used) = match self.order(rest) {
            Some(found) => found,
            None => {
                all.end = self.cut(rest);
                return 0;
            }
        };
        let number = self.write_frame(&order, buffer);
        let bytes = self.laid(&order, number) * RECORD;
        all.output.extend(&buffer[..bytes]);
        all.orders.push(order);
        all.end = Outcome::Number(number);
        used
    }

    /// An order that is cut is not judged, whatever its first bytes say.
    fn cut(&self, rest: &[u8]) -> Outcome {
        let front = self.front(rest);
        match front.map_or(0, |order| self.check_order(&order, usize::MAX)) {
            number if number != 0 && self.has(Wrong::CutRefused) => Outcome::Number(number),
            _ => Outcome::CutShort,
        }
    }

    fn complaint(&self, end: Outcome, frame: usize) -> String {
        let frame = match frame {
            n if self.has(Wrong::FramesFromOne) => (n + 1).to_string(),
            n if self.has(Wrong::FrameHex) => format!("{n:X}"),
            n if self.has(Wrong::FrameByte) => (n % 256).to_string(),
            n => n.to_string(),
        };
        match end {
            Outcome::Number(0) => String::new(),
            Outcome::Number(number) => format!("refused {number} at {frame}\n"),
            _ if self.has(Wrong::CutUnsaid) => String::new(),
            _ => format!("{} at {frame}\n", end.words()),
        }
    }

    fn misprint(&self, all: &mut Written) {
        let clean = all.end == Outcome::Number(0);
        if clean && self.has(Wrong::EndCut) {
            all.errors = self.complaint(Outcome::CutShort, all.orders.len());
        }
        if !clean && self.has(Wrong::FramesLost) {
            all.output.clear();
        }
        if self.has(Wrong::SaidOnOutput) {
            all.output.extend(all.errors.drain(..).map(|c| c as u8));
        }
    }
}
