//! The listing that the replay program prints.

use super::cycle::RECORD;
use super::wrong::Wrong;
use super::{Model, Verdict};
use std::fmt::Write;

pub const HEADING: &str = "cycle ack h0 h1 h2 h3\n";

impl Model {
    /// The verdict on a capture from reset, and all that is printed for it.
    pub fn listing(&self, capture: &[u8]) -> (Verdict, String) {
        let (verdict, answers) = self.from_reset(capture);
        let text = if verdict.number != 0 {
            self.refusal(verdict)
        } else if answers.is_empty() && self.has(Wrong::NoHeading) {
            String::new()
        } else {
            self.lines(&answers)
        };
        (verdict, text)
    }

    pub fn refusal(&self, verdict: Verdict) -> String {
        let before = if self.has(Wrong::HeadingFirst) {
            HEADING
        } else {
            ""
        };
        let at = if verdict.number == 3 && !self.has(Wrong::NoIndex) {
            format!(" at {}", verdict.index)
        } else {
            String::new()
        };
        format!("{before}refused {}{at}\n", verdict.number)
    }

    fn lines(&self, answers: &[u8]) -> String {
        let mut text = String::from(HEADING);
        for (cycle, record) in answers.chunks(RECORD).enumerate() {
            if self.has(Wrong::HexCycle) {
                write!(text, "{cycle:X}").expect("a string takes all");
            } else {
                write!(text, "{cycle}").expect("a string takes all");
            }
            for byte in record {
                text.push(' ');
                text.push_str(&self.hex(&[*byte]));
            }
            text.push('\n');
        }
        text
    }

    /// Upper-case digits without blanks.
    pub fn hex(&self, bytes: &[u8]) -> String {
        let digits: &[u8; 16] = if self.has(Wrong::LowerHex) {
            b"0123456789abcdef"
        } else {
            b"0123456789ABCDEF"
        };
        bytes
            .iter()
            .flat_map(|byte| [byte >> 4, byte & 15])
            .map(|digit| char::from(digits[usize::from(digit)]))
            .collect()
    }
}
