//! What the program readback prints: of each head, whether it has shown the
//! text that was due.

use super::probe::LONGEST;
use super::text_calls::Pair;
use super::wrong::Wrong;
use super::{Model, Verdict, DONE};

pub const HEADS: usize = 4;

/// The input ends inside the texts.
const CUT: Verdict = Verdict {
    number: 25,
    index: 0,
};

pub struct Readback {
    /// The texts that are whole, fewer than four where the input is cut.
    pub due: Vec<Vec<u8>>,
    /// What stands behind them; behind four it is the capture.
    pub rest: Vec<u8>,
    pub number: u32,
    /// What was due and what was shown at each head, if the capture is done.
    pub heads: Vec<Pair>,
    pub output: String,
}

impl Model {
    pub fn readback(&self, input: &[u8]) -> Readback {
        let (due, rest) = self.texts(input);
        let cut = due.len() < HEADS || (rest.is_empty() && self.has(Wrong::EndRefused));
        let (verdict, answers) = self.judged(self.capture(input, rest), cut);
        let texts = due.iter().enumerate();
        let mut heads: Vec<Pair> = texts
            .map(|(head, due)| self.compared(due, self.shown(&answers, head)))
            .collect();
        let mut output = String::new();
        if verdict == DONE || (verdict != CUT && self.has(Wrong::LinesFirst)) {
            output = self.head_lines(&heads);
        }
        if verdict != DONE {
            output += &self.refusal(verdict);
            heads.clear();
        }
        if self.has(Wrong::OutputShort) {
            output.truncate(LONGEST);
        }
        Readback {
            due,
            rest: rest.to_vec(),
            number: verdict.number,
            heads,
            output,
        }
    }

    /// The texts that are whole, four at the most, and what is behind them.
    fn texts<'a>(&self, input: &'a [u8]) -> (Vec<Vec<u8>>, &'a [u8]) {
        let (mut due, mut rest) = (Vec::new(), input);
        while let Some((text, used)) = self.text(rest).filter(|_| due.len() < HEADS) {
            due.push(text);
            rest = &rest[used..];
        }
        let taken = match (due.is_empty(), rest.is_empty()) {
            (true, true) => Wrong::EmptyTaken,
            (false, true) => Wrong::MissingTaken,
            (_, false) => Wrong::CutTaken,
        };
        if due.len() < HEADS && self.has(taken) {
            due.extend(rest.get(1..).map(<[u8]>::to_vec));
            due.resize(HEADS, Vec::new());
            rest = &[];
        }
        (due, rest)
    }

    /// The first text and how many bytes it takes with its length.
    fn text(&self, bytes: &[u8]) -> Option<(Vec<u8>, usize)> {
        let length = usize::from(*bytes.first()?);
        let end = if self.has(Wrong::LengthOfAll) {
            length.max(1)
        } else {
            length + 1
        };
        let begin = usize::from(!self.has(Wrong::LengthInText));
        let text = bytes.get(begin..end)?;
        Some((text.to_vec(), end))
    }

    /// What is judged as the capture. A good one has room in 65,536 bytes
    /// together with its texts, so that mistakes can begin beyond these.
    fn capture<'a>(&self, input: &'a [u8], rest: &'a [u8]) -> &'a [u8] {
        let beyond = input.len().saturating_sub(LONGEST);
        if beyond > 0 && self.has(Wrong::TextsCounted) {
            input
        } else if self.has(Wrong::InputShort) {
            &rest[..rest.len() - beyond]
        } else {
            rest
        }
    }

    /// What ends inside the texts has no capture to be judged.
    fn judged(&self, capture: &[u8], cut: bool) -> (Verdict, Vec<u8>) {
        if cut && !self.has(Wrong::CutLate) {
            return (CUT, Vec::new());
        }
        match self.from_reset(capture) {
            (DONE, _) if cut => (CUT, Vec::new()),
            judged => judged,
        }
    }

    fn compared(&self, due: &[u8], shown: Vec<u8>) -> Pair {
        let due = due.to_vec();
        let mut pair = Pair { due, shown };
        if self.has(Wrong::DueZeros) {
            pair.due.retain(|&byte| byte != 0);
        }
        if self.has(Wrong::ShownShort) {
            pair.shown.truncate(256);
        }
        pair
    }

    fn head_lines(&self, heads: &[Pair]) -> String {
        let line = |(head, pair): (usize, &Pair)| {
            let told = self.told(&pair.due, &pair.shown);
            let dash = told == "same" && self.has(Wrong::SameDash);
            format!("{head} {told}{}\n", if dash { " -" } else { "" })
        };
        let mut lines: Vec<String> = heads.iter().enumerate().map(line).collect();
        if self.has(Wrong::LinesExchanged) && lines.len() == HEADS {
            lines.swap(1, 2);
        }
        lines.concat()
    }
}
