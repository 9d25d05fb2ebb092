//! Gate words and the gate evaluator.

use super::wrong::Wrong;
use super::{first_refusal, Model, Verdict, DONE};
use std::array::from_fn;

pub const NETS: usize = 64;
pub const KINDS: u32 = 9;

/// A gate word taken apart.
#[derive(Clone, Copy)]
pub struct Gate {
    pub kind: u32,
    pub nets: [u32; 4],
    pub count: u32,
}

impl Gate {
    pub fn from_word(word: u32) -> Gate {
        Gate {
            kind: word >> 28,
            nets: from_fn(|place| word >> (22 - 6 * place) & 63),
            count: word & 15,
        }
    }

    pub fn to_word(self) -> u32 {
        let nets: u32 = (0..4)
            .map(|place| self.nets[place] << (22 - 6 * place))
            .sum();
        self.kind << 28 | nets | self.count
    }

    /// The nets read; the count is at most 4 in a good word.
    fn used(&self) -> &[u32] {
        &self.nets[..(self.count as usize).min(4)]
    }

    fn unused(&self) -> &[u32] {
        &self.nets[(self.count as usize).min(4)..]
    }
}

/// The input counts that a kind may have, least and most.
pub fn counts(kind: u32) -> Option<(u32, u32)> {
    match kind {
        0 | 1 => Some((1, 1)),
        2..=5 => Some((2, 4)),
        6 | 7 => Some((2, 2)),
        8 => Some((4, 4)),
        _ => None,
    }
}

impl Model {
    /// The verdict, and the nets as bits (0 if refused).
    pub fn evaluate(&self, count: u64, input: u64, words: &[u32]) -> (Verdict, u64) {
        let count = if self.has(Wrong::ShortCount) {
            count & 0xFFFF_FFFF
        } else {
            count
        };
        let verdict = self.check_block(count, input, words);
        if verdict.number != 0 {
            return (verdict, 0);
        }
        let gates = words.iter().map(|&word| Gate::from_word(word));
        let nets = gates.enumerate().fold(input, |nets, (index, gate)| {
            nets | u64::from(self.output(&gate, nets)) << (count as usize + index)
        });
        (DONE, nets)
    }

    fn check_block(&self, count: u64, input: u64, words: &[u32]) -> Verdict {
        let most = NETS - usize::from(self.has(Wrong::NetLimit));
        let small = (1..=8).contains(&count);
        let wrong_size = !small || words.is_empty() || count as usize + words.len() > most;
        let seen = if self.has(Wrong::HighInput) {
            input << 1 >> 1
        } else {
            input
        };
        let above = count < 64 && seen >> count != 0;
        let mut tests = [(10, wrong_size), (13, above)];
        if self.has(Wrong::ThirteenBeforeTen) {
            tests.reverse();
        }
        match first_refusal(&tests) {
            0 => self.check_words(count as usize, words),
            number => Verdict { number, index: 0 },
        }
    }

    fn check_words(&self, count: usize, words: &[u32]) -> Verdict {
        let numbers = words
            .iter()
            .enumerate()
            .map(|(index, &word)| self.check_word(count + index, word));
        let mut refused = numbers.enumerate().filter(|(_, number)| *number != 0);
        let found = if self.has(Wrong::ElevenPass) {
            refused.min_by_key(|&(index, number)| (number, index))
        } else {
            refused.next()
        };
        let shift = if self.has(Wrong::NetIndex) { count } else { 0 };
        found.map_or(DONE, |(index, number)| Verdict {
            number,
            index: index + shift,
        })
    }

    /// 11 or 12, or 0 for a word that may make net `own`.
    fn check_word(&self, own: usize, word: u32) -> u32 {
        let gate = Gate::from_word(word);
        let fits = counts(gate.kind).map_or(false, |(least, most)| {
            let idle = gate.unused().iter().all(|&net| net == 0);
            (least..=most).contains(&gate.count) && (idle || self.has(Wrong::UnusedField))
        });
        let first_late = own + usize::from(self.has(Wrong::OwnNet));
        let late = gate.used().iter().any(|&net| net as usize >= first_late);
        let mut tests = [(11, !fits), (12, late)];
        if self.has(Wrong::TwelveBeforeEleven) {
            tests.reverse();
        }
        first_refusal(&tests)
    }

    fn output(&self, gate: &Gate, nets: u64) -> bool {
        let bits: Vec<bool> = gate.used().iter().map(|net| nets >> net & 1 == 1).collect();
        let all = bits.iter().all(|&bit| bit);
        let any = bits.iter().any(|&bit| bit);
        match gate.kind {
            0 => bits[0],
            1 => !bits[0],
            2 => all,
            3 if self.has(Wrong::NandOfFour) && bits.len() == 4 => !bits[..3].iter().all(|&b| b),
            3 => !all,
            4 => any,
            5 => !any,
            6 => bits[0] != bits[1],
            7 => bits[0] == bits[1],
            _ if self.has(Wrong::KindEight) => bits[0] && bits[2] || bits[1] && bits[3],
            _ => bits[0] && bits[1] || bits[2] && bits[3],
        }
    }
}
