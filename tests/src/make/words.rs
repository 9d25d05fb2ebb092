//! Payloads for the gate evaluator.

use super::rng::Rng;
use crate::model::gates::{counts, Gate, KINDS, NETS};
use crate::model::probe::MOST_WORDS;

pub struct Block {
    pub count: u64,
    pub input: u64,
    pub words: Vec<u32>,
}

impl Block {
    pub fn payload(&self) -> Vec<u8> {
        let mut payload = self.count.to_be_bytes().to_vec();
        payload.extend(self.input.to_be_bytes());
        payload.extend(self.words.iter().flat_map(|word| word.to_be_bytes()));
        payload
    }
}

/// A gate that may make net `own`.
fn gate(rng: &mut Rng, own: usize) -> Gate {
    let kind = rng.below(KINDS as usize) as u32;
    let (least, most) = counts(kind).expect("a known kind");
    let count = rng.from_to(least as usize, most as usize) as u32;
    let mut nets = [0; 4];
    for net in nets.iter_mut().take(count as usize) {
        // The newest nets are taken often, so that gates stand in rows.
        let newest = own - 1 - rng.below(own.min(4));
        let any = rng.below(own);
        *net = rng.pick(&[newest, any]) as u32;
    }
    Gate { kind, nets, count }
}

/// A good block with a number of inputs and of words.
pub fn good(rng: &mut Rng, count: usize, length: usize) -> Block {
    let words = (0..length).map(|index| gate(rng, count + index).to_word());
    let words = words.collect();
    Block {
        count: count as u64,
        input: rng.draw() & ((1 << count) - 1),
        words,
    }
}

/// Every kind with every count, on nets 0..3, for one pattern of these.
pub fn every_gate(input: u64) -> Block {
    let gates = (0..KINDS).flat_map(|kind| {
        let (least, most) = counts(kind).expect("a known kind");
        (least..=most).map(move |count| {
            let nets = [0, 1, 2, 3].map(|net| if net < count { net } else { 0 });
            Gate { kind, nets, count }
        })
    });
    Block {
        count: 4,
        input,
        words: gates.map(Gate::to_word).collect(),
    }
}

pub fn block(rng: &mut Rng) -> Block {
    let count = rng.from_to(1, 8);
    let room = NETS - count;
    let length = match rng.below(8) {
        0 => room,
        1 | 2 => rng.from_to(1, room),
        _ => rng.from_to(1, 12),
    };
    let mut block = good(rng, count, length);
    match rng.below(12) {
        0..=3 => (0..rng.from_to(1, 3)).for_each(|_| damage(rng, &mut block)),
        4 => wrong_size(rng, &mut block),
        5 => high_bit(rng, &mut block),
        6 => {
            wrong_size(rng, &mut block);
            high_bit(rng, &mut block);
            damage(rng, &mut block);
        }
        7 => {
            high_bit(rng, &mut block);
            damage(rng, &mut block);
        }
        _ => (),
    }
    block
}

/// Spoils one word in one or two ways.
fn damage(rng: &mut Rng, block: &mut Block) {
    if block.words.is_empty() {
        return;
    }
    let index = rng.below(block.words.len());
    let own = block.count.min(8) as usize + index;
    let mut gate = Gate::from_word(block.words[index]);
    let ways = rng.pick(&[1, 2, 4, 8, 8, 16, 1 | 8, 2 | 16, 4 | 8, 4 | 16]);
    if ways & 1 != 0 {
        gate.kind = rng.from_to(9, 15) as u32;
    }
    if ways & 2 != 0 {
        gate.count = rng.below(16) as u32;
    }
    let used = (gate.count as usize).clamp(1, 4);
    if ways & 4 != 0 && used < 4 {
        gate.nets[rng.from_to(used, 3)] = rng.from_to(1, 63) as u32;
    }
    if ways & (8 | 16) != 0 {
        let late = if ways & 8 != 0 { own } else { own + 1 };
        let any = rng.from_to(late.min(63), 63);
        let net = rng.pick(&[late, any]);
        gate.nets[rng.below(used)] = net.min(63) as u32;
    }
    block.words[index] = gate.to_word();
}

/// A count that is none of 1..8, no words, or too many nets.
fn wrong_size(rng: &mut Rng, block: &mut Block) {
    match rng.below(4) {
        0 | 1 => block.count = rng.pick(WRONG_COUNTS),
        2 => block.words.clear(),
        _ => {
            let room = NETS - block.count as usize;
            let any = rng.from_to(room + 1, MOST_WORDS);
            let length = rng.pick(&[room + 1, NETS, any, MOST_WORDS]);
            let word = block.words[0];
            block.words.resize(length, word);
        }
    }
}

/// Some of these look like 1..8 in fewer bits.
pub const WRONG_COUNTS: &[u64] = &[
    0,
    9,
    16,
    63,
    64,
    65,
    0x103,
    0x1_0004,
    0x1_0000_0003,
    1 << 63,
    u64::MAX - 7,
    u64::MAX,
];

fn high_bit(rng: &mut Rng, block: &mut Block) {
    let count = block.count.min(63) as usize;
    let bit = rng.pick(&[count, 63, 62, 32, 31]).max(count);
    block.input |= 1 << bit;
}
