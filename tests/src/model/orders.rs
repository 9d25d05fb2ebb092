//! Orders: what the writer of frames is asked for, and the bytes that ask.

use super::cycle::RECORD;
use super::probe::number;
use super::wrong::Wrong;
use super::Model;

/// Gap, length and acknowledgements stand before the cells.
const FRONT: usize = 4;

#[derive(Clone, Debug, PartialEq, Eq)]
pub struct Cell {
    pub header: u8,
    pub body: Vec<u8>,
}

impl Cell {
    pub fn to_bytes(&self) -> Vec<u8> {
        let mut bytes = vec![self.header];
        bytes.extend(&self.body);
        bytes
    }
}

#[derive(Clone, Debug, PartialEq, Eq)]
pub struct Order {
    pub gap: usize,
    /// In cycles, which are records.
    pub length: usize,
    /// The byte as given; bits 7..4 are not looked at.
    pub acks: u8,
    pub cells: [Option<Cell>; 4],
}

impl Order {
    /// The record with the headers; the one with the frame start is 0.
    pub fn th(&self) -> usize {
        self.gap + 1
    }

    /// How many bytes the frame has.
    pub fn size(&self) -> usize {
        self.length * RECORD
    }

    pub fn to_bytes(&self) -> Vec<u8> {
        let mut bytes = vec![self.gap as u8];
        bytes.extend((self.length as u16).to_be_bytes());
        bytes.push(self.acks);
        for cell in &self.cells {
            bytes.push(cell.as_ref().map_or(0, |cell| cell.body.len() as u8));
            bytes.extend(cell.iter().flat_map(Cell::to_bytes));
        }
        bytes
    }
}

impl Model {
    /// The first order and how many bytes it takes, or none where the bytes
    /// end inside it.
    pub fn order(&self, bytes: &[u8]) -> Option<(Order, usize)> {
        let mut order = self.front(bytes)?;
        let mut at = FRONT;
        for place in &mut order.cells {
            let (cell, used) = self.cell(&bytes[at..])?;
            *place = cell;
            at += used;
        }
        Some((order, at))
    }

    /// An order as far as it is known before its cells.
    pub fn front(&self, bytes: &[u8]) -> Option<Order> {
        let front = bytes.get(..FRONT)?;
        let mut length = [front[1], front[2]];
        if self.has(Wrong::LowFirst) {
            length.reverse();
        }
        Some(Order {
            gap: usize::from(front[0]),
            length: number(&length) as usize,
            acks: front[3],
            cells: Default::default(),
        })
    }

    fn cell(&self, bytes: &[u8]) -> Option<(Option<Cell>, usize)> {
        let length = usize::from(*bytes.first()?);
        if length == 0 && !self.has(Wrong::HeaderOfNone) {
            return Some((None, 1));
        }
        let sent = bytes.get(1..length + 2)?;
        let cell = Cell {
            header: sent[0],
            body: sent[1..].to_vec(),
        };
        Some(((length > 0).then_some(cell), length + 2))
    }
}
