//! The writer of frames: the refusals 20 to 24, and the records.

use super::cycle::RECORD;
use super::orders::{Cell, Order};
use super::wrong::Wrong;
use super::{first_refusal, Model};

pub const MOST_GAP: usize = 16;
pub const MOST_LENGTH: usize = 4_096;
pub const MOST_BODY: usize = 64;

impl Model {
    /// Answers the refusal number; a refused call leaves the buffer alone,
    /// and a good one leaves what stands beyond the frame.
    pub fn write_frame(&self, order: &Order, buffer: &mut [u8]) -> u32 {
        let number = self.check_order(order, buffer.len());
        let beyond = usize::from(number == 0 && self.has(Wrong::FrameBeyond));
        let records = self.laid(order, number) + beyond;
        for (t, place) in buffer.chunks_mut(RECORD).take(records).enumerate() {
            for (old, new) in place.iter_mut().zip(self.record(order, t)) {
                if new != 0 || !self.has(Wrong::NotCleared) {
                    *old = new;
                }
            }
        }
        number
    }

    /// How many records a call leaves that ends with a number.
    pub fn laid(&self, order: &Order, number: u32) -> usize {
        match number {
            0 => order.length,
            _ => usize::from(self.has(Wrong::FrameBegun)),
        }
    }

    pub fn check_order(&self, order: &Order, room: usize) -> u32 {
        let least = if self.has(Wrong::CellByCell) { 1 } else { 4 };
        let refused = (least..=4)
            .map(|cells| first_refusal(&self.reasons(order, &order.cells[..cells])))
            .find(|&number| number != 0)
            .unwrap_or(0);
        let room = room + usize::from(self.has(Wrong::FrameShort));
        let mut tests = [(refused, refused != 0), (24, room < order.size())];
        if self.has(Wrong::TwentyFourFirst) {
            tests.reverse();
        }
        first_refusal(&tests)
    }

    /// The numbers 20 to 23, each looked for in all of these cells.
    pub fn reasons(&self, order: &Order, cells: &[Option<Cell>]) -> [(u32, bool); 4] {
        let some = |test: &dyn Fn(&Cell) -> bool| cells.iter().flatten().any(test);
        let mut tests = [
            (20, self.wrong_size(order)),
            (21, some(&|cell| cell.header & 1 == 0)),
            (22, some(&|cell| self.wrong_body(&cell.body))),
            (23, some(&|cell| self.late(order, cell))),
        ];
        let firsts = [
            Wrong::TwentyOneFirst,
            Wrong::TwentyTwoFirst,
            Wrong::TwentyThreeFirst,
        ];
        if let Some(place) = firsts.iter().position(|&wrong| self.has(wrong)) {
            tests.swap(place, place + 1);
        }
        tests
    }

    fn wrong_size(&self, order: &Order) -> bool {
        let one = |wrong| usize::from(self.has(wrong));
        let gaps = 1 - one(Wrong::GapZero)..=MOST_GAP + one(Wrong::GapHigh) - one(Wrong::GapLow);
        let least = order.gap + 2 + one(Wrong::LengthStrict) - one(Wrong::LengthLax);
        let most = MOST_LENGTH + one(Wrong::LengthHigh) - one(Wrong::LengthLow);
        !gaps.contains(&order.gap) || !(least..=most).contains(&order.length)
    }

    fn wrong_body(&self, body: &[u8]) -> bool {
        let one = |wrong| usize::from(self.has(wrong));
        let most = MOST_BODY + one(Wrong::BodyHigh) - one(Wrong::BodyLow);
        let ending = body.last() == Some(&0) && !self.has(Wrong::EndingZero);
        !(1..=most).contains(&body.len()) || ending
    }

    /// The last cycle of a frame may bring no byte of a body.
    fn late(&self, order: &Order, cell: &Cell) -> bool {
        let one = |wrong| usize::from(self.has(wrong));
        let last = order.th() + cell.body.len();
        last + 1 + one(Wrong::LastEarly) - one(Wrong::LastLate) >= order.length
    }

    fn record(&self, order: &Order, t: usize) -> [u8; RECORD] {
        let mut record = [self.flags(order, t), 0, 0, 0, 0];
        for (place, cell) in record[1..].iter_mut().zip(&order.cells) {
            *place = cell.as_ref().map_or(0, |cell| self.sent(order, cell, t));
        }
        record
    }

    fn flags(&self, order: &Order, t: usize) -> u8 {
        let acks = match order.acks {
            _ if t == 0 && self.has(Wrong::AcksNotAtStart) => 0,
            acks if self.has(Wrong::AcksReversed) => acks.reverse_bits() >> 4,
            acks if self.has(Wrong::AckBitsKept) => acks,
            acks => acks & 15,
        };
        u8::from(t == 0) << 7 | acks
    }

    /// What an input with a cell sends in a record.
    fn sent(&self, order: &Order, cell: &Cell, t: usize) -> u8 {
        let th = order.th() - usize::from(self.has(Wrong::HeadersEarly));
        match t.checked_sub(th) {
            None => 0,
            Some(0) if self.has(Wrong::SpareDropped) => cell.header & 15,
            Some(0) => cell.header,
            Some(n) if self.has(Wrong::BodyStops) && cell.body.iter().take(n).any(|&b| b == 0) => 0,
            Some(n) => cell.body.get(n - 1).copied().unwrap_or(0),
        }
    }
}
