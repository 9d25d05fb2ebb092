//! The letters W and K of the probe: their payloads, and the lines printed.

use super::orders::Order;
use super::probe::{number, Line, Outcome, LENGTH};
use super::wrong::Wrong;
use super::Model;

/// A buffer length and the number of an input.
const LENGTH_AND_INPUT: usize = LENGTH + 4;

/// W: a frame to be written into a lent buffer.
pub struct WriteCall {
    pub room: usize,
    pub order: Order,
}

impl WriteCall {
    pub fn payload(&self) -> Vec<u8> {
        let mut payload = (self.room as u32).to_be_bytes().to_vec();
        payload.extend(self.order.to_bytes());
        payload
    }
}

/// K: a cell to be read into a lent buffer.
pub struct ReadCall {
    pub room: usize,
    pub input: usize,
    pub frame: Vec<u8>,
}

impl ReadCall {
    pub fn from_payload(payload: &[u8]) -> Option<ReadCall> {
        let frame = payload.get(LENGTH_AND_INPUT..)?;
        Some(ReadCall {
            room: number(&payload[..LENGTH]) as usize,
            input: number(&payload[LENGTH..LENGTH_AND_INPUT]) as usize,
            frame: frame.to_vec(),
        })
    }

    pub fn payload(&self) -> Vec<u8> {
        let mut payload = Vec::new();
        for number in [self.room, self.input] {
            payload.extend((number as u32).to_be_bytes());
        }
        payload.extend(&self.frame);
        payload
    }
}

impl Model {
    /// None if there is not exactly one order behind the length.
    pub fn write_call(&self, payload: &[u8]) -> Option<WriteCall> {
        let bytes = payload.get(LENGTH..)?;
        let (order, used) = self.order(bytes)?;
        let whole = used == bytes.len() || self.has(Wrong::LeftOver);
        let room = number(&payload[..LENGTH]) as usize;
        whole.then_some(WriteCall { room, order })
    }

    pub fn framed(&self, payload: &[u8], buffer: &mut [u8]) -> Line {
        let call = self.write_call(payload).expect("a payload that fits");
        let number = self.write_frame(&call.order, buffer);
        (Outcome::Number(number), self.lent(number, buffer))
    }

    /// To find no cell is no refusal, so this is always done.
    pub fn read(&self, payload: &[u8], buffer: &mut [u8]) -> Line {
        let call = ReadCall::from_payload(payload).expect("a payload that fits");
        let count = self.read_cell(&call.frame, call.input, buffer);
        (Outcome::Number(0), self.lent(count as u32, buffer))
    }
}
