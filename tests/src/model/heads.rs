//! What a head shows, taken out of answer records.

use super::cycle::RECORD;
use super::wrong::Wrong;
use super::Model;

impl Model {
    /// Answers how many bytes were put. A full buffer takes no more, and the
    /// bytes behind the text stay.
    pub fn head_text(&self, answers: &[u8], head: usize, buffer: &mut [u8]) -> usize {
        let text = self.shown(answers, head);
        let room = buffer.len();
        let fits = text.len() <= room;
        let put: &[u8] = match fits {
            true => &text[..],
            false if self.has(Wrong::HeadPartUnput) => &[],
            false if self.has(Wrong::FullMovesOn) => &text[text.len() - room..],
            false => &text[..room],
        };
        buffer[..put.len()].copy_from_slice(put);
        if self.has(Wrong::FullWraps) && room > 0 {
            for (place, &byte) in text.iter().enumerate() {
                buffer[place % room] = byte;
            }
        }
        let overwritten = if self.has(Wrong::HeadRestCleared) {
            room
        } else {
            usize::from(self.has(Wrong::HeadByteBeyond))
        };
        let behind = buffer[put.len()..].iter_mut();
        behind.take(overwritten).for_each(|byte| *byte = 0);
        if self.has(Wrong::HeadCountsAll) {
            text.len()
        } else {
            put.len()
        }
    }

    /// The head's bytes in all whole records, without the zeros.
    pub fn shown(&self, answers: &[u8], head: usize) -> Vec<u8> {
        let head = match head {
            0..=3 => head,
            _ if self.has(Wrong::HeadModulo) => head % 4,
            _ => return Vec::new(),
        };
        let column = 1 + head - usize::from(self.has(Wrong::ColumnBefore));
        let whole = |record: &&[u8]| record.len() == RECORD || self.has(Wrong::HeadPartRead);
        let mut records: Vec<&[u8]> = answers.chunks(RECORD).filter(whole).collect();
        if self.has(Wrong::LastRecordLost) {
            records.pop();
        }
        let column = |record: &&[u8]| record.get(column).copied();
        let mut text: Vec<u8> = records.iter().filter_map(column).collect();
        if self.has(Wrong::ZerosAtEnd) {
            let last = text.iter().rposition(|&byte| byte != 0);
            text.truncate(last.map_or(0, |last| last + 1));
        } else if !self.has(Wrong::ZerosKept) {
            text.retain(|&byte| byte != 0);
        }
        text
    }
}
