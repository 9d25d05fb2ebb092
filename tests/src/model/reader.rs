//! The reader of frames: the cell of one input.

use super::cycle::RECORD;
use super::wrong::Wrong;
use super::Model;

impl Model {
    /// Answers how many bytes the cell has, header and body. They are
    /// written only if all of them fit.
    pub fn read_cell(&self, frame: &[u8], input: usize, buffer: &mut [u8]) -> usize {
        let cell = self.cell_in(frame, input).unwrap_or_default();
        let room = buffer.len();
        let fits = cell.len() + usize::from(self.has(Wrong::ReadTight)) <= room;
        let written = match fits {
            true => cell.len(),
            false if self.has(Wrong::ReadPart) => cell.len().min(room),
            false => 0,
        };
        buffer[..written].copy_from_slice(&cell[..written]);
        if self.has(Wrong::ReadBeyond) && written > 0 {
            buffer[written..].iter_mut().take(1).for_each(|b| *b = 0);
        }
        if fits || !self.has(Wrong::ReadUncounted) {
            cell.len()
        } else {
            0
        }
    }

    fn cell_in(&self, frame: &[u8], input: usize) -> Option<Vec<u8>> {
        let input = match input {
            0..=3 => input,
            _ if self.has(Wrong::ReadModulo) => input % 4,
            _ => return None,
        };
        let whole = |record: &&[u8]| record.len() == RECORD || self.has(Wrong::ReadHalf);
        let records: Vec<&[u8]> = frame.chunks(RECORD).filter(whole).collect();
        let th = records.iter().position(|r| self.brings_headers(r, input))?;
        let own = |record: &&[u8]| record.get(1 + input).copied();
        let sent: Vec<u8> = records[th..].iter().filter_map(own).collect();
        let header = sent.first()?;
        let end = self.end_of(&sent);
        let unseen = end == 1 && self.has(Wrong::ReadAlone);
        (header & 1 == 1 && !unseen).then(|| sent[..end].to_vec())
    }

    /// The record of the headers is the same for all inputs.
    fn brings_headers(&self, record: &[u8], input: usize) -> bool {
        let looked_at = if self.has(Wrong::ReadOwn) {
            &record[1 + input..2 + input]
        } else if self.has(Wrong::ReadFlags) {
            record
        } else {
            &record[1..]
        };
        looked_at.iter().any(|byte| byte & 1 == 1)
    }

    /// Where the cell ends in what the input sends from its header on.
    fn end_of(&self, sent: &[u8]) -> usize {
        if self.has(Wrong::ReadKeeps) {
            sent.len()
        } else if self.has(Wrong::ReadStops) {
            let zero = sent.iter().position(|&byte| byte == 0);
            zero.unwrap_or(sent.len())
        } else {
            let last = sent.iter().rposition(|&byte| byte != 0);
            last.map_or(0, |last| last + 1)
        }
    }
}
