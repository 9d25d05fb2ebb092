//! The program probe: answers go on line by line, so that one who waits for each gets it.

use crate::build::Built;
use crate::hand::{self, Hand};
use crate::judge;
use crate::run::{Job, Sink};
use crate::say::Fail;
use crate::source::Feed;
use std::sync::{Arc, Mutex};

static JOB: Job = Job {
    name: "probe",
    what: "whole answer",
    reads_all: false,
};

/// A request is a letter, four bytes of length, and so many bytes.
#[derive(Default)]
struct Requests {
    count: u64,
    header: Vec<u8>,
    payload: u64,
}

impl Requests {
    fn pass(&mut self, mut bytes: &[u8]) {
        while let Some((&byte, rest)) = bytes.split_first() {
            if self.payload > 0 {
                let here = self.payload.min(bytes.len() as u64);
                self.payload -= here;
                bytes = &bytes[here as usize..];
                continue;
            }
            self.count += u64::from(self.header.is_empty());
            self.header.push(byte);
            if let [_, a, b, c, d] = self.header[..] {
                self.payload = u64::from(u32::from_be_bytes([a, b, c, d]));
                self.header.clear();
            }
            bytes = rest;
        }
    }
}

struct Counted {
    feed: Box<dyn Feed>,
    requests: Arc<Mutex<Requests>>,
}

impl Feed for Counted {
    fn next(&mut self) -> Result<Option<Vec<u8>>, Fail> {
        let piece = self.feed.next()?;
        if let (Some(piece), Ok(mut requests)) = (&piece, self.requests.lock()) {
            requests.pass(piece);
        }
        Ok(piece)
    }
}

/// Answers so far: those that are held back, and the line that has no end yet.
#[derive(Default)]
struct Answers {
    count: u64,
    last: Vec<u8>,
    unfinished: Vec<u8>,
    held: Vec<u8>,
}

impl Answers {
    /// Takes what was written, and answers the lines that are whole now.
    fn take(&mut self, piece: &[u8]) -> Vec<u8> {
        self.unfinished.extend(piece);
        let end = self
            .unfinished
            .iter()
            .rposition(|&c| c == b'\n')
            .map_or(0, |at| at + 1);
        let lines: Vec<u8> = self.unfinished.drain(..end).collect();
        for line in lines.split_inclusive(|&c| c == b'\n') {
            self.count += 1;
            self.last = line[..line.len() - 1].to_vec();
        }
        lines
    }
}

pub fn probe(built: Built, feed: Box<dyn Feed>, hand: &Hand) -> Result<(), Fail> {
    let requests = Arc::new(Mutex::new(Requests::default()));
    let answers = Arc::new(Mutex::new(Answers::default()));
    let at_once = hand.is_stream();
    let taken = Arc::clone(&answers);
    let pass = move |piece: &[u8]| {
        let mut answers = taken.lock().unwrap_or_else(|broken| broken.into_inner());
        let lines = answers.take(piece);
        if at_once {
            return hand::pass_on(&lines);
        }
        answers.held.extend(lines);
        Ok(())
    };
    let counted = Counted {
        feed,
        requests: Arc::clone(&requests),
    };
    let ran = JOB.run(built, Box::new(counted), Sink::Passed(Box::new(pass)))?;
    let answers = answers.lock().unwrap_or_else(|broken| broken.into_inner());
    let asked = requests.lock().map_or(0, |requests| requests.count);
    if !ran.err.is_empty() {
        return Err(JOB.broken(judge::trouble(&ran.err), &ran.err));
    }
    if !answers.unfinished.is_empty() || !judge::answered(answers.count, &answers.last, asked) {
        let words = format!(
            "what it printed is not whole: {} answers to {asked} requests",
            answers.count
        );
        return Err(JOB.broken(&words, b""));
    }
    if at_once {
        return Ok(());
    }
    hand.over(&answers.held)
}

#[cfg(test)]
mod tests {
    use super::*;

    #[test]
    fn requests_are_counted_however_they_are_cut() {
        let bytes = b"Z\0\0\0\0T\0\0\0\x02abC\0\0";
        for piece in 1..=bytes.len() {
            let mut requests = Requests::default();
            bytes.chunks(piece).for_each(|part| requests.pass(part));
            assert_eq!(requests.count, 3);
        }
    }

    #[test]
    fn only_whole_lines_go_on() {
        let mut answers = Answers::default();
        assert_eq!(answers.take(b"0 ab"), b"");
        assert_eq!(answers.take(b"\nunknown\nma"), b"0 ab\nunknown\n");
        assert_eq!(
            (answers.count, &answers.last[..], &answers.unfinished[..]),
            (2, &b"unknown"[..], &b"ma"[..])
        );
    }
}
