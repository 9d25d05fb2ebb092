//! The work of each letter of the probe, and the line it prints.

use super::cycle::{Inputs, Routing, RECORD};
use super::frame_calls::ReadCall;
use super::probe::{number, plain, Line, Outcome, LENGTH, LETTERS, MOST_WORDS, STATE_AND_LENGTH};
use super::state::{State, IMAGE};
use super::text_calls::HeadCall;
use super::wrong::Wrong;
use super::Model;

/// What a lent buffer holds before the call.
const UNTOUCHED: u8 = 0xA5;

impl Model {
    pub fn answer_to(&self, letter: u8, payload: &[u8]) -> Line {
        if !LETTERS.contains(&letter) {
            return plain(Outcome::Unknown);
        }
        let room = room(letter, payload);
        let tests = [
            (Outcome::Malformed, !self.fits(letter, payload)),
            (Outcome::TooLong, room > self.longest()),
        ];
        let of_letter = match letter {
            b'W' => self.has(Wrong::OrderBufferFirst),
            b'H' => self.has(Wrong::HeadBufferFirst),
            _ => false,
        };
        let place = usize::from(self.has(Wrong::BufferFirst) || of_letter);
        for (outcome, holds) in [tests[place], tests[1 - place]] {
            if holds {
                return plain(outcome);
            }
        }
        self.by_gates(letter).work(letter, payload, room)
    }

    fn fits(&self, letter: u8, payload: &[u8]) -> bool {
        let length = payload.len();
        match letter {
            b'C' | b'D' => {
                let longer = self.has(Wrong::LongCycle) && length == IMAGE + RECORD + 1;
                length == IMAGE + RECORD || longer
            }
            b'R' | b'G' => length >= STATE_AND_LENGTH,
            b'S' => length == STATE_AND_LENGTH,
            b'E' => length >= 16 && length % 4 == 0 && (length - 16) / 4 <= MOST_WORDS,
            b'W' => self.write_call(payload).is_some(),
            b'K' => ReadCall::from_payload(payload).is_some(),
            b'N' => self.pair(payload).is_some(),
            b'H' => HeadCall::from_payload(payload).is_some(),
            _ => true,
        }
    }

    /// By document 01 the gates equal the rules; one fake breaks them alone.
    fn by_gates(&self, letter: u8) -> Model {
        if b"DG".contains(&letter) && self.has(Wrong::GatesTurn) {
            Model::with(Some(Wrong::TurnAtHolder))
        } else {
            *self
        }
    }

    fn work(&self, letter: u8, payload: &[u8], room: usize) -> Line {
        let mut buffer = vec![UNTOUCHED; room];
        match letter {
            b'C' | b'D' => self.single(payload, letter == b'C'),
            b'R' | b'G' => self.replayed(payload, &mut buffer),
            b'S' => {
                let number = self.save(&State::from_image(payload), &mut buffer);
                (Outcome::Number(number), self.lent(number, &buffer))
            }
            b'T' => {
                let (number, state) = self.take(payload);
                let line = format!("{number} {}", self.hex(&state.to_image()));
                (Outcome::Number(number), line)
            }
            b'W' => self.framed(payload, &mut buffer),
            b'K' => self.read(payload, &mut buffer),
            b'N' => self.parted(payload),
            b'H' => self.put_head(payload, &mut buffer),
            _ => self.evaluated(payload),
        }
    }

    fn single(&self, payload: &[u8], with_report: bool) -> Line {
        let (image, record) = payload.split_at(IMAGE);
        let state = State::from_image(image);
        let bits = record[0] & 0x70 != 0 && self.has(Wrong::IgnoredBits);
        let number = match self.check_state(&state) {
            0 if bits => 3,
            number => number,
        };
        let (state, answer, report) = if number == 0 {
            let cycle = self.cycle(&state, &Inputs::from_record(record));
            let next = self.hex(&cycle.next.to_image());
            (next, cycle.answer.to_record(), cycle.report)
        } else {
            (self.refused_state(image), [0; RECORD], None)
        };
        let mut line = format!("{number} {state} {}", self.hex(&answer));
        if with_report {
            line.push(' ');
            line.push_str(&report_text(report));
        }
        (Outcome::Number(number), line)
    }

    /// A refused state is printed as given, but its flags as 00 or 01.
    fn refused_state(&self, image: &[u8]) -> String {
        if self.has(Wrong::FlagsAsGiven) {
            self.hex(image)
        } else {
            self.hex(&State::from_image(image).to_image())
        }
    }

    fn replayed(&self, payload: &[u8], buffer: &mut [u8]) -> Line {
        let state = State::from_image(payload);
        let capture = &payload[STATE_AND_LENGTH..];
        let (verdict, end) = self.replay(&state, capture, buffer);
        let (number, index) = (verdict.number, verdict.index);
        let state = self.hex(&end.to_image());
        let line = format!("{number} {index} {state} {}", self.hex_or_dash(buffer));
        (Outcome::Number(number), line)
    }

    fn evaluated(&self, payload: &[u8]) -> Line {
        let words: Vec<u32> = payload[16..]
            .chunks(4)
            .map(|word| number(word) as u32)
            .collect();
        let count = number(&payload[..8]);
        let (verdict, value) = self.evaluate(count, number(&payload[8..16]), &words);
        let value = self.hex(&value.to_be_bytes());
        let line = format!("{} {} {value}", verdict.number, verdict.index);
        (Outcome::Number(verdict.number), line)
    }

    /// A number, and all of the lent buffer.
    pub fn lent(&self, number: u32, buffer: &[u8]) -> String {
        format!("{number} {}", self.hex_or_dash(buffer))
    }

    fn hex_or_dash(&self, bytes: &[u8]) -> String {
        if bytes.is_empty() {
            String::from("-")
        } else {
            self.hex(bytes)
        }
    }
}

/// The length of the buffer that is asked for, 0 where there is none.
fn room(letter: u8, payload: &[u8]) -> usize {
    let place = match letter {
        b'R' | b'G' | b'S' => IMAGE,
        b'W' | b'K' | b'H' => 0,
        _ => return 0,
    };
    let length = payload.get(place..place + LENGTH);
    length.map_or(0, |bytes| number(bytes) as usize)
}

fn report_text(report: Option<Routing>) -> String {
    let routing = match report {
        Some(routing) => routing,
        None => return String::from("none"),
    };
    let items = routing.map(|win| match win {
        None => String::from("-"),
        Some(win) => format!("{}:{}", win.winner, win.turned_away),
    });
    items.join(",")
}
