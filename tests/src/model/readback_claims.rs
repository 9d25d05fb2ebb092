//! What follows for the program that reads back, tried on the model.

use super::claims::{failures, held, Held, Run, Seen};
use super::readback::HEADS;
use super::text_claims::numeral;
use super::{Model, RIGHT};
use crate::make::readbacks::{due_and_capture, input};
use crate::make::rng::Rng;

/// What is due and what the heads show, and the lines that are told of it.
/// A refused capture shows nothing.
pub struct Read {
    model: Model,
    due: Vec<Vec<u8>>,
    shown: Option<Vec<Vec<u8>>>,
    lines: Vec<String>,
}

type Claim = fn(&Read) -> Held;

pub const CLAIMS: [(&str, Claim); 5] = [
    ("readback lines", lines),
    ("readback same", same),
    ("readback numerals", numerals),
    ("readback places", places),
    ("readback cuts", cuts),
];

const TRIES: usize = 1_000;

impl Read {
    fn made(model: Model, number: usize) -> Read {
        let (due, capture) = due_and_capture(&mut Rng::for_work(1, 7, number));
        let run = Run::if_taken(model, &capture);
        let output = model.readback(&input(&due, &capture)).output;
        Read {
            model,
            shown: run.map(|run| (0..HEADS).map(|head| shown(&run, head)).collect()),
            lines: output.lines().map(String::from).collect(),
            due,
        }
    }

    /// What is due, what is shown and what is told of each head.
    fn heads(&self) -> Vec<(&[u8], &[u8], &str)> {
        let shown = self.shown.iter().flatten();
        let heads = self.due.iter().zip(shown).zip(&self.lines);
        heads
            .enumerate()
            .map(|(head, ((due, shown), line))| {
                let told = line.strip_prefix(&format!("{head} "));
                (&due[..], &shown[..], told.unwrap_or_default())
            })
            .collect()
    }
}

/// Read from the run, cycle by cycle.
fn shown(run: &Run, head: usize) -> Vec<u8> {
    let bytes = (0..run.cycles()).map(|t| run.head(t, head));
    bytes.filter(|&byte| byte != 0).collect()
}

fn claim(holds: bool, line: usize, words: &str) -> Held {
    held(holds, || format!("in line {line}: {words}"))
}

/// A line for each head in its order, or a refusal alone.
fn lines(read: &Read) -> Held {
    if read.shown.is_none() {
        let alone = read.lines.len() == 1 && read.lines[0].starts_with("refused ");
        return claim(alone, 0, "a refusal alone");
    }
    let told = read.heads().iter().all(|head| !head.2.is_empty());
    claim(told && read.lines.len() == HEADS, 0, "four lines in order")
}

fn same(read: &Read) -> Held {
    for (head, (due, shown, told)) in read.heads().into_iter().enumerate() {
        claim((due == shown) == (told == "same"), head, "same if equal")?;
    }
    Ok(())
}

/// A numeral that is not the station's is never told as the same.
fn numerals(read: &Read) -> Held {
    for (head, (due, shown, told)) in read.heads().into_iter().enumerate() {
        let wrong = |k: usize| {
            let (due, shown) = (due.get(k), shown.get(k));
            due != shown && (numeral(due) || numeral(shown))
        };
        let some = (0..due.len().max(shown.len())).any(wrong);
        claim(!(some && told == "same"), head, "a numeral differs")?;
    }
    Ok(())
}

/// The place that is told is the first that differs, and the byte there is
/// among those told.
fn places(read: &Read) -> Held {
    for (head, (due, shown, told)) in read.heads().into_iter().enumerate() {
        if let Some((place, piece)) = told.split_once(' ') {
            let place: usize = place.parse().unwrap_or(usize::MAX);
            let agree = due.iter().take(place).eq(shown.iter().take(place));
            let byte = due.get(place).or_else(|| shown.get(place));
            let byte = byte.map_or_else(String::new, |byte| format!("{byte:02X}"));
            claim(agree, head, "they agree before the place")?;
            claim(due.get(place) != shown.get(place), head, "they differ")?;
            let pairs: Vec<&[u8]> = piece.as_bytes().chunks(2).collect();
            claim(pairs.contains(&byte.as_bytes()), head, "the byte is told")?;
        }
    }
    Ok(())
}

/// Cut anywhere inside its texts an input is refused, and behind them not.
fn cuts(read: &Read) -> Held {
    let texts = input(&read.due, &[]);
    for kept in 0..=texts.len() {
        let output = read.model.readback(&texts[..kept]).output;
        let refused = output == "refused 25\n";
        claim(refused == (kept < texts.len()), 0, "25 inside the texts")?;
    }
    Ok(())
}

/// A claim on the input with a number.
pub fn tried(model: Model, claim: Claim, number: usize) -> Held {
    claim(&Read::made(model, number))
}

fn see(read: &Read, seen: &mut Seen) {
    seen.count("refused", read.shown.is_none());
    for (due, shown, told) in read.heads() {
        seen.count("nothing shown", shown.is_empty());
        seen.count("same, not empty", told == "same" && !due.is_empty());
        seen.count("beginning shown", told != "same" && due.starts_with(shown));
        seen.count("beginning due", told != "same" && shown.starts_with(due));
        let inside = !due.starts_with(shown) && !shown.starts_with(due);
        seen.count("differs inside", inside);
    }
}

#[test]
fn readbacks_are_as_claimed() {
    assert_eq!(failures(&CLAIMS, TRIES, |c, n| tried(RIGHT, c, n)), []);
    let mut seen = Seen::default();
    for number in 0..TRIES {
        see(&Read::made(RIGHT, number), &mut seen);
    }
    seen.enough(6, 20);
}
