//! What follows for two texts, tried on the model. The claims know numerals
//! from a list of their own, for the model could take others for some.

use super::claims::{failures, held, Held, Seen};
use super::numerals::Parting;
use super::text_calls::Pair;
use super::{Model, RIGHT};
use crate::make::rng::Rng;
use crate::make::texts::{pair, NUMERALS};

type Claim = fn(&Pair, Option<&Parting>) -> Held;

pub const CLAIMS: [(&str, Claim); 6] = [
    ("texts same", same),
    ("place", place),
    ("piece's text", text),
    ("piece holds place", holds),
    ("piece of numerals", bytes),
    ("piece whole", whole),
];

const TRIES: usize = 4_000;

pub fn numeral(byte: Option<&u8>) -> bool {
    byte.map_or(false, |byte| NUMERALS.contains(byte))
}

/// Nothing differs exactly if the texts are equal.
fn same(pair: &Pair, found: Option<&Parting>) -> Held {
    let equal = pair.due == pair.shown;
    claim(pair, found.is_none() == equal, "same if equal")
}

/// The texts agree before the place, and differ at it.
fn place(pair: &Pair, found: Option<&Parting>) -> Held {
    let Pair { due, shown } = pair;
    found.map_or(Ok(()), |&Parting { place, .. }| {
        let agree = due.iter().take(place).eq(shown.iter().take(place));
        claim(pair, agree, "they agree before it")?;
        claim(
            pair,
            due.get(place) != shown.get(place),
            "they differ there",
        )
    })
}

fn text(pair: &Pair, found: Option<&Parting>) -> Held {
    found.map_or(Ok(()), |found| {
        let text = match pair.due.get(found.place) {
            Some(_) => &pair.due,
            None => &pair.shown,
        };
        claim(pair, found.text == text, "the station's, where it goes on")
    })
}

fn holds(pair: &Pair, found: Option<&Parting>) -> Held {
    found.map_or(Ok(()), |found| {
        let inside = found.run.contains(&found.place);
        claim(pair, inside, "the piece holds the place")
    })
}

fn bytes(pair: &Pair, found: Option<&Parting>) -> Held {
    found.map_or(Ok(()), |found| {
        let piece = found.piece();
        let good = piece.len() == 1 || piece.iter().all(|byte| numeral(Some(byte)));
        claim(pair, good, "numerals alone, or one byte")
    })
}

/// With numerals in it, it can't be made longer on either side.
fn whole(pair: &Pair, found: Option<&Parting>) -> Held {
    found.map_or(Ok(()), |found| {
        let before = found.text[..found.run.start].last();
        let behind = found.text.get(found.run.end);
        let longer = numeral(before) || numeral(behind);
        let some = numeral(found.piece().first());
        claim(pair, !(some && longer), "no numeral beside it")
    })
}

fn claim(pair: &Pair, holds: bool, words: &str) -> Held {
    held(holds, || format!("of {pair:02X?}: {words}"))
}

fn made(number: usize) -> Pair {
    pair(&mut Rng::for_work(1, 6, number))
}

/// A claim on the texts with a number.
pub fn tried(model: Model, claim: Claim, number: usize) -> Held {
    let pair = made(number);
    claim(&pair, model.parting(&pair.due, &pair.shown).as_ref())
}

fn see(pair: &Pair, seen: &mut Seen) {
    let found = match RIGHT.parting(&pair.due, &pair.shown) {
        Some(found) => found,
        None => return seen.count("same", true),
    };
    let (due, shown) = (pair.due.get(found.place), pair.shown.get(found.place));
    seen.count("station's piece", due.is_some());
    seen.count("head's piece", due.is_none());
    seen.count("numeral lost", numeral(due) && !numeral(shown));
    seen.count("numeral put in", !numeral(due) && numeral(shown));
    seen.count("numeral for numeral", numeral(due) && numeral(shown));
    seen.count("no numeral", !numeral(due) && !numeral(shown));
    seen.count("piece of some bytes", found.run.len() > 1);
    seen.count("piece of one byte", found.run.len() == 1);
    seen.count("place inside", found.run.start < found.place);
}

#[test]
fn texts_are_as_claimed() {
    assert_eq!(failures(&CLAIMS, TRIES, |c, n| tried(RIGHT, c, n)), []);
    let mut seen = Seen::default();
    (0..TRIES).for_each(|number| see(&made(number), &mut seen));
    seen.enough(10, 300);
}
