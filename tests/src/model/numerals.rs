//! Where what a head showed parts from what was due, and the numeral there.

use super::wrong::Wrong;
use super::Model;
use std::ops::Range;

/// The first place at which two texts differ, and the piece that holds it.
pub struct Parting<'a> {
    pub place: usize,
    /// The text in which the piece lies.
    pub text: &'a [u8],
    pub run: Range<usize>,
}

impl<'a> Parting<'a> {
    pub fn piece(&self) -> &'a [u8] {
        &self.text[self.run.clone()]
    }
}

/// Digits, point and comma.
pub fn is_numeral(byte: u8) -> bool {
    matches!(byte, 0x30..=0x39 | 0x2E | 0x2C)
}

/// Bytes at the edges of the numerals, and who takes them for the opposite.
const MISTAKEN: [(u8, Wrong); 8] = [
    (0x2B, Wrong::Plus),
    (0x2C, Wrong::Comma),
    (0x2D, Wrong::Minus),
    (0x2E, Wrong::Point),
    (0x2F, Wrong::Slash),
    (0x30, Wrong::Nought),
    (0x39, Wrong::Nine),
    (0x3A, Wrong::Colon),
];

impl Model {
    /// None where the texts are equal.
    pub fn parting<'a>(&self, due: &'a [u8], shown: &'a [u8]) -> Option<Parting<'a>> {
        let place = self.place(due, shown)?;
        let (first, second) = if self.has(Wrong::OtherText) {
            (shown, due)
        } else {
            (due, shown)
        };
        let text = if place < first.len() { first } else { second };
        let run = self.run_at(text, place);
        Some(Parting { place, text, run })
    }

    /// A place past the end of one text differs if the other goes on.
    fn place(&self, due: &[u8], shown: &[u8]) -> Option<usize> {
        let most = due.len().max(shown.len());
        let place = (0..most).find(|&k| due.get(k) != shown.get(k))?;
        let unseen = (place == shown.len() && self.has(Wrong::BeginningShown))
            || (place == due.len() && self.has(Wrong::BeginningDue));
        let moved = if self.has(Wrong::PlaceLate) {
            place + 1
        } else {
            place - usize::from(place > 0 && self.has(Wrong::PlaceEarly))
        };
        (!unseen).then_some(moved)
    }

    fn run_at(&self, text: &[u8], place: usize) -> Range<usize> {
        let inside = text.get(place).map_or(false, |&byte| self.numeral(byte));
        let (mut first, mut end) = (place.min(text.len()), text.len().min(place + 1));
        if !inside && !self.has(Wrong::OtherExtended) {
            return first..end;
        }
        while first > 0 && self.numeral(text[first - 1]) && !self.has(Wrong::NotLeft) {
            first -= 1;
        }
        while end < text.len() && self.numeral(text[end]) && !self.has(Wrong::NotRight) {
            end += 1;
        }
        first..end
    }

    fn numeral(&self, byte: u8) -> bool {
        let byte = match byte {
            high if self.has(Wrong::HighBit) => high & 0x7F,
            byte => byte,
        };
        let mistaken = |&(edge, wrong): &(u8, Wrong)| edge == byte && self.has(wrong);
        is_numeral(byte) != MISTAKEN.iter().any(mistaken)
    }

    /// The place and the piece, or `same`.
    pub fn told(&self, due: &[u8], shown: &[u8]) -> String {
        let found = match self.parting(due, shown) {
            Some(found) => found,
            None => return String::from("same"),
        };
        let place = match found.place {
            k if self.has(Wrong::PlaceFromOne) => (k + 1).to_string(),
            k if self.has(Wrong::PlaceHex) => format!("{k:X}"),
            k if self.has(Wrong::PlaceByte) => (k % 256).to_string(),
            k => k.to_string(),
        };
        format!("{place} {}", self.hex(found.piece()))
    }
}
