//! The text due at a head and what it shows, as characters, with the first difference marked under them.

use crate::judge::Compared;
use crate::say::{escaped, wrapped, COLUMNS};

/// What a head has shown: its bytes, zeros dropped.
pub fn shown_by(head: usize, cycles: &[[u8; 4]]) -> Vec<u8> {
    cycles
        .iter()
        .map(|heads| heads[head])
        .filter(|&byte| byte != 0)
        .collect()
}

/// Whether two texts differ first at a place.
pub fn differ_at(due: &[u8], shows: &[u8], place: u64) -> bool {
    let same = due.iter().zip(shows).take_while(|(a, b)| a == b).count();
    same as u64 == place && due != shows
}

/// Characters that take one column each, whatever the terminal's letters are.
fn narrow(c: char) -> bool {
    (' '..='~').contains(&c)
        || ('\u{a1}'..='\u{17f}').contains(&c) && c != '\u{ad}'
        || ('\u{391}'..='\u{3c9}').contains(&c)
}

/// A text cut into signs that can be shown, each with the place of its first byte. No letter of several bytes goes across `place`.
fn signs(text: &[u8], place: usize) -> Vec<(usize, String)> {
    let mut signs = Vec::new();
    let mut at = 0;
    while at < text.len() {
        let letter = (1..=4).find_map(|size| {
            let bytes = text.get(at..at + size)?;
            let letter = std::str::from_utf8(bytes)
                .ok()?
                .chars()
                .next()
                .filter(|&c| narrow(c) && c != '\\')?;
            Some((letter, size)).filter(|_| !(at + 1..at + size).contains(&place))
        });
        match letter {
            Some((letter, size)) => {
                signs.push((at, String::from(letter)));
                at += size;
            }
            None => {
                let sign = if text[at] == b'\\' {
                    String::from("\\\\")
                } else {
                    escaped(text[at])
                };
                signs.push((at, sign));
                at += 1;
            }
        }
    }
    signs
}

fn width(signs: &[(usize, String)]) -> usize {
    signs.iter().map(|(_, sign)| sign.chars().count()).sum()
}

/// How many columns a text may have between its quotes.
const ROOM: usize = COLUMNS - 10;
const CUT: &str = "...";

/// Where the two texts are cut so that the place is seen: how many bytes before it stay.
fn begin(due: &[u8], place: usize) -> usize {
    let before = signs(&due[..place.min(due.len())], place);
    let mut from = 0;
    while width(&before[from..]) > ROOM / 2 {
        from += 1;
    }
    before.get(from).map_or(place.min(due.len()), |&(at, _)| at)
}

/// A text between quotes, from a byte on, and the column of the place in it.
fn quoted(text: &[u8], from: usize, place: usize) -> (String, usize) {
    let mut line = String::from("\"");
    if from > 0 {
        line = String::from(CUT);
    }
    let mut column = None;
    let signs: Vec<_> = signs(text, place)
        .into_iter()
        .filter(|&(at, _)| at >= from)
        .collect();
    for (k, (at, sign)) in signs.iter().enumerate() {
        if *at == place {
            column = Some(line.chars().count());
        }
        if line.chars().count() + width(&signs[k..]) > ROOM
            && line.chars().count() + sign.len() + CUT.len() > ROOM
        {
            line.push_str(CUT);
            return (line, column.unwrap_or(0));
        }
        line.push_str(sign);
    }
    let column = column.unwrap_or_else(|| line.chars().count());
    line.push('"');
    (line, column)
}

/// The lines of a head.
pub fn head(h: usize, due: &[u8], shows: &[u8], compared: &Compared) -> String {
    let place = match compared {
        Compared::Same if due.is_empty() => {
            return wrapped(
                "mirvashek: ",
                &format!("head {h}: the same: nothing is due and nothing shown"),
            );
        }
        Compared::Same => {
            let (text, _) = quoted(due, 0, usize::MAX);
            return wrapped("mirvashek: ", &format!("head {h}: the same:"))
                .trim_end()
                .to_owned()
                + " "
                + &text_line(&text);
        }
        Compared::At(place) => *place as usize,
    };
    let from = begin(due, place);
    let (due_text, column) = quoted(due, from, place);
    let (shown_text, _) = quoted(shows, from, place);
    let mark = " ".repeat(8 + column);
    wrapped(
        "mirvashek: ",
        &format!("head {h}: differs at place {place}, counted from 0"),
    ) + &format!("  due   {due_text}\n  shows {shown_text}\n{mark}^\n")
}

/// What follows `mirvashek: head H: the same:`; a text that is too long for that line has one of its own.
fn text_line(text: &str) -> String {
    if text.chars().count() + 30 > COLUMNS {
        format!("\n        {text}\n")
    } else {
        format!("{text}\n")
    }
}

#[cfg(test)]
mod tests;
