//! The texts due at the heads.

use crate::say::{fail, shown, Fail, MISUSED};
use crate::source::{self, Feed, HexFeed};
use std::ffi::{OsStr, OsString};

pub const MOST: usize = 255;
/// A text that is longer is not counted to its end, which it may not have.
const COUNTED: usize = 65_536;

/// A text without the end of its last line: an editor puts that there, and no head shows it.
fn without_line_end(mut text: Vec<u8>) -> Vec<u8> {
    if text.last() == Some(&b'\n') {
        text.pop();
        if text.last() == Some(&b'\r') {
            text.pop();
        }
    }
    text
}

fn text(name: &OsStr, closed: &str) -> Result<Vec<u8>, Fail> {
    let too_long = |size: &str| {
        let words = format!(
            "the text in '{}' has {size} bytes, and must have {MOST} at most",
            shown(name)
        );
        fail(MISUSED, words)
    };
    let source = source::open_file(name, closed)?;
    let mut feed: Box<dyn Feed> = if source::is_hex(name) {
        Box::new(HexFeed::new(source))
    } else {
        Box::new(source)
    };
    let bytes = source::all(&mut *feed, COUNTED, || too_long("more than 65,536"))?;
    let bytes = if source::is_hex(name) {
        bytes
    } else {
        without_line_end(bytes)
    };
    if bytes.len() > MOST {
        return Err(too_long(&bytes.len().to_string()));
    }
    Ok(bytes)
}

/// The four texts that stand in files of their own.
pub fn texts(names: &[Option<OsString>; 4], closed: &str) -> Result<Vec<Vec<u8>>, Fail> {
    let read = |name: &Option<OsString>| {
        name.as_ref()
            .map_or(Ok(Vec::new()), |name| text(name, closed))
    };
    names.iter().map(read).collect()
}

/// As the program readback takes them: each behind a byte with its length.
pub fn packed(texts: &[Vec<u8>]) -> Vec<u8> {
    texts
        .iter()
        .flat_map(|text| std::iter::once(text.len() as u8).chain(text.iter().copied()))
        .collect()
}

/// The texts at the start of an input, and how many bytes they take; none where it ends inside them.
pub fn unpacked(input: &[u8]) -> Option<(Vec<Vec<u8>>, usize)> {
    let mut at = 0;
    let mut texts = Vec::new();
    while texts.len() < 4 {
        let begins = at + 1;
        at = begins + usize::from(*input.get(at)?);
        texts.push(input.get(begins..at)?.to_vec());
    }
    Some((texts, at))
}

#[cfg(test)]
mod tests {
    use super::*;

    #[test]
    fn only_the_end_of_the_last_line_goes() {
        for (text, due) in [
            ("2.5", "2.5"),
            ("2.5\n", "2.5"),
            ("2.5\r\n", "2.5"),
            ("2.5\n\n", "2.5\n"),
            ("2.5\r\r\n", "2.5\r"),
            ("2.5\n\r", "2.5\n\r"),
            ("\r", "\r"),
            ("\n", ""),
            ("", ""),
        ] {
            assert_eq!(without_line_end(text.into()), due.as_bytes());
        }
    }

    #[test]
    fn what_is_packed_is_unpacked() {
        let texts = vec![b"2.5".to_vec(), vec![], vec![7; 255], b"\0".to_vec()];
        let mut input = packed(&texts);
        let size = input.len();
        assert_eq!(size, 263);
        assert_eq!(unpacked(&input), Some((texts.clone(), size)));
        assert_eq!(unpacked(&input[..size - 1]), None);
        assert_eq!(unpacked(&[]), None);
        input.extend([1, 2, 3]);
        assert_eq!(unpacked(&input), Some((texts, size)));
    }
}
