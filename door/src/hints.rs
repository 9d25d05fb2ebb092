//! What a refused capture may be instead. A hint decides nothing.

use crate::due;

/// Whether all of it is pairs of hex digits, blanks and remarks.
fn looks_like_hex(start: &[u8]) -> bool {
    let mut digits = 0;
    for line in start.split(|&c| c == b'\n') {
        let words = line.split(|&c| c == b'#').next().unwrap_or(&[]);
        for &c in words {
            match c {
                b' ' | b'\t' | b'\r' => {}
                c if c.is_ascii_hexdigit() => digits += 1,
                _ => return false,
            }
        }
    }
    digits > 1
}

/// Whether its first line that says something is a frame.
fn looks_like_frames(start: &[u8]) -> bool {
    let mut lines = start.split(|&c| c == b'\n').map(|line| {
        let blanks = line
            .iter()
            .take_while(|&&c| c == b' ' || c == b'\t')
            .count();
        &line[blanks..]
    });
    let first = lines.find(|line| !matches!(line, [] | [b'\r'] | [b'#', ..]));
    matches!(first, Some(line) if line.starts_with(b"frame ") || line.starts_with(b"frame\t"))
}

/// Whether readable texts stand before whole records.
fn looks_like_texts(start: &[u8], size: u64) -> bool {
    let (texts, taken) = match due::unpacked(start) {
        Some(found) => found,
        None => return false,
    };
    let readable = texts.concat().iter().all(|&c| c >= 32 && c != 127);
    let behind = size - taken as u64;
    let records = start[taken..].chunks(5).all(|record| record[0] & 0x70 == 0);
    readable
        && records
        && behind > 0
        && behind % 5 == 0
        && texts.iter().any(|text| !text.is_empty())
}

/// What an input looks like that is text and should be bytes.
pub fn text(start: &[u8]) -> Option<&'static str> {
    if looks_like_frames(start) {
        Some("it looks like frames typed as text: ./mirvashek write makes a capture of them")
    } else if looks_like_hex(start) {
        Some("it looks like hex text: give the file a name that ends in .hex, or make bytes of it with ./mirvashek bytes")
    } else {
        None
    }
}

/// What a capture of so many bytes looks like, by its first bytes.
pub fn capture(start: &[u8], size: u64) -> Option<&'static str> {
    let texts = "it looks like the input of a read-back, with texts before the capture: ./mirvashek readback takes that";
    text(start).or_else(|| Some(texts).filter(|_| looks_like_texts(start, size)))
}

#[cfg(test)]
mod tests {
    use super::*;

    fn looks(bytes: &[u8], like: &str) -> bool {
        capture(bytes, bytes.len() as u64).map_or(false, |hint| hint.contains(like))
    }

    #[test]
    fn texts_are_told_from_captures() {
        assert!(looks(b"# dose\n82 00 00 00 00\r\n", "hex text"));
        assert!(looks(b"8200000000", "hex text"));
        assert!(looks(
            b"\n# dose\r\n  frame 1 11 1\ncell",
            "frames typed as text"
        ));
        assert!(looks(
            b"\x00\x032.5\x00\x03104\x82\x00\x00\x00\x00",
            "input of a read-back"
        ));
    }

    #[test]
    fn damaged_captures_get_no_hint() {
        for bytes in [
            &b""[..],
            b"\x82\x00\x00\x00",
            b"\x92\x00\x00\x00\x00",
            b"frames",
            b"\n\n\n",
            b"\x00\x00\x00\x00\x82\x00\x00\x00\x00",
        ] {
            assert_eq!(capture(bytes, bytes.len() as u64), None);
        }
    }
}
