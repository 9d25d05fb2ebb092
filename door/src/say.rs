//! Words on standard error, in 80 columns, and how a call fails.

use crate::sys;
use std::ffi::OsStr;
use std::io::{self, Write};
use std::os::unix::ffi::OsStrExt;
use std::sync::atomic::{AtomicBool, Ordering};

pub const COLUMNS: usize = 80;
pub const UNSURE: u8 = 1;
pub const MISUSED: u8 = 2;
pub const DIFFER: u8 = 3;
pub const BROKEN: u8 = 4;

/// Why there is nothing to hand on: the exit status, and what is said, a paragraph each.
#[derive(Debug)]
pub struct Fail {
    pub status: u8,
    pub words: Vec<String>,
}

pub fn fail(status: u8, words: impl Into<String>) -> Fail {
    Fail {
        status,
        words: vec![words.into()],
    }
}

/// A call that was typed wrongly.
pub fn misused(words: impl std::fmt::Display) -> Fail {
    fail(
        MISUSED,
        format!("{words}. Type './mirvashek help' to see how it is used"),
    )
}

/// A name as it can be shown: no byte of it may speak to a terminal.
pub fn shown(name: &OsStr) -> String {
    let mut text = String::new();
    let mut rest = name.as_bytes();
    while !rest.is_empty() {
        let valid = match std::str::from_utf8(rest) {
            Ok(all) => all,
            Err(error) => std::str::from_utf8(&rest[..error.valid_up_to()]).unwrap_or(""),
        };
        for c in valid.chars() {
            if c.is_control() {
                let mut bytes = [0; 4];
                text.extend(c.encode_utf8(&mut bytes).bytes().map(escaped));
            } else {
                text.push(c);
            }
        }
        rest = &rest[valid.len()..];
        if let Some((&byte, behind)) = rest.split_first() {
            text.push_str(&escaped(byte));
            rest = behind;
        }
    }
    text
}

pub fn escaped(byte: u8) -> String {
    format!("\\x{byte:02X}")
}

/// The system's own words for an error, without its number.
pub fn reason(error: &io::Error) -> String {
    let words = error.to_string();
    match words.find(" (os error") {
        Some(end) => String::from(&words[..end]),
        None => words,
    }
}

/// Breaks words into lines: the first begins with `first`, the others with two blanks. A word that is longer than a line is cut.
pub fn wrapped(first: &str, words: &str) -> String {
    let mut lines = String::new();
    let mut line = String::from(first);
    let mut begun = false;
    for word in words.split(' ') {
        let mut word: Vec<char> = word.chars().collect();
        loop {
            let room = COLUMNS - line.chars().count();
            let blank = usize::from(begun);
            if word.len() + blank <= room {
                break;
            }
            if !begun {
                line.extend(word.drain(..room));
            }
            lines.push_str(&line);
            lines.push('\n');
            line = String::from("  ");
            begun = false;
        }
        if begun {
            line.push(' ');
        }
        line.extend(word);
        begun = true;
    }
    lines + &line + "\n"
}

/// Whether an unfinished line of progress stands on the terminal.
static UNFINISHED: AtomicBool = AtomicBool::new(false);

/// Where standard error is closed or full, the exit status is all that can be said.
fn put(text: &str) {
    let _ = sys::stream(2).write_all(text.as_bytes());
}

pub fn say(words: impl AsRef<str>) {
    line(&wrapped("mirvashek: ", words.as_ref()));
}

/// Lines that are already in their shape.
pub fn line(text: &str) {
    end_progress();
    put(text);
}

/// How far a long work has come: a line, on a terminal always the same one.
pub fn progress(words: &str) {
    if sys::is_terminal(2) {
        let cut: String = words.chars().take(COLUMNS - 12).collect();
        put(&format!("\r\x1b[Kmirvashek: {cut}"));
        UNFINISHED.store(true, Ordering::Relaxed);
    } else {
        say(words);
    }
}

pub fn end_progress() {
    if UNFINISHED.swap(false, Ordering::Relaxed) {
        put("\r\x1b[K");
    }
}

#[cfg(test)]
mod tests {
    use super::*;

    #[test]
    fn lines_have_80_columns_or_fewer() {
        for words in [
            "a".repeat(500),
            "ab ".repeat(100),
            format!("{} b", "a".repeat(69)),
            format!("a {}", "b".repeat(300)),
        ] {
            let text = wrapped("mirvashek: ", &words);
            assert!(text.lines().all(|line| line.chars().count() <= COLUMNS));
            let whole: String = text.split_whitespace().collect();
            assert_eq!(
                whole,
                format!("mirvashek:{}", words.split_whitespace().collect::<String>())
            );
        }
    }

    #[test]
    fn a_line_that_just_fits_is_not_broken() {
        let words = "a".repeat(COLUMNS - 11);
        assert_eq!(
            wrapped("mirvashek: ", &words),
            format!("mirvashek: {words}\n")
        );
        let text = wrapped("mirvashek: ", &format!("x {}", "a".repeat(COLUMNS - 12)));
        assert_eq!(text.lines().count(), 2);
    }

    #[test]
    fn names_cannot_speak_to_a_terminal() {
        assert_eq!(
            shown(OsStr::from_bytes(b"a\nb\x1b[0m\xff\xc2\xb5 -")),
            "a\\x0Ab\\x1B[0m\\xFF\u{b5} -"
        );
        assert_eq!(shown(OsStr::from_bytes(b"\xc2\x80")), "\\xC2\\x80");
    }

    #[test]
    fn reasons_have_no_numbers() {
        assert_eq!(
            reason(&io::Error::from_raw_os_error(2)),
            "No such file or directory"
        );
    }
}
