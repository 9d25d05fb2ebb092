//! Where what a program printed parts from what it has to print.

use super::program::Run;
use crate::model::cycle::RECORD;
use crate::model::RIGHT;

/// How much of a line is shown.
pub const SHOWN: usize = 160;

/// Where two outputs part, and what stands there in each.
pub struct Gap {
    pub line: usize,
    pub expected: String,
    pub came: String,
}

/// What a program has to print.
pub struct Due<'a> {
    pub output: &'a [u8],
    pub errors: &'a str,
    /// Records are bytes, and are compared as lines of hex.
    pub records: bool,
}

impl Due<'_> {
    /// Text, and nothing on standard error.
    pub fn text(output: &[u8]) -> Due<'_> {
        Due {
            output,
            errors: "",
            records: false,
        }
    }

    fn lines(&self, output: &[u8]) -> Vec<u8> {
        if !self.records {
            return output.to_vec();
        }
        let lines = output.chunks(RECORD).map(|record| RIGHT.hex(record) + "\n");
        lines.collect::<String>().into_bytes()
    }
}

/// Output first, then the errors and the end, for output says most.
pub fn compare(due: &Due, run: &Run) -> Option<Gap> {
    let output = due.lines(due.output);
    if let Some(gap) = part(&output, &due.lines(&run.output)) {
        return Some(gap);
    }
    let line = lines(&output);
    if let Some(gap) = part(due.errors.as_bytes(), &run.errors) {
        return Some(Gap {
            line,
            expected: format!("on standard error: {}", gap.expected),
            came: gap.came,
        });
    }
    run.bad_end.as_ref().map(|end| Gap {
        line,
        expected: "an end with status 0".into(),
        came: end.clone(),
    })
}

fn lines(bytes: &[u8]) -> usize {
    bytes.iter().filter(|&&byte| byte == b'\n').count()
}

/// The place of the first difference between two outputs.
pub fn part(expected: &[u8], came: &[u8]) -> Option<Gap> {
    if expected == came {
        return None;
    }
    let same = expected
        .iter()
        .zip(came)
        .take_while(|(a, b)| a == b)
        .count();
    let before = &expected[..same];
    let begin = before
        .iter()
        .rposition(|&byte| byte == b'\n')
        .map_or(0, |place| place + 1);
    Some(Gap {
        line: lines(before),
        expected: excerpt(expected, begin, same),
        came: excerpt(came, begin, same),
    })
}

/// The line from `begin`, cut around the place `at`.
fn excerpt(bytes: &[u8], begin: usize, at: usize) -> String {
    let line = &bytes[begin..];
    if line.is_empty() {
        return String::from("(the end)");
    }
    let length = line
        .iter()
        .position(|&byte| byte == b'\n')
        .map_or(line.len(), |place| place + 1);
    let from = (at - begin).saturating_sub(SHOWN / 2).min(length);
    let to = (from + SHOWN).min(length);
    let dots = |cut: bool| if cut { "..." } else { "" };
    let shown = line[from..to].escape_ascii();
    format!("{}{shown}{}", dots(from > 0), dots(to < length))
}

#[cfg(test)]
mod tests {
    use super::*;

    #[test]
    fn parts() {
        assert!(part(b"a\nb\n", b"a\nb\n").is_none());
        let gap = part(b"a\nbc\n", b"a\nbd\n").expect("a gap");
        assert_eq!((gap.line, gap.expected.as_str()), (1, "bc\\n"));
        assert_eq!(gap.came, "bd\\n");
        let gap = part(b"a\n", b"a").expect("a gap");
        assert_eq!((gap.line, gap.came.as_str()), (0, "a"));
        let gap = part(b"a\n", b"a\nb\n").expect("a gap");
        assert_eq!((gap.expected.as_str(), gap.line), ("(the end)", 1));
    }

    #[test]
    fn records_and_errors() {
        let due = Due {
            output: b"0123456789",
            errors: "cut short at 2\n",
            records: true,
        };
        let gap = |output: &[u8], errors: &[u8]| {
            let (output, errors) = (output.to_vec(), errors.to_vec());
            let bad_end = None;
            let run = Run {
                output,
                errors,
                bad_end,
            };
            compare(&due, &run).map(|gap| (gap.line, gap.came))
        };
        assert_eq!(gap(due.output, b"cut short at 2\n"), None);
        let shorter = Some((1, "35363738\\n".into()));
        assert_eq!(gap(b"012345678", b"cut short at 2\n"), shorter);
        assert_eq!(gap(due.output, b""), Some((2, "(the end)".into())));
        let other = Some((2, "cut short at 1\\n".into()));
        assert_eq!(gap(due.output, b"cut short at 1\n"), other);
    }
}
