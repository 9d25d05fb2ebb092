//! Hex text. A lone digit is refused, since '8 2' could be meant as 82 or as 08 02.

/// How many characters of a wrong word are shown.
const SHOWN: usize = 20;

/// Hex text that was read up to some place.
pub struct Hex {
    line: u64,
    remark: bool,
    /// A carriage return that is still to be followed by its line feed.
    returned: bool,
    /// The beginning of the word that is being read, and how many characters it has so far.
    word: Vec<u8>,
    length: usize,
    wrong: bool,
    high: u8,
}

pub const STRAY_RETURN: &str = "a carriage return that ends no line";

pub fn digit(c: u8) -> Option<u8> {
    (c as char).to_digit(16).map(|value| value as u8)
}

/// Characters as they can be shown in a message.
pub fn plain(word: &[u8]) -> String {
    word.iter()
        .take(SHOWN)
        .map(|&c| {
            if (33..127).contains(&c) {
                c as char
            } else {
                '?'
            }
        })
        .collect()
}

impl Hex {
    pub fn new() -> Hex {
        Hex {
            line: 1,
            remark: false,
            returned: false,
            word: Vec::new(),
            length: 0,
            wrong: false,
            high: 0,
        }
    }

    fn end_word(&mut self) -> Result<(), String> {
        if self.wrong || self.length % 2 != 0 {
            let word = plain(&self.word);
            return Err(format!(
                "line {}: \"{word}\" is not made of pairs of hex digits",
                self.line
            ));
        }
        self.word.clear();
        self.length = 0;
        Ok(())
    }

    fn add(&mut self, c: u8, bytes: &mut Vec<u8>) {
        if self.word.len() < SHOWN {
            self.word.push(c);
        }
        self.length += 1;
        match digit(c) {
            None => self.wrong = true,
            Some(value) if self.length % 2 == 0 => bytes.push(16 * self.high + value),
            Some(value) => self.high = value,
        }
    }

    fn stray(&self) -> String {
        format!("line {}: {STRAY_RETURN} stands in it", self.line)
    }

    fn take_one(&mut self, c: u8, bytes: &mut Vec<u8>) -> Result<(), String> {
        if self.returned && c != b'\n' {
            return Err(self.stray());
        }
        self.returned = c == b'\r';
        match c {
            b'\n' | b'\r' | b' ' | b'\t' | b'#' => self.end_word()?,
            _ if self.remark => {}
            _ => self.add(c, bytes),
        }
        if c == b'\n' {
            self.line += 1;
        }
        self.remark = c != b'\n' && (self.remark || c == b'#');
        Ok(())
    }

    /// Takes the next characters and adds the bytes that they stand for.
    pub fn take(&mut self, text: &[u8], bytes: &mut Vec<u8>) -> Result<(), String> {
        text.iter().try_for_each(|&c| self.take_one(c, bytes))
    }

    /// The text is at its end.
    pub fn end(&mut self, _bytes: &mut Vec<u8>) -> Result<(), String> {
        if self.returned {
            return Err(self.stray());
        }
        self.end_word()
    }
}

#[cfg(test)]
mod tests {
    use super::*;

    fn read(text: &[u8], piece: usize) -> Result<Vec<u8>, String> {
        let mut bytes = Vec::new();
        let mut hex = Hex::new();
        for part in text.chunks(piece) {
            hex.take(part, &mut bytes)?;
        }
        hex.end(&mut bytes)?;
        Ok(bytes)
    }

    /// However the text is cut, the outcome is the same.
    fn reads(text: &[u8]) -> Result<Vec<u8>, String> {
        let whole = read(text, text.len().max(1));
        for piece in 1..4 {
            assert_eq!(read(text, piece), whole);
        }
        whole
    }

    #[test]
    fn bytes_of_a_text() {
        let text = b"# five bytes\r\n82 02\t0A # two, and\n\r\n00fF\r\n";
        assert_eq!(reads(text), Ok(vec![0x82, 2, 0x0A, 0, 0xFF]));
        assert_eq!(reads(b"82#02 \xff\x00\n83"), Ok(vec![0x82, 0x83]));
        assert_eq!(reads(b""), Ok(vec![]));
    }

    #[test]
    fn wrong_words_are_told_with_their_line() {
        for bad in ["82 0", "82 0G", "8 2", "0x82", "82,02", "82 002", "82\0"] {
            let text = format!("82 02\n\n{bad} # bad\n");
            let told = reads(text.as_bytes()).unwrap_err();
            assert!(told.starts_with("line 3: \""), "{told}");
        }
        let told = reads(b"\xff\x00zzzzzzzzzzzzzzzzzzzzzzzz").unwrap_err();
        assert_eq!(
            told,
            "line 1: \"??zzzzzzzzzzzzzzzzzz\" is not made of pairs of hex digits"
        );
    }

    #[test]
    fn a_carriage_return_ends_a_line_or_is_an_error() {
        for bad in [
            &b"82\r02\n"[..],
            b"82 # one\r02\n",
            b"82\r",
            b"82\r\r\n",
            b"\r",
        ] {
            let told = reads(bad).unwrap_err();
            assert!(
                told.starts_with("line 1: ") && told.contains(STRAY_RETURN),
                "{told}"
            );
        }
        assert!(reads(b"82\n#\r\n\r02").unwrap_err().starts_with("line 3: "));
    }
}
