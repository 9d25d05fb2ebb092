//! Frames that are typed as text, on the way to the orders of the program write_frame. Only what an order cannot hold is refused here;
//! all else is that program's to judge.

use crate::hex::{digit, plain, STRAY_RETURN};

/// Orders for frames.
#[derive(Default, Debug, PartialEq)]
pub struct Orders {
    pub bytes: Vec<u8>,
    /// For each frame the number of the line at which it begins, and how many cycles it has.
    pub begins: Vec<u64>,
    pub cycles: Vec<u64>,
}

const FRAME: &str = "a frame is written: frame GAP LENGTH ACKS";
const CELL: &str = "a cell is written: cell INPUT OUTPUT low|high TEXT";
const HEADS: &str = "head numbers 0 to 3 with commas between, such as 0,1,3, or all, or none";
const ESCAPES: &str =
    "a backslash in TEXT is written \\\\, and a byte \\x with two hex digits behind it";

#[derive(Default)]
struct Frame {
    gap: u8,
    length: u16,
    acks: u8,
    /// For each input its header and text.
    cells: [Option<(u8, Vec<u8>)>; 4],
}

/// A text that was read up to some line.
#[derive(Default)]
pub struct Reader {
    orders: Orders,
    frame: Option<Frame>,
    rest: Vec<u8>,
    lines: u64,
}

/// A line, and how far it was read.
struct Line<'a> {
    text: &'a [u8],
    form: &'static str,
}

fn blank(c: u8) -> bool {
    c == b' ' || c == b'\t'
}

impl<'a> Line<'a> {
    fn word(&mut self) -> &'a [u8] {
        let begins = self
            .text
            .iter()
            .position(|&c| !blank(c))
            .unwrap_or(self.text.len());
        let text = &self.text[begins..];
        let ends = text.iter().position(|&c| blank(c)).unwrap_or(text.len());
        self.text = &text[ends..];
        &text[..ends]
    }

    fn part(&mut self, part: &str) -> Result<&'a [u8], String> {
        match self.word() {
            [] => Err(format!("{part} is missing; {}", self.form)),
            word => Ok(word),
        }
    }

    fn number(&mut self, part: &str, most: u32, must: &str) -> Result<u32, String> {
        let word = self.part(part)?;
        let number = std::str::from_utf8(word)
            .ok()
            .filter(|word| word.len() <= 9 && word.bytes().all(|c| c.is_ascii_digit()))
            .and_then(|word| word.parse().ok())
            .filter(|&number| number <= most);
        number.ok_or_else(|| unfit(part, word, must))
    }

    fn port(&mut self, part: &str) -> Result<u8, String> {
        match self.part(part)? {
            &[c @ b'0'..=b'3'] => Ok(c - b'0'),
            word => Err(unfit(part, word, "0, 1, 2 or 3")),
        }
    }

    fn acks(&mut self) -> Result<u8, String> {
        let word = self.part("ACKS")?;
        match word {
            b"all" => return Ok(15),
            b"none" => return Ok(0),
            _ => {}
        }
        let mut sum = 0;
        let mut twice = None;
        for head in word.split(|&c| c == b',') {
            let bit = match head {
                &[c @ b'0'..=b'3'] => 1 << (c - b'0'),
                _ => return Err(unfit("ACKS", word, HEADS)),
            };
            if sum & bit != 0 {
                twice = twice.min(Some(head[0])).or(Some(head[0]));
            }
            sum |= bit;
        }
        match twice {
            Some(c) => Err(format!("ACKS names head {} twice", c as char)),
            None => Ok(sum),
        }
    }
}

fn unfit(part: &str, word: &[u8], must: &str) -> String {
    format!("{part} is \"{}\", and must be {must}", plain(word))
}

/// The bytes that a TEXT means.
fn unescaped(text: &[u8]) -> Result<Vec<u8>, String> {
    let mut bytes = Vec::new();
    let mut rest = text;
    while let Some((&c, behind)) = rest.split_first() {
        if c != b'\\' {
            bytes.push(c);
            rest = behind;
        } else if behind.first() == Some(&b'\\') {
            bytes.push(c);
            rest = &behind[1..];
        } else {
            let pair = match behind {
                [b'x', high, low, ..] => digit(*high).zip(digit(*low)),
                _ => None,
            };
            let (high, low) = pair.ok_or_else(|| String::from(ESCAPES))?;
            bytes.push(16 * high + low);
            rest = &behind[3..];
        }
    }
    Ok(bytes)
}

fn text_of(rest: &[u8]) -> Result<Vec<u8>, String> {
    // all that follows one blank behind the class
    let text = unescaped(rest.get(1..).unwrap_or(&[]))?;
    match text.len() {
        0 => Err(String::from(
            "TEXT is missing: a cell needs a text of 1 to 64 bytes",
        )),
        1..=255 => Ok(text),
        size => Err(format!("TEXT has {size} bytes, and must have 1 to 64")),
    }
}

impl Reader {
    fn frame(&mut self, line: &mut Line) -> Result<(), String> {
        self.order();
        line.form = FRAME;
        let gap = line.number("GAP", 255, "a number from 1 to 16")? as u8;
        let length = line.number("LENGTH", 65_535, "a number from GAP+2 to 4,096")? as u16;
        let acks = line.acks()?;
        let more = line.word();
        if !more.is_empty() {
            return Err(format!(
                "\"{}\" is too much; {FRAME}, and a remark has a line of its own",
                plain(more)
            ));
        }
        self.orders.begins.push(self.lines);
        self.orders.cycles.push(u64::from(length));
        self.frame = Some(Frame {
            gap,
            length,
            acks,
            cells: Default::default(),
        });
        Ok(())
    }

    fn cell(&mut self, line: &mut Line) -> Result<(), String> {
        let frame = self
            .frame
            .as_mut()
            .ok_or("a cell stands before the first frame")?;
        line.form = CELL;
        let input = line.port("INPUT")?;
        let output = line.port("OUTPUT")?;
        let class = match line.part("the class")? {
            b"low" => 1,
            b"high" => 3,
            word => return Err(unfit("the class", word, "low or high")),
        };
        let cell = &mut frame.cells[usize::from(input)];
        if cell.is_some() {
            return Err(format!("input {input} has a cell in this frame already"));
        }
        *cell = Some((4 * output + class, text_of(line.text)?));
        Ok(())
    }

    /// Writes the order of the frame that ends here, if one does.
    fn order(&mut self) {
        let frame = match self.frame.take() {
            Some(frame) => frame,
            None => return,
        };
        let bytes = &mut self.orders.bytes;
        bytes.push(frame.gap);
        bytes.extend(frame.length.to_be_bytes());
        bytes.push(frame.acks);
        for cell in frame.cells {
            match cell {
                None => bytes.push(0),
                Some((header, text)) => {
                    bytes.extend([text.len() as u8, header]);
                    bytes.extend(text);
                }
            }
        }
    }

    fn judge(&mut self, text: &[u8]) -> Result<(), String> {
        self.lines += 1;
        let told = |lines, words: &str| format!("line {lines}: {words}");
        if text.contains(&0) {
            return Err(told(
                self.lines,
                "a zero byte is in it, so it was not typed",
            ));
        }
        if text.contains(&b'\r') {
            return Err(told(self.lines, &format!("{STRAY_RETURN} stands in it")));
        }
        let mut line = Line { text, form: "" };
        let judged = match line.word() {
            b"frame" => self.frame(&mut line),
            b"cell" => self.cell(&mut line),
            [] | [b'#', ..] => Ok(()),
            word => Err(format!(
                "\"{}\" is neither frame nor cell, nor a remark that begins with #",
                plain(word)
            )),
        };
        judged.map_err(|words| told(self.lines, &words))
    }

    /// Takes the next piece of the text.
    pub fn take(&mut self, piece: &[u8]) -> Result<(), String> {
        let mut rest = std::mem::take(&mut self.rest);
        rest.extend(piece);
        let mut begins = 0;
        while let Some(length) = rest[begins..].iter().position(|&c| c == b'\n') {
            let line = &rest[begins..begins + length];
            let line = line.strip_suffix(b"\r").unwrap_or(line);
            self.judge(line)?;
            begins += length + 1;
        }
        rest.drain(..begins);
        self.rest = rest;
        Ok(())
    }

    /// The text is at its end.
    pub fn end(mut self) -> Result<Orders, String> {
        let rest = std::mem::take(&mut self.rest);
        if !rest.is_empty() {
            self.judge(&rest)?;
        }
        self.order();
        Ok(self.orders)
    }
}

#[cfg(test)]
mod tests;
