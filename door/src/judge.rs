//! Whether what a program said is whole. Nothing here knows what the fabric does.

pub const HEADING: &str = "cycle ack h0 h1 h2 h3";

/// A refusal, with the record that it names.
#[derive(Clone, Copy, Debug, PartialEq)]
pub struct Refusal {
    pub number: u32,
    pub at: Option<u64>,
}

#[derive(Debug, PartialEq)]
pub enum Replayed {
    /// What heads 0 to 3 show in each cycle.
    Listing(Vec<[u8; 4]>),
    Refused(Refusal),
}

#[derive(Clone, Debug, PartialEq)]
pub enum Compared {
    Same,
    /// The first place that differs.
    At(u64),
}

#[derive(Debug, PartialEq)]
pub enum ReadBack {
    Heads(Vec<Compared>),
    Refused(Refusal),
}

/// What a program said on standard error.
#[derive(Debug, Default, PartialEq)]
pub struct Said {
    /// The engines differ, first at this record.
    pub differ: Option<u64>,
    /// The heads to which something is still on its way.
    pub on_its_way: Vec<u8>,
}

/// What is wrong with it.
pub type Judged<T> = Result<T, String>;

fn not_whole(what: &str) -> String {
    format!("what it printed is not whole: {what}")
}

/// The lines of a text that ends with a line feed, or is empty.
fn lines(text: &[u8]) -> Judged<Vec<&str>> {
    let text = std::str::from_utf8(text)
        .ok()
        .filter(|text| text.is_ascii())
        .ok_or_else(|| not_whole("there are bytes in it that are no text"))?;
    if text.is_empty() {
        return Ok(Vec::new());
    }
    let text = text
        .strip_suffix('\n')
        .ok_or_else(|| not_whole("its last line has no end"))?;
    Ok(text.split('\n').collect())
}

/// A decimal number as the programs write it.
fn number(word: &str) -> Option<u64> {
    let plain = !word.is_empty()
        && word.bytes().all(|c| c.is_ascii_digit())
        && (word == "0" || !word.starts_with('0'));
    word.parse().ok().filter(|_| plain)
}

fn pair(word: &str) -> Option<u8> {
    let plain = word.len() == 2 && word.bytes().all(|c| matches!(c, b'0'..=b'9' | b'A'..=b'F'));
    u8::from_str_radix(word, 16).ok().filter(|_| plain)
}

fn refusal(line: &str) -> Option<Refusal> {
    let rest = line.strip_prefix("refused ")?;
    let (word, at) = match rest.split_once(" at ") {
        Some((word, at)) => (word, Some(number(at)?)),
        None => (rest, None),
    };
    let number = number(word).filter(|&number| number > 0)?;
    Some(Refusal {
        number: u32::try_from(number).ok()?,
        at,
    })
}

/// A refusal line that stands alone, with a number that the program gives. Only 3 names a record, and it is one of those that were read.
fn refused(lines: &[&str], numbers: &[u32], records: u64) -> Option<Refusal> {
    let refused = refusal(lines.first().filter(|_| lines.len() == 1)?)?;
    let fits = match refused.at {
        Some(at) => refused.number == 3 && at < records,
        None => refused.number != 3,
    };
    Some(refused).filter(|_| fits && numbers.contains(&refused.number))
}

/// The heads' bytes of cycle `k`.
fn cycle(line: &str, k: usize) -> Option<[u8; 4]> {
    let mut words = line.split(' ');
    let mine = number(words.next()?)? == k as u64;
    let acks = pair(words.next()?)? < 16;
    let mut heads = [0; 4];
    for head in &mut heads {
        *head = pair(words.next()?)?;
    }
    Some(heads).filter(|_| mine && acks && words.next().is_none())
}

/// What the program replay printed of so many bytes.
pub fn replayed(out: &[u8], size: u64) -> Judged<Replayed> {
    let lines = lines(out)?;
    let records = size / 5;
    if let Some(refused) = refused(&lines, &[1, 3, 4], records) {
        return Ok(Replayed::Refused(refused));
    }
    let (heading, cycles) = lines
        .split_first()
        .ok_or_else(|| not_whole("it printed nothing"))?;
    if *heading != HEADING {
        return Err(not_whole("it is neither a listing nor a refusal"));
    }
    if size % 5 != 0 || cycles.len() as u64 != records {
        let words = format!(
            "{} cycles are listed, of {size} bytes of capture",
            cycles.len()
        );
        return Err(not_whole(&words));
    }
    let listed = cycles.iter().enumerate().map(|(k, line)| {
        cycle(line, k).ok_or_else(|| not_whole(&format!("line {} is not that of cycle {k}", k + 2)))
    });
    Ok(Replayed::Listing(listed.collect::<Judged<_>>()?))
}

fn head(line: &str, h: usize) -> Option<Compared> {
    let mut words = line.split(' ');
    let mine = words.next()? == h.to_string();
    let compared = match words.next()? {
        "same" => Compared::Same,
        place => {
            let piece = words.next()?.as_bytes();
            let pairs = piece
                .chunks(2)
                .all(|two| std::str::from_utf8(two).ok().and_then(pair).is_some());
            Compared::At(number(place).filter(|_| pairs && !piece.is_empty())?)
        }
    };
    Some(compared).filter(|_| mine && words.next().is_none())
}

/// What the program readback printed of a capture of so many bytes, behind its texts.
pub fn read_back(out: &[u8], size: u64) -> Judged<ReadBack> {
    let lines = lines(out)?;
    if let Some(refused) = refused(&lines, &[1, 3, 4, 25], size / 5) {
        return Ok(ReadBack::Refused(refused));
    }
    if lines.len() != 4 {
        return Err(not_whole(
            "it is neither a line for each head nor a refusal",
        ));
    }
    if size % 5 != 0 {
        return Err(not_whole(
            "it compares a capture whose last record is cut off",
        ));
    }
    let heads = lines.iter().enumerate().map(|(h, line)| {
        head(line, h)
            .ok_or_else(|| not_whole(&format!("its line {} is not that of head {h}", h + 1)))
    });
    Ok(ReadBack::Heads(heads.collect::<Judged<_>>()?))
}

/// Why a program that said this did not do its work: it says so itself, or it speaks as it never does.
pub fn trouble(err: &[u8]) -> &'static str {
    if err.starts_with(b"cannot ") {
        "it could not read or write all"
    } else {
        "it said something that it never says"
    }
}

/// What the programs replay and readback may say on standard error. Each says one thing only: where the engines differ, or what is on its way.
pub fn said(err: &[u8]) -> Result<Said, &'static str> {
    let unknown = || trouble(err);
    let lines = lines(err).map_err(|_| unknown())?;
    let mut said = Said::default();
    if let [line] = lines[..] {
        said.differ = line.strip_prefix("engines differ at ").and_then(number);
        if said.differ.is_some() {
            return Ok(said);
        }
    }
    for line in lines {
        let h = line.strip_prefix("on its way to head ").and_then(number);
        let h = h.filter(|&h| {
            h < 4
                && said
                    .on_its_way
                    .last()
                    .map_or(true, |&last| u64::from(last) < h)
        });
        said.on_its_way.push(h.ok_or_else(unknown)? as u8);
    }
    Ok(said)
}

/// Which order the program write_frame did not take, and its refusal where it gave one.
pub fn not_taken(err: &[u8]) -> Option<(u64, Option<u32>)> {
    let lines = lines(err).ok()?;
    let line = lines.first().filter(|_| lines.len() == 1)?;
    if let Some(at) = line.strip_prefix("cut short at ").and_then(number) {
        return Some((at, None));
    }
    let refused = refusal(line)?;
    Some((refused.at?, Some(refused.number)))
}

/// Whether the lines of the program probe answer so many requests: it ends at a request that is too long or cut short.
pub fn answered(lines: u64, last: &[u8], requests: u64) -> bool {
    let ends = matches!(last, b"too long" | b"cut short");
    lines == requests || (ends && lines < requests)
}

#[cfg(test)]
mod tests;
