//! The commands write and bytes: captures made of text.

use crate::build;
use crate::command::Place;
use crate::frames::{Orders, Reader};
use crate::hand::Hand;
use crate::judge;
use crate::replay::Here;
use crate::run::{Job, Ran, Sink};
use crate::say::{fail, Fail, MISUSED, UNSURE};
use crate::source::{self, Behind, Feed};
use crate::words;

/// More than any capture that can be replayed, and little enough for memory.
const MOST_BYTES: usize = 1 << 28;
const MOST_TEXT: usize = 1 << 24;

static WRITE: Job = Job {
    name: "write_frame",
    what: "capture",
    reads_all: false,
};

fn orders(here: &Here, place: &Place) -> Result<(Orders, String), Fail> {
    let mut source = source::open(place, here.closed)?;
    let name = source.name.clone();
    let typed = |fault: String| fail(MISUSED, format!("{name}, {fault}"));
    let mut reader = Reader::default();
    let mut size = 0;
    while let Some(piece) = source.next()? {
        size += piece.len();
        if size > MOST_TEXT {
            return Err(fail(
                MISUSED,
                format!("{name} has more than {MOST_TEXT} bytes of text"),
            ));
        }
        reader.take(&piece).map_err(typed)?;
    }
    let orders = reader.end().map_err(typed)?;
    if orders.begins.is_empty() {
        return Err(fail(
            MISUSED,
            format!("there is no frame in {name}, so there is no capture to write"),
        ));
    }
    Ok((orders, name))
}

/// The program names a frame that it does not take by its number. This says where in the text that frame is.
fn not_taken(orders: &Orders, name: &str, ran: &Ran) -> Fail {
    let (frame, number) = match judge::not_taken(&ran.err) {
        Some(found) => found,
        None => return WRITE.broken(judge::trouble(&ran.err), &ran.err),
    };
    let before = usize::try_from(frame)
        .ok()
        .and_then(|frame| orders.cycles.get(..frame));
    let written = before.map(|cycles| 5 * cycles.iter().sum::<u64>());
    let begins = before.and_then(|cycles| orders.begins.get(cycles.len()));
    // the door hands over whole orders, so none is cut short; and the frames before this one were written whole
    match (begins, number) {
        (Some(begins), Some(number)) if written == Some(ran.out.len() as u64) => Fail {
            status: UNSURE,
            words: vec![
                format!("refused {number} at {frame}: {}", words::of_frame(number)),
                format!("frame {frame}, counted from 0, begins at line {begins} of {name}; nothing is written"),
            ],
        },
        _ => WRITE.broken("what it printed is not whole", &ran.err),
    }
}

pub fn write(here: &Here, place: &Place, hand: &Hand) -> Result<u8, Fail> {
    let (orders, name) = orders(here, place)?;
    let size: u64 = orders.cycles.iter().map(|cycles| 5 * cycles).sum();
    let most = usize::try_from(size)
        .ok()
        .filter(|&size| size <= MOST_BYTES);
    let most = most.ok_or_else(|| {
        fail(
            MISUSED,
            format!("{name} asks for {size} bytes of capture, which is too much"),
        )
    })?;
    let feed = Behind {
        first: Some(orders.bytes.clone()),
        then: None,
    };
    let built = build::build(here.root, &["write_frame"])?;
    let ran = WRITE.run(built, Box::new(feed), Sink::Held(most))?;
    if !ran.err.is_empty() {
        return Err(not_taken(&orders, &name, &ran));
    }
    if ran.out.len() != most || !ran.fed.whole {
        let words = format!(
            "what it printed is not whole: {} of {most} bytes",
            ran.out.len()
        );
        return Err(WRITE.broken(&words, b""));
    }
    hand.over(&ran.out)?;
    Ok(0)
}

pub fn bytes(here: &Here, place: &Place, hand: &Hand) -> Result<u8, Fail> {
    let source = source::open(place, here.closed)?;
    let too_long = || {
        fail(
            MISUSED,
            "the hex text stands for more bytes than any capture has",
        )
    };
    let bytes = source::all(&mut source::HexFeed::new(source), MOST_BYTES, too_long)?;
    hand.over(&bytes)?;
    Ok(0)
}
