//! The command readback: a line for each head, and the texts as characters beside them.

use crate::build;
use crate::command::{Place, Texts};
use crate::due;
use crate::hand::Hand;
use crate::heads;
use crate::hints;
use crate::judge::{self, Compared, ReadBack, Replayed, Said};
use crate::replay::{self, Here, MOST_PRINTED, REPLAY};
use crate::run::{Fed, Job, Ran, Sink};
use crate::say::{fail, line, Fail, BROKEN, UNSURE};
use crate::source::{self, Behind, Feed};

static READBACK: Job = Job {
    name: "readback",
    what: "read-back",
    reads_all: true,
};

/// The input of a read-back: the texts where they stand in files, and the capture behind them.
fn texts_and_capture(here: &Here, texts: &Texts, place: &Place) -> Result<Box<dyn Feed>, Fail> {
    Ok(match texts {
        Texts::Inside => source::feed(place, here.closed)?,
        Texts::Apart(names) => {
            let texts = due::texts(names, here.closed)?;
            Box::new(Behind {
                first: Some(due::packed(&texts)),
                then: Some(source::feed(place, here.closed)?),
            })
        }
    })
}

/// The texts due in an input, and its capture, as far as they are kept.
struct Due {
    texts: Vec<Vec<u8>>,
    capture: Vec<u8>,
    size: u64,
}

fn split(fed: &Fed) -> Option<Due> {
    let (texts, taken) = due::unpacked(&fed.start)?;
    Some(Due {
        texts,
        capture: fed.start[taken..].to_vec(),
        size: fed.size - taken as u64,
    })
}

/// What the heads show by the program replay. It must fit what readback said of them, also of those that are the same: these are signed.
fn shown(ran: &Ran, due: &Due, compared: &[Compared], said: &Said) -> Result<Vec<Vec<u8>>, Fail> {
    let (cycles, fits) = match replay::judged(ran)? {
        (Replayed::Listing(cycles), other) => (cycles, other == *said && ran.fed.size == due.size),
        (Replayed::Refused(_), _) => (Vec::new(), false),
    };
    let shown: Vec<Vec<u8>> = (0..4).map(|head| heads::shown_by(head, &cycles)).collect();
    let fits = fits
        && (0..4).all(|head| match compared[head] {
            Compared::Same => shown[head] == due.texts[head],
            Compared::At(place) => heads::differ_at(&due.texts[head], &shown[head], place),
        });
    if fits {
        Ok(shown)
    } else {
        Err(fail(BROKEN, "the programs replay and readback do not agree on this capture, so there is no read-back"))
    }
}

fn say_refused(judged: judge::Refusal, texts: &Texts, due: Option<Due>, fed: &Fed) -> u8 {
    let size = due.as_ref().map_or(0, |due| due.size);
    let hint = match (texts, due) {
        (Texts::Apart(_), Some(due)) => hints::capture(&due.capture, due.size),
        _ => hints::text(&fed.start),
    };
    replay::say_refused(judged, size, hint)
}

fn say_heads(due: &Due, shown: &[Vec<u8>], compared: &[Compared]) {
    for head in 0..4 {
        let lines = heads::head(head, &due.texts[head], &shown[head], &compared[head]);
        line(&lines);
    }
}

pub fn read_back(here: &Here, texts: &Texts, place: &Place, hand: &Hand) -> Result<u8, Fail> {
    let feed = texts_and_capture(here, texts, place)?;
    let built = build::build(here.root, &["readback", "replay"])?;
    // replay gets the same capture when readback has read it
    let (later, capture) = source::later();
    let replay = REPLAY.start(&built, Box::new(later), Sink::Held(MOST_PRINTED))?;
    let ran = READBACK.run(built, feed, Sink::Held(MOST_PRINTED))?;
    let said = replay::said(&READBACK, &ran)?;
    let due = split(&ran.fed);
    let size = due.as_ref().map_or(0, |due| due.size);
    let judged = judge::read_back(&ran.out, size).map_err(|why| READBACK.broken(&why, &ran.err))?;
    match (judged, due) {
        (ReadBack::Refused(refused), due) => {
            replay::refused_alone(&READBACK, &ran, &said)?;
            hand.over(&ran.out)?;
            Ok(say_refused(refused, texts, due, &ran.fed))
        }
        (ReadBack::Heads(_), None) => {
            Err(READBACK.broken("it compared texts that are not whole", &ran.err))
        }
        (ReadBack::Heads(compared), Some(due)) => {
            let _ = capture.send(due.capture.clone());
            drop(capture);
            let shown = shown(&replay.end()?, &due, &compared, &said)?;
            hand.over(&ran.out)?;
            say_heads(&due, &shown, &compared);
            let same = compared.iter().all(|head| *head == Compared::Same);
            Ok(replay::doubts(size, &said).max(if same { 0 } else { UNSURE }))
        }
    }
}
