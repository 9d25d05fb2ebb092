//! The command replay: the listing of a capture, whole, or its refusal.

use crate::build;
use crate::command::Place;
use crate::hand::Hand;
use crate::hints;
use crate::judge::{self, Refusal, Replayed, Said};
use crate::run::{Job, Ran, Sink};
use crate::say::{say, Fail, DIFFER, UNSURE};
use crate::source;
use crate::words;
use std::path::Path;

/// More than the longest listing and the longest read-back.
pub const MOST_PRINTED: usize = 1 << 20;

pub static REPLAY: Job = Job {
    name: "replay",
    what: "listing",
    reads_all: true,
};

/// Where a call is made: the repository, and the standard streams that are closed.
pub struct Here<'a> {
    pub root: &'a Path,
    pub closed: &'a str,
}

/// What the program said beside its output. Where the engines differ there is no output, and nothing to sign.
pub fn said(job: &Job, ran: &Ran) -> Result<Said, Fail> {
    let said = judge::said(&ran.err).map_err(|why| job.broken(why, &ran.err))?;
    match said.differ {
        None => Ok(said),
        Some(_) if !ran.out.is_empty() => {
            Err(job.broken("it printed something although the engines differ", &ran.err))
        }
        Some(at) => Err(Fail {
            status: DIFFER,
            words: words::engines_differ(at).into(),
        }),
    }
}

/// Nothing is on its way in a capture that was not replayed.
pub fn refused_alone(job: &Job, ran: &Ran, said: &Said) -> Result<(), Fail> {
    if said.on_its_way.is_empty() {
        Ok(())
    } else {
        Err(job.broken(
            "it said something that it never says beside a refusal",
            &ran.err,
        ))
    }
}

/// Says what speaks against signing, and answers the status.
pub fn doubts(size: u64, said: &Said) -> u8 {
    if size == 0 {
        say(words::EMPTY);
    }
    for &head in &said.on_its_way {
        say(words::on_its_way(head));
    }
    if size == 0 || !said.on_its_way.is_empty() {
        UNSURE
    } else {
        0
    }
}

pub fn say_refused(refused: Refusal, size: u64, hint: Option<&str>) -> u8 {
    say(words::of_capture(refused, size));
    if let Some(hint) = hint {
        say(hint);
    }
    UNSURE
}

/// What the program replay printed and said.
pub fn judged(ran: &Ran) -> Result<(Replayed, Said), Fail> {
    let said = said(&REPLAY, ran)?;
    let judged = judge::replayed(&ran.out, ran.fed.size);
    let judged = judged.map_err(|why| REPLAY.broken(&why, &ran.err))?;
    if let Replayed::Refused(_) = judged {
        refused_alone(&REPLAY, ran, &said)?;
    }
    Ok((judged, said))
}

pub fn replay(here: &Here, place: &Place, hand: &Hand) -> Result<u8, Fail> {
    let feed = source::feed(place, here.closed)?;
    let built = build::build(here.root, &["replay"])?;
    let ran = REPLAY.run(built, feed, Sink::Held(MOST_PRINTED))?;
    let (judged, said) = judged(&ran)?;
    hand.over(&ran.out)?;
    Ok(match judged {
        Replayed::Listing(_) => doubts(ran.fed.size, &said),
        Replayed::Refused(refused) => {
            let hint = hints::capture(&ran.fed.start, ran.fed.size);
            say_refused(refused, ran.fed.size, hint)
        }
    })
}
