//! The front door of Mirvashek. It reads the command line and the text forms, runs the proved programs through pipes, checks that what they
//! said is whole, and hands it on, or nothing. It has no model of the fabric, and decides nothing that a proved program decides.

mod build;
mod command;
mod due;
mod frames;
mod hand;
mod heads;
mod help;
mod hex;
mod hints;
mod judge;
mod kit;
mod leave;
mod plan;
mod probe;
mod readback;
mod replay;
mod run;
mod say;
mod source;
mod sys;
mod testing;
mod words;
mod write;

use command::{Call, Command, Place};
use hand::Kind;
use replay::Here;
use say::{fail, say, Fail, BROKEN};
use std::ffi::OsString;
use std::path::Path;
use std::process::{self, Stdio};

/// What git says, where it is there and knows this copy.
fn git(root: &Path, words: &[&str]) -> Option<String> {
    let output = process::Command::new("git")
        .args(["-c", "safe.directory=*", "-C"])
        .arg(root)
        .args(words)
        .stdin(Stdio::null())
        .stderr(Stdio::null())
        .output()
        .ok()
        .filter(|output| output.status.success())?;
    Some(String::from_utf8_lossy(&output.stdout).trim().to_owned())
}

fn version(root: &Path) -> String {
    let revision = match git(root, &["rev-parse", "--short=12", "HEAD"]) {
        None => String::from("unknown"),
        Some(revision) => match git(root, &["status", "--porcelain"]).as_deref() {
            Some("") => revision,
            _ => revision + ", with changes that are not committed",
        },
    };
    let toolchain = match kit::find() {
        Ok(kit) => kit.identity(),
        Err(_) => String::from("not found"),
    };
    let (major, minor) = (
        env!("CARGO_PKG_VERSION_MAJOR"),
        env!("CARGO_PKG_VERSION_MINOR"),
    );
    format!("mirvashek {major}.{minor}\nrevision {revision}\ntoolchain {toolchain}\n")
}

fn answer(call: &Call, here: &Here) -> Result<u8, Fail> {
    let kind = match call.command {
        Command::Write(_) | Command::Bytes(_) => Kind::Bytes { force: call.force },
        _ => Kind::Text,
    };
    let hand = || hand::ready(&call.out, here.closed, kind);
    match &call.command {
        Command::Replay(place) => replay::replay(here, place, &hand()?),
        Command::ReadBack(texts, place) => readback::read_back(here, texts, place, &hand()?),
        Command::Write(place) => write::write(here, place, &hand()?),
        Command::Bytes(place) => write::bytes(here, place, &hand()?),
        Command::Probe => {
            let hand = hand()?;
            let feed = source::feed(&Place::Input, here.closed)?;
            probe::probe(build::build(here.root, &["probe"])?, feed, &hand).map(|()| 0)
        }
        Command::Build => {
            build::build(here.root, &testing::PROGRAMS)?;
            say(format!("built: {}", testing::PROGRAMS.join(", ")));
            Ok(0)
        }
        Command::Test(numbers) => testing::test(here.root, numbers).map(|()| 0),
        Command::Help(page) => hand()?
            .over(help::page(page.as_deref()).as_bytes())
            .map(|()| 0),
        Command::Version => hand()?.over(version(here.root).as_bytes()).map(|()| 0),
    }
}

/// The launcher hands in the repository, the streams that were closed, and the caller's words.
fn called(words: &[OsString]) -> Result<u8, Fail> {
    let (root, closed, words) = match words {
        [root, closed, words @ ..] => (Path::new(root), closed.to_string_lossy(), words),
        _ => return Err(fail(BROKEN, "this program is started by ./mirvashek")),
    };
    let here = Here {
        root,
        closed: &closed,
    };
    answer(&command::call(words)?, &here)
}

fn main() {
    leave::on_signals();
    let words: Vec<OsString> = std::env::args_os().skip(1).collect();
    let status = called(&words).unwrap_or_else(|failed| {
        failed.words.iter().for_each(say);
        failed.status
    });
    process::exit(i32::from(status));
}
