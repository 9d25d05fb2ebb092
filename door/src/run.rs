//! Runs a program through pipes. What it writes is held in memory, so that it can be judged before any of it is handed on.

use crate::build::Built;
use crate::leave;
use crate::say::{fail, reason, shown, Fail, BROKEN};
use crate::source::Feed;
use crate::sys;
use std::fs::File;
use std::io::{self, ErrorKind, Read, Write};
use std::os::unix::process::ExitStatusExt;
use std::process::{ExitStatus, Stdio};
use std::sync::atomic::{AtomicBool, AtomicU64, Ordering};
use std::sync::mpsc::{self, Sender};
use std::sync::Arc;
use std::thread;
use std::time::{Duration, Instant};

/// How much of the input is kept: more than a read-back takes.
const KEPT: usize = 70_000;
/// How much a program may say on standard error.
const MOST_SAID: usize = 65_536;
const PATIENCE: u64 = 120;
/// How long the door still hands over to a program that has ended: as long as it takes to notice.
const LAST_WORDS: Duration = Duration::from_millis(200);

/// What was handed to a program.
#[derive(Default)]
pub struct Fed {
    pub size: u64,
    /// The first of it.
    pub start: Vec<u8>,
    /// The program took all of it.
    pub whole: bool,
}

/// What a program wrote before it ended well.
pub struct Ran {
    pub out: Vec<u8>,
    pub err: Vec<u8>,
    pub fed: Fed,
}

/// What becomes of a program's output.
pub enum Sink {
    /// It is held, up to so many bytes.
    Held(usize),
    /// It is passed on as it comes.
    Passed(Box<dyn FnMut(&[u8]) -> Result<(), Fail> + Send>),
}

/// Why a run came to nothing: a fault of the program, or one that the program has no part in.
enum Trouble {
    Program(String),
    Door(Fail),
}

impl From<Fail> for Trouble {
    fn from(failed: Fail) -> Trouble {
        Trouble::Door(failed)
    }
}

enum Event {
    Fed(Result<Fed, Trouble>),
    Out(Result<Vec<u8>, Trouble>),
    Err(Result<Vec<u8>, Trouble>),
}

/// When something last moved. While it is the caller who is waited for, by its input or by its reader, nothing has to.
struct Pulse {
    began: Instant,
    moved: AtomicU64,
    reading: AtomicBool,
    handing: AtomicBool,
}

impl Pulse {
    fn beat(&self) {
        let now = self.began.elapsed().as_millis() as u64;
        self.moved.store(now, Ordering::SeqCst);
    }
    /// Does something that may wait for the caller.
    fn with_caller<T>(&self, waits: &AtomicBool, work: impl FnOnce() -> T) -> T {
        waits.store(true, Ordering::SeqCst);
        let done = work();
        self.beat();
        waits.store(false, Ordering::SeqCst);
        done
    }
    fn is_reading(&self) -> bool {
        self.reading.load(Ordering::SeqCst)
    }
    fn stopped(&self, patience: Duration) -> bool {
        let moved = Duration::from_millis(self.moved.load(Ordering::SeqCst));
        let waits = self.is_reading() || self.handing.load(Ordering::SeqCst);
        !waits && self.began.elapsed() > moved + patience
    }
}

fn patience() -> Duration {
    let said = std::env::var("MIRVASHEK_PATIENCE").ok();
    let seconds = said
        .and_then(|word| word.parse().ok())
        .filter(|&seconds| seconds > 0);
    Duration::from_secs(seconds.unwrap_or(PATIENCE))
}

fn feed_all(feed: &mut dyn Feed, mut pipe: impl Write, pulse: &Pulse) -> Result<Fed, Trouble> {
    let mut fed = Fed::default();
    loop {
        let piece = pulse.with_caller(&pulse.reading, || feed.next())?;
        let piece = match piece {
            Some(piece) => piece,
            None => break,
        };
        fed.size += piece.len() as u64;
        let room = KEPT.saturating_sub(fed.start.len()).min(piece.len());
        fed.start.extend(&piece[..room]);
        match pipe.write_all(&piece) {
            Ok(()) => {}
            Err(error) if error.kind() == ErrorKind::BrokenPipe => return Ok(fed),
            Err(error) => {
                let words = format!("its input cannot be handed to it: {}", reason(&error));
                return Err(Trouble::Program(words));
            }
        }
    }
    fed.whole = true;
    Ok(fed)
}

/// Reads a pipe to its end, and stops at what is too much.
fn drained(mut pipe: impl Read, mut sink: Sink, pulse: &Pulse) -> Result<Vec<u8>, Trouble> {
    let mut held = Vec::new();
    let mut piece = vec![0; 65_536];
    loop {
        let got = match pipe.read(&mut piece) {
            Ok(0) => return Ok(held),
            Ok(got) => &piece[..got],
            Err(error) if error.kind() == ErrorKind::Interrupted => continue,
            Err(error) => {
                let words = format!("what it wrote cannot be read: {}", reason(&error));
                return Err(Trouble::Program(words));
            }
        };
        pulse.beat();
        match &mut sink {
            Sink::Passed(pass) => pulse.with_caller(&pulse.handing, || pass(got))?,
            Sink::Held(most) if held.len() + got.len() > *most => {
                let words =
                    "what it printed is not whole: it printed far too much, and was stopped";
                return Err(Trouble::Program(String::from(words)));
            }
            Sink::Held(_) => held.extend(got),
        }
    }
}

fn bad_end(status: ExitStatus) -> Option<String> {
    match (status.signal(), status.code()) {
        (Some(signal), _) => Some(format!("it was ended by signal {signal}")),
        (None, Some(0)) => None,
        (None, code) => Some(format!("it ended with status {}", code.unwrap_or(-1))),
    }
}

/// The threads between the door and a program that runs.
struct Pipes {
    process: leave::Process,
    /// The program's end of its input, kept to see what it leaves unread.
    input: Option<File>,
    events: mpsc::Receiver<Event>,
    pulse: Arc<Pulse>,
}

fn spawn(sender: &Sender<Event>, work: impl FnOnce() -> Event + Send + 'static) {
    let sender = sender.clone();
    thread::spawn(move || {
        let _ = sender.send(work());
    });
}

fn start(built: &Built, name: &str, mut feed: Box<dyn Feed>, sink: Sink) -> Result<Pipes, Fail> {
    let cannot = |error: io::Error| {
        let words = format!("the program {name} cannot be run: {}", reason(&error));
        fail(BROKEN, words)
    };
    let (input, pipe) = sys::pipe().map_err(cannot)?;
    let mut command = built.program(name);
    command
        .stdin(input.try_clone().map_err(cannot)?)
        .stdout(Stdio::piped())
        .stderr(Stdio::piped());
    let mut process = leave::start(&mut command).map_err(cannot)?;
    // it holds an end of the pipe
    drop(command);
    let pulse = Arc::new(Pulse {
        began: Instant::now(),
        moved: AtomicU64::new(0),
        reading: AtomicBool::new(false),
        handing: AtomicBool::new(false),
    });
    let (sender, events) = mpsc::channel();
    let beat = Arc::clone(&pulse);
    spawn(&sender, move || {
        Event::Fed(feed_all(&mut *feed, pipe, &beat))
    });
    if let Some(pipe) = process.child.stdout.take() {
        let pulse = Arc::clone(&pulse);
        spawn(&sender, move || Event::Out(drained(pipe, sink, &pulse)));
    }
    if let Some(pipe) = process.child.stderr.take() {
        let pulse = Arc::clone(&pulse);
        spawn(&sender, move || {
            Event::Err(drained(pipe, Sink::Held(MOST_SAID), &pulse))
        });
    }
    Ok(Pipes {
        process,
        input: Some(input),
        events,
        pulse,
    })
}

impl Pipes {
    /// Once the program has ended: whether it has read all that was handed to it. Then what is still to be handed over finds no reader.
    fn close_input(&mut self, fed: &mut Option<Fed>, ended: &mut Option<Instant>) {
        let since = ended.get_or_insert_with(Instant::now).elapsed();
        if let Some(fed) = fed {
            if let Some(input) = self.input.take() {
                fed.whole &= !sys::has_unread(&input);
            }
        } else if self.pulse.is_reading() || since > LAST_WORDS {
            self.input = None;
        }
    }

    /// Waits until the program has ended and all of its output is here. Only its input may still be open then, at the caller's end.
    fn ran(mut self) -> Result<(ExitStatus, Ran), Trouble> {
        let patience = patience();
        let (mut fed, mut out, mut err, mut status) = (None, None, None, None);
        let mut ended = None;
        loop {
            let quick = out.is_some() && err.is_some();
            let tick = Duration::from_millis(if quick { 1 } else { 20 });
            match self.events.recv_timeout(tick) {
                Ok(Event::Fed(got)) => fed = Some(got?),
                Ok(Event::Out(got)) => out = Some(got?),
                Ok(Event::Err(got)) => err = Some(got?),
                Err(_) => {}
            }
            if status.is_none() {
                let tried = self.process.child.try_wait();
                status = tried.map_err(|error| fail(BROKEN, reason(&error)))?;
            }
            if status.is_some() {
                self.close_input(&mut fed, &mut ended);
            }
            let fed_all = fed.is_some() || self.pulse.is_reading();
            if let (Some(status), true, true) = (status, quick, fed_all) {
                let ran = Ran {
                    out: out.unwrap_or_default(),
                    err: err.unwrap_or_default(),
                    fed: fed.unwrap_or_default(),
                };
                return Ok((status, ran));
            }
            if self.pulse.stopped(patience) {
                let words = format!(
                    "it did not end: nothing moved for {} seconds",
                    patience.as_secs()
                );
                return Err(Trouble::Program(words));
            }
        }
    }
}

/// A program that is to be run, and what its output is called.
pub struct Job {
    pub name: &'static str,
    pub what: &'static str,
    /// It reads its input to the end in any case.
    pub reads_all: bool,
}

impl Job {
    /// Nothing is to be handed on, because of this. The program's own words, where it has some, come first.
    pub fn broken(&self, why: &str, err: &[u8]) -> Fail {
        let said = String::from_utf8_lossy(err);
        let mut words: Vec<String> = said
            .lines()
            .take(5)
            .map(|line| format!("{}: {}", self.name, shown(line.as_ref())))
            .collect();
        let (name, what) = (self.name, self.what);
        words.push(format!(
            "the program {name} could not do its work: {why}; so there is no {what}"
        ));
        Fail {
            status: BROKEN,
            words,
        }
    }

    /// Starts it. What is built must be kept until then, so that no other door changes it.
    pub fn start(
        &'static self,
        built: &Built,
        feed: Box<dyn Feed>,
        sink: Sink,
    ) -> Result<Running, Fail> {
        let pipes = start(built, self.name, feed, sink)?;
        Ok(Running { job: self, pipes })
    }

    /// Runs it, and answers what it wrote if it ended well. Another door may build as soon as it runs.
    pub fn run(&'static self, built: Built, feed: Box<dyn Feed>, sink: Sink) -> Result<Ran, Fail> {
        let running = self.start(&built, feed, sink)?;
        drop(built);
        running.end()
    }
}

/// A program that runs.
pub struct Running {
    job: &'static Job,
    pipes: Pipes,
}

impl Running {
    /// Waits for its end, and answers what it wrote if it ended well.
    pub fn end(self) -> Result<Ran, Fail> {
        let job = self.job;
        let (status, ran) = self.pipes.ran().map_err(|trouble| match trouble {
            Trouble::Program(why) => job.broken(&why, b""),
            Trouble::Door(failed) => failed,
        })?;
        if let Some(why) = bad_end(status) {
            return Err(job.broken(&why, &ran.err));
        }
        if job.reads_all && !ran.fed.whole {
            return Err(job.broken("it ended before its input did", &ran.err));
        }
        Ok(ran)
    }
}
