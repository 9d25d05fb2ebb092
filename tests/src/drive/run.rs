//! A whole run: all pieces of work, shared out among the cores.

use super::compare::Due;
use super::difference::Difference;
use super::examples::Example;
use super::judge::{judge_batch, judge_example, judge_output};
use super::program::Program;
use super::tally::Tally;
use crate::make::batches::{batch, batches};
use crate::make::captures::capture;
use crate::make::inputs::input;
use crate::make::readbacks::readback;
use crate::make::rng::Rng;
use crate::model::RIGHT;
use std::sync::atomic::{AtomicUsize, Ordering};
use std::sync::Mutex;
use std::thread;

/// Streams of random numbers, so that the kinds of work differ.
const CAPTURE_STREAM: u64 = 1;
const BATCH_STREAM: u64 = 2;
const INPUT_STREAM: u64 = 3;
const READBACK_STREAM: u64 = 4;

/// A program that is not given has no work.
pub struct Plan {
    pub replay: Option<Program>,
    pub probe: Option<Program>,
    pub write: Option<Program>,
    pub readback: Option<Program>,
    pub examples: Vec<Example>,
    pub seed: u64,
    pub captures: usize,
    pub calls: usize,
    pub frames: usize,
    pub readbacks: usize,
}

type Judged = Result<(), Box<Difference>>;

enum Work<'a> {
    Example(&'a Program, &'a Example),
    Capture(&'a Program, usize),
    Batch(&'a Program, usize),
    Input(&'a Program, usize),
    Readback(&'a Program, usize),
}

impl Plan {
    fn works(&self) -> Vec<Work<'_>> {
        let mut works = Vec::new();
        if let Some(replay) = &self.replay {
            works.extend(self.examples.iter().map(|e| Work::Example(replay, e)));
            works.extend((0..self.captures).map(|number| Work::Capture(replay, number)));
        }
        if let Some(probe) = &self.probe {
            works.extend((0..batches(self.calls)).map(|number| Work::Batch(probe, number)));
        }
        if let Some(write) = &self.write {
            works.extend((0..self.frames).map(|number| Work::Input(write, number)));
        }
        if let Some(readback) = &self.readback {
            let numbers = 0..self.readbacks;
            works.extend(numbers.map(|number| Work::Readback(readback, number)));
        }
        works
    }

    /// The tally of a run without a difference, or the first difference.
    pub fn run(&self) -> Result<Tally, Box<Difference>> {
        let works = self.works();
        let next = AtomicUsize::new(0);
        let tally = Mutex::new(Tally::default());
        let found: Mutex<Option<(usize, Box<Difference>)>> = Mutex::new(None);
        let worker = || {
            let mut own = Tally::default();
            while found.lock().expect("no panic").is_none() {
                let number = next.fetch_add(1, Ordering::Relaxed);
                let work = match works.get(number) {
                    Some(work) => work,
                    None => break,
                };
                if let Err(difference) = self.judge(work, &mut own) {
                    let mut first = found.lock().expect("no panic");
                    if first.as_ref().map_or(true, |(known, _)| number < *known) {
                        *first = Some((number, difference));
                    }
                }
            }
            tally.lock().expect("no panic").merge(own);
        };
        let cores = thread::available_parallelism().map_or(2, usize::from);
        thread::scope(|scope| {
            (0..cores).for_each(|_| drop(scope.spawn(worker)));
        });
        match found.into_inner().expect("no panic") {
            Some((_, difference)) => Err(difference),
            None => Ok(tally.into_inner().expect("no panic")),
        }
    }

    fn judge(&self, work: &Work, tally: &mut Tally) -> Judged {
        match *work {
            Work::Example(program, example) => {
                judge_example(program, example)?;
                tally.examples += 1;
                Ok(())
            }
            Work::Capture(program, number) => self.capture(program, number, tally),
            Work::Batch(program, number) => self.batch(program, number, tally),
            Work::Input(program, number) => self.input(program, number, tally),
            Work::Readback(program, number) => self.readback(program, number, tally),
        }
    }

    fn capture(&self, program: &Program, number: usize, tally: &mut Tally) -> Judged {
        let mut rng = Rng::for_work(self.seed, CAPTURE_STREAM, number);
        let sent = capture(&mut rng, number);
        let (verdict, listing) = RIGHT.listing(&sent);
        let work = format!("replay capture {number}");
        judge_output(program, work, sent, &Due::text(listing.as_bytes()))?;
        tally.capture(verdict.number);
        Ok(())
    }

    fn batch(&self, program: &Program, number: usize, tally: &mut Tally) -> Judged {
        let mut rng = Rng::for_work(self.seed, BATCH_STREAM, number);
        let sent = batch(&mut rng, number, self.calls);
        let replies = RIGHT.replies(&sent);
        for reply in &replies {
            tally.reply(reply, &sent[reply.request.clone()]);
        }
        judge_batch(program, number, sent, &replies)
    }

    fn input(&self, program: &Program, number: usize, tally: &mut Tally) -> Judged {
        let mut rng = Rng::for_work(self.seed, INPUT_STREAM, number);
        let sent = input(&mut rng, number);
        let written = RIGHT.written(&sent);
        let due = Due {
            output: &written.output,
            errors: &written.errors,
            records: true,
        };
        judge_output(program, format!("write input {number}"), sent, &due)?;
        tally.written(&written);
        Ok(())
    }

    fn readback(&self, program: &Program, number: usize, tally: &mut Tally) -> Judged {
        let mut rng = Rng::for_work(self.seed, READBACK_STREAM, number);
        let sent = readback(&mut rng, number);
        let read = RIGHT.readback(&sent);
        let due = Due::text(read.output.as_bytes());
        judge_output(program, format!("readback input {number}"), sent, &due)?;
        tally.readback(&read);
        Ok(())
    }
}
