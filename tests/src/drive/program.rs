//! One run of a program: input in, output and errors out.

use std::ffi::OsString;
use std::io::{self, Read, Write};
use std::path::Path;
use std::process::{Command, Stdio};
use std::sync::mpsc;
use std::thread;
use std::time::Duration;

/// Long enough for a slow machine; it only ends programs that hang.
const PATIENCE: Duration = Duration::from_secs(600);
/// How much more than expected is read before a program is stopped.
const SLACK: usize = 65_536;

pub struct Program {
    words: Vec<OsString>,
}

pub struct Run {
    pub output: Vec<u8>,
    pub errors: Vec<u8>,
    /// What is wrong with the way it ended, if anything.
    pub bad_end: Option<String>,
}

impl Program {
    /// The words stand before the path, as `env` and its options do.
    pub fn new(before: &[String], path: &Path, after: &[&str]) -> Program {
        let mut words: Vec<OsString> = before.iter().map(OsString::from).collect();
        words.push(path.into());
        words.extend(after.iter().map(OsString::from));
        Program { words }
    }

    /// Input is fed beside the reading, so that no full pipe stops both.
    pub fn run(&self, input: &[u8], expected: usize) -> io::Result<Run> {
        let mut child = Command::new(&self.words[0])
            .args(&self.words[1..])
            .stdin(Stdio::piped())
            .stdout(Stdio::piped())
            .stderr(Stdio::piped())
            .spawn()?;
        let stdin = child.stdin.take().expect("piped");
        let stdout = child.stdout.take().expect("piped");
        let stderr = child.stderr.take().expect("piped");
        let most = expected + SLACK;
        let (sender, output) = mpsc::channel();
        thread::scope(|scope| {
            scope.spawn(move || feed(stdin, input));
            let errors = scope.spawn(move || drain(stderr, SLACK));
            scope.spawn(move || sender.send(drain(stdout, most)));
            let output = output.recv_timeout(PATIENCE);
            let hung = output.is_err();
            let output = output.unwrap_or_default();
            let endless = output.len() > most;
            if hung || endless {
                child.kill()?;
            }
            let status = child.wait()?;
            let bad_end = match (hung, endless) {
                (true, _) => Some(String::from("it did not end and was stopped")),
                (_, true) => Some(String::from("it printed far too much and was stopped")),
                _ => (!status.success()).then(|| status.to_string()),
            };
            let errors = errors.join().unwrap_or_default();
            Ok(Run {
                output,
                errors,
                bad_end,
            })
        })
    }
}

/// A program may end before its input does; that is no fault by itself.
fn feed(mut stdin: impl Write, input: &[u8]) {
    let _ = stdin.write_all(input);
}

/// Reads to the end, or one byte more than `most`. A broken read shows as
/// missing output.
fn drain(pipe: impl Read, most: usize) -> Vec<u8> {
    let mut bytes = Vec::new();
    let _ = pipe.take(most as u64 + 1).read_to_end(&mut bytes);
    bytes
}
