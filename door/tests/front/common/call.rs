//! One call of the front door, and what came of it.

use super::{comes_true, door_under_test, names_in, real_root, shown, Made};
use std::ffi::{OsStr, OsString};
use std::io::{Read, Write};
use std::os::unix::process::ExitStatusExt;
use std::path::{Path, PathBuf};
use std::process::{Child, Command, Stdio};
use std::thread::JoinHandle;
use std::time::Duration;

/// No call takes so long; one that does has hung.
const LIMIT: Duration = Duration::from_secs(100);

/// The first call of the launcher builds the door, and says so. No test is to see that.
pub fn build_the_door() {
    if door_under_test().is_none() {
        let status = Command::new(real_root().join("mirvashek"))
            .arg("version")
            .stdout(Stdio::null())
            .status();
        assert!(
            status.expect("the launcher").success(),
            "the launcher cannot build the door"
        );
    }
}

pub struct Call {
    root: PathBuf,
    launcher: PathBuf,
    scratch: Option<PathBuf>,
    closed: String,
    words: Vec<OsString>,
    /// Words that stand before the command.
    before: Vec<OsString>,
    environment: Vec<(String, Option<OsString>)>,
    here: PathBuf,
    input: Input,
    output: Option<Stdio>,
    /// Whether the lines on standard error are all the door's.
    own_words: bool,
    /// Whether what is said of building is left out.
    built_beside: bool,
}

enum Input {
    Bytes(Vec<u8>),
    Other(Stdio),
}

impl Call {
    pub fn new(made: &Made, words: &[&str]) -> Call {
        let mut path = made.path.clone().into_os_string();
        path.push(":");
        path.push(std::env::var_os("PATH").unwrap_or_default());
        let call = Call::at(&made.repo, &made.here, words);
        let call = call
            .env("PATH", path)
            .env("TMPDIR", &made.scratch)
            .no_env("RATTLE_HOME")
            .no_env("MIRVASHEK_PATIENCE");
        Call {
            scratch: Some(made.scratch.clone()),
            ..call
        }
    }

    /// A call in another repository.
    pub fn at(root: &Path, here: &Path, words: &[&str]) -> Call {
        Call {
            root: root.to_path_buf(),
            launcher: root.join("mirvashek"),
            scratch: None,
            closed: String::new(),
            words: words.iter().map(OsString::from).collect(),
            before: Vec::new(),
            environment: Vec::new(),
            here: here.to_path_buf(),
            input: Input::Bytes(Vec::new()),
            output: None,
            own_words: true,
            built_beside: false,
        }
    }

    pub fn word(mut self, word: impl AsRef<OsStr>) -> Call {
        self.words.push(word.as_ref().to_os_string());
        self
    }

    pub fn words(mut self, words: &[&str]) -> Call {
        self.words.extend(words.iter().map(OsString::from));
        self
    }

    pub fn env(mut self, name: &str, value: impl AsRef<OsStr>) -> Call {
        self.environment
            .push((name.to_string(), Some(value.as_ref().to_os_string())));
        self
    }

    pub fn no_env(mut self, name: &str) -> Call {
        self.environment.push((name.to_string(), None));
        self
    }

    pub fn from(mut self, here: &Path) -> Call {
        self.here = here.to_path_buf();
        self
    }

    /// The same call by another name of the launcher.
    pub fn by(mut self, launcher: &Path) -> Call {
        self.launcher = launcher.to_path_buf();
        self
    }

    pub fn input(mut self, bytes: impl AsRef<[u8]>) -> Call {
        self.input = Input::Bytes(bytes.as_ref().to_vec());
        self
    }

    pub fn input_from(mut self, input: impl Into<Stdio>) -> Call {
        self.input = Input::Other(input.into());
        self
    }

    pub fn output_to(mut self, output: impl Into<Stdio>) -> Call {
        self.output = Some(output.into());
        self
    }

    /// Closes streams: digits of 0, 1, 2.
    pub fn closed(mut self, streams: &str) -> Call {
        let signs: String = streams.chars().map(|s| format!(" {s}>&-")).collect();
        self.closed = streams.to_string();
        self.shell(&format!("exec \"$@\"{signs}"))
    }

    /// Has a shell make the call. In its lines "$@" is the call.
    pub fn shell(self, lines: &str) -> Call {
        self.behind(&["sh", "-c", lines, "sh"])
    }

    /// Puts words before the command, such as those of setpriv. What came before stays nearer to the command.
    pub fn behind(mut self, words: &[&str]) -> Call {
        let words = words.iter().map(OsString::from);
        self.before.splice(0..0, words);
        self
    }

    /// Others work beside it in the same TMPDIR, so that it is not empty when this one ends.
    pub fn among_others(mut self) -> Call {
        self.scratch = None;
        self
    }

    /// The programs may have to be built for it, or others may be building: what is said of that is left out.
    pub fn built_beside(mut self) -> Call {
        self.built_beside = true;
        self
    }

    /// Standard error has other words too, so its form is not looked at.
    pub fn mixed(mut self) -> Call {
        self.own_words = false;
        self
    }

    pub fn run(self) -> Ended {
        self.start().end()
    }

    fn command(&self) -> Vec<OsString> {
        let mut all = self.before.clone();
        match door_under_test() {
            Some(door) => {
                let closed = if self.closed.is_empty() {
                    "-"
                } else {
                    &self.closed
                };
                all.extend([
                    door.into_os_string(),
                    self.root.clone().into_os_string(),
                    closed.into(),
                ]);
            }
            None => all.push(self.launcher.clone().into_os_string()),
        }
        all.extend(self.words.iter().cloned());
        all
    }

    pub fn start(mut self) -> Running {
        let all = self.command();
        let mut command = Command::new(&all[0]);
        command.args(&all[1..]).current_dir(&self.here);
        for (name, value) in &self.environment {
            match value {
                Some(value) => command.env(name, value),
                None => command.env_remove(name),
            };
        }
        let input = match std::mem::replace(&mut self.input, Input::Bytes(Vec::new())) {
            Input::Bytes(bytes) => {
                command.stdin(Stdio::piped());
                Some(bytes)
            }
            Input::Other(other) => {
                command.stdin(other);
                None
            }
        };
        command
            .stdout(self.output.take().unwrap_or_else(Stdio::piped))
            .stderr(Stdio::piped());
        let mut child = command.spawn().unwrap_or_else(|e| panic!("{all:?}: {e}"));
        if let (Some(bytes), Some(mut pipe)) = (input, child.stdin.take()) {
            // a door that does not read to the end is no fault of this pipe
            std::thread::spawn(move || pipe.write_all(&bytes));
        }
        let out = child.stdout.take().map(collect);
        let err = child.stderr.take().map(collect);
        Running {
            what: format!("{:?}", self.words),
            call: self,
            child,
            out,
            err,
        }
    }
}

fn collect(mut stream: impl Read + Send + 'static) -> JoinHandle<Vec<u8>> {
    std::thread::spawn(move || {
        let mut all = Vec::new();
        let _ = stream.read_to_end(&mut all);
        all
    })
}

/// A call that has not ended.
pub struct Running {
    what: String,
    call: Call,
    child: Child,
    out: Option<JoinHandle<Vec<u8>>>,
    err: Option<JoinHandle<Vec<u8>>>,
}

impl Running {
    pub fn id(&self) -> u32 {
        self.child.id()
    }

    pub fn has_ended(&mut self) -> bool {
        matches!(self.child.try_wait(), Ok(Some(_)))
    }

    pub fn signal(&self, name: &str) {
        send(name, self.child.id());
    }

    pub fn end(mut self) -> Ended {
        let child = &mut self.child;
        let mut status = None;
        let in_time = comes_true(LIMIT, || {
            status = child.try_wait().expect("the call's end");
            status.is_some()
        });
        if !in_time {
            let _ = child.kill();
            panic!("{}: hangs", self.what);
        }
        let status = status.map(|s| s.code().unwrap_or_else(|| 128 + s.signal().unwrap_or(0)));
        let all = |stream: Option<JoinHandle<Vec<u8>>>| {
            stream
                .map(|s| s.join().expect("a stream"))
                .unwrap_or_default()
        };
        let mut ended = Ended {
            what: self.what,
            status: status.unwrap_or(-1),
            out: all(self.out),
            err: String::from_utf8_lossy(&all(self.err)).into_owned(),
        };
        if let Some(scratch) = &self.call.scratch {
            let left = names_in(scratch);
            ended.hold(
                left.is_empty(),
                &format!("nothing is left in TMPDIR, and here is {left:?}"),
            );
        }
        if self.call.own_words {
            ended.has_its_own_words();
        }
        if self.call.built_beside {
            ended.leave_building_out();
        }
        ended
    }
}

/// Sends a signal to a process, or to a group if its number is negative.
pub fn send(name: &str, process: u32) {
    let status = Command::new("sh")
        .args([
            "-c",
            "kill -s \"$1\" \"$2\"",
            "sh",
            name,
            &process.to_string(),
        ])
        .status();
    assert!(
        status.expect("kill").success(),
        "cannot send {name} to {process}"
    );
}

/// Words without their blanks, since a line may be broken at any of them.
fn unbroken(words: &str) -> String {
    words.split_whitespace().collect()
}

/// A call that has ended.
pub struct Ended {
    pub what: String,
    pub status: i32,
    pub out: Vec<u8>,
    pub err: String,
}

impl Ended {
    #[track_caller]
    pub fn hold(&self, is_so: bool, expected: &str) -> &Ended {
        let Ended {
            what,
            status,
            out,
            err,
        } = self;
        assert!(is_so, "\n  tried:    {what}\n  expected: {expected}\n  status:   {status}\n  output:   {}\n  error:    {err}", shown(out));
        self
    }

    /// The status, and what every status promises: with 2, 3 and 4 no byte on standard output, and words with each but 0.
    #[track_caller]
    pub fn is(&self, status: i32) -> &Ended {
        self.ends(status);
        if matches!(status, 2 | 3 | 4) {
            self.prints("");
        }
        if matches!(status, 1 | 2 | 3 | 4) {
            self.hold(
                self.err.starts_with("mirvashek: "),
                "a line on standard error that begins with 'mirvashek: '",
            );
        }
        self
    }

    /// The status alone.
    #[track_caller]
    pub fn ends(&self, status: i32) -> &Ended {
        self.hold(self.status == status, &format!("status {status}"))
    }

    #[track_caller]
    pub fn prints(&self, bytes: impl AsRef<[u8]>) -> &Ended {
        self.hold(
            self.out == bytes.as_ref(),
            &format!("on standard output {}", shown(bytes.as_ref())),
        )
    }

    /// Words that stand on standard error, wherever the lines are broken.
    #[track_caller]
    pub fn says(&self, words: &str) -> &Ended {
        let is_so = unbroken(&self.err).contains(&unbroken(words));
        self.hold(is_so, &format!("on standard error: {words}"))
    }

    #[track_caller]
    pub fn says_not(&self, words: &str) -> &Ended {
        let is_so = !unbroken(&self.err).contains(&unbroken(words));
        self.hold(is_so, &format!("not on standard error: {words}"))
    }

    /// The same, and nothing else stands there.
    #[track_caller]
    pub fn says_only(&self, words: &str) -> &Ended {
        let is_so = unbroken(&self.err) == unbroken(words);
        self.hold(is_so, &format!("on standard error, and no more: {words}"))
    }

    /// A line of standard error, from its first letter to its last.
    #[track_caller]
    pub fn says_line(&self, line: &str) -> &Ended {
        self.hold(
            self.err.lines().any(|l| l == line),
            &format!("this line on standard error: {line}"),
        )
    }

    #[track_caller]
    pub fn silent(&self) -> &Ended {
        self.hold(self.err.is_empty(), "nothing on standard error")
    }

    fn leave_building_out(&mut self) {
        let building = |line: &&str| {
            !line.contains("waiting for it") && !line.starts_with("mirvashek: proving ")
        };
        self.err = self
            .err
            .lines()
            .filter(building)
            .map(|line| format!("{line}\n"))
            .collect();
    }

    /// Each line begins as a line of the door does, and is no wider than 80 columns.
    #[track_caller]
    fn has_its_own_words(&self) {
        for line in self.err.lines() {
            let begins = line.starts_with("mirvashek: ") || line.starts_with("  ");
            self.hold(
                begins,
                &format!("each line begins with 'mirvashek: ' or two blanks, and here is {line:?}"),
            );
            self.hold(
                line.chars().count() <= 80,
                &format!("each line has 80 columns or fewer, and here is {line:?}"),
            );
        }
        self.hold(
            self.err.is_empty() || self.err.ends_with('\n'),
            "the last line ends",
        );
    }
}
