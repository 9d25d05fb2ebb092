//! Proves and builds programs. rt's own test of contents decides what is to be done, so that what runs is what is in the tree.

use crate::kit::{self, Kit};
use crate::leave;
use crate::plan::plan;
use crate::say::{fail, progress, reason, say, Fail, BROKEN};
use crate::sys;
use std::env;
use std::fs::{self, DirBuilder, File};
use std::io::{self, BufRead, BufReader, Read};
use std::os::unix::fs::DirBuilderExt;
use std::path::{Path, PathBuf};
use std::process::{self, Command, Stdio};
use std::sync::mpsc::{self, Receiver, RecvTimeoutError};
use std::thread;
use std::time::{Duration, Instant};

/// How long a build or another builder may take before it is spoken of.
const SILENCE: Duration = Duration::from_secs(1);
const FULL_DISK: &str = "too little disk: 500 MB are needed below this copy; make room";
const LOG: &str = "target/log/mirvashek.log";

/// Programs that are proved and built as they stand in the tree. While this is kept, no other door builds.
pub struct Built {
    pub kit: Kit,
    root: PathBuf,
    _lock: File,
}

impl Built {
    pub fn program(&self, name: &str) -> Command {
        self.kit.program(&path_of(&self.root, name))
    }
}

fn path_of(root: &Path, program: &str) -> PathBuf {
    root.join("target/bin").join(program)
}

fn unwritable(error: &io::Error) -> Fail {
    if error
        .raw_os_error()
        .map_or(false, |number| sys::FULL.contains(&number))
    {
        return fail(BROKEN, FULL_DISK);
    }
    let words = format!(
        "this copy cannot be written ({}): make your own",
        reason(error)
    );
    fail(BROKEN, words)
}

/// One builder at a time: the lock is that of the repository's folder.
fn wait_for_turn(root: &Path) -> Result<File, Fail> {
    let broken =
        |error: io::Error| fail(BROKEN, format!("cannot lock this copy: {}", reason(&error)));
    let folder = File::open(root).map_err(broken)?;
    let began = Instant::now();
    while !sys::lock(&folder, false).map_err(broken)? {
        if began.elapsed() > SILENCE {
            say("another ./mirvashek is building here; waiting for it");
            sys::lock(&folder, true).map_err(broken)?;
            break;
        }
        thread::sleep(Duration::from_millis(20));
    }
    Ok(folder)
}

/// A folder for rt's own temporary files, so that none is left when rt is stopped. rt runs programs there as nobody.
fn room() -> Option<leave::Passing> {
    let path = env::temp_dir().join(format!("mirvashek-{}", process::id()));
    leave::passing(path, |path| DirBuilder::new().mode(0o711).create(path))
        .ok()
        .map(|(room, ())| room)
}

fn lines_of(pipe: impl Read + Send + 'static, sender: mpsc::Sender<String>) {
    thread::spawn(move || {
        let mut lines = BufReader::new(pipe);
        let mut line = Vec::new();
        while matches!(lines.read_until(b'\n', &mut line), Ok(n) if n > 0) {
            let _ = sender.send(String::from_utf8_lossy(&line).into_owned());
            line.clear();
        }
    });
}

/// The crate that is being proved when so many are done: rt takes the stamp of a crate away while it proves it.
fn proving(root: &Path, crates: &[String], done: usize) -> Option<usize> {
    let stamps = root.join("target/stamp");
    (done..crates.len()).find(|&k| !stamps.join(&crates[k]).exists())
}

/// Follows what rt says, and tells how far it has come once it takes time.
fn follow(root: &Path, lines: Receiver<String>, crates: &[String]) -> String {
    let mut log = String::new();
    let mut done = 0;
    let mut told = 0;
    let began = Instant::now();
    loop {
        match lines.recv_timeout(SILENCE) {
            Err(RecvTimeoutError::Disconnected) => return log,
            Err(RecvTimeoutError::Timeout) => {}
            Ok(line) => {
                let about = line
                    .strip_prefix("rt: ")
                    .and_then(|said| said.split_once(' '));
                let about = about.filter(|(_, said)| {
                    said.starts_with("proved") || said.starts_with("NOT PROVED")
                });
                if let Some((name, _)) = about {
                    done += usize::from(crates.iter().any(|listed| listed == name));
                }
                log.push_str(&line);
            }
        }
        let now =
            proving(root, crates, done).filter(|&now| now >= told && began.elapsed() >= SILENCE);
        if let Some(now) = now {
            told = now + 1;
            progress(&format!(
                "proving {told} of {}: {}",
                crates.len(),
                crates[now]
            ));
        }
    }
}

/// What the end of a check that failed says, and where all of it stands.
fn not_built(root: &Path, log: &str, programs: &[&str]) -> Fail {
    if log.contains("No space left on device")
        || log.contains("Disk quota exceeded")
        || log.contains("File too large")
    {
        return fail(BROKEN, FULL_DISK);
    }
    let kept = match fs::write(root.join(LOG), log) {
        Ok(()) => format!("what the prover said is in {LOG}"),
        Err(error) => format!(
            "what the prover said could not be kept ({})",
            reason(&error)
        ),
    };
    let failed = log
        .lines()
        .rev()
        .find_map(|line| line.strip_prefix("rt: FAILED:"));
    let which = failed.map_or_else(
        || programs.join(", "),
        |names| names.trim().replace(' ', ", "),
    );
    let words = format!("the check of {which} failed, so nothing is run; {kept}");
    fail(BROKEN, words)
}

fn check(root: &Path, kit: &Kit, programs: &[&str]) -> Result<(), Fail> {
    let listed = fs::read_to_string(root.join("crates.txt")).unwrap_or_default();
    let room = room();
    let mut command = Command::new(&kit.rt);
    command
        .arg("check")
        .args(programs)
        .current_dir(root)
        .env("RATTLE_HOME", &kit.home);
    // the capture may be waiting on standard input: the build must not eat it
    command
        .stdin(Stdio::null())
        .stdout(Stdio::piped())
        .stderr(Stdio::piped());
    if let Some(room) = &room {
        command.env("TMPDIR", &room.path);
    }
    let broken = |error: io::Error| fail(BROKEN, format!("cannot run rt: {}", reason(&error)));
    let mut rt = leave::start(&mut command).map_err(broken)?;
    let (sender, lines) = mpsc::channel();
    if let Some(pipe) = rt.child.stdout.take() {
        lines_of(pipe, sender.clone());
    }
    if let Some(pipe) = rt.child.stderr.take() {
        lines_of(pipe, sender);
    }
    let log = follow(root, lines, &plan(&listed, programs));
    let status = rt.child.wait().map_err(broken)?;
    crate::say::end_progress();
    if status.success() {
        Ok(())
    } else {
        Err(not_built(root, &log, programs))
    }
}

/// Proves and builds programs where that is needed.
pub fn build(root: &Path, programs: &[&str]) -> Result<Built, Fail> {
    let kit = kit::find()?;
    let lock = wait_for_turn(root)?;
    fs::create_dir_all(root.join("target/log")).map_err(|error| unwritable(&error))?;
    // a log of an earlier failure would speak of another check
    File::create(root.join(LOG)).map_err(|error| unwritable(&error))?;
    for program in programs {
        if !path_of(root, program).is_file() {
            // rt goes by its stamp and does not look whether the program is still there
            let _ = fs::remove_file(root.join("target/stamp").join(program));
        }
    }
    check(root, &kit, programs)?;
    match programs
        .iter()
        .find(|program| !path_of(root, program).is_file())
    {
        Some(program) => {
            let words = format!("the check passed and left no program target/bin/{program}");
            Err(fail(BROKEN, words))
        }
        None => Ok(Built {
            kit,
            root: root.to_path_buf(),
            _lock: lock,
        }),
    }
}
