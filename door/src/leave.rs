//! How the door is left when a signal comes: every process that it started is ended, every file that it made is removed.

use crate::{say, sys};
use std::fs;
use std::io;
use std::path::{Path, PathBuf};
use std::process::{Child, Command};
use std::sync::{Mutex, MutexGuard};
use std::thread;
use std::time::Duration;

const SIGNALS: [i32; 3] = [1, 2, 15];

struct Mine {
    groups: Vec<i32>,
    paths: Vec<PathBuf>,
}

static MINE: Mutex<Mine> = Mutex::new(Mine {
    groups: Vec::new(),
    paths: Vec::new(),
});

fn mine() -> MutexGuard<'static, Mine> {
    MINE.lock().unwrap_or_else(|broken| broken.into_inner())
}

fn remove(path: &Path) {
    // what a process was still writing there may come behind the first try
    for _ in 0..50 {
        let gone = match fs::symlink_metadata(path) {
            Err(_) => true,
            Ok(about) if about.is_dir() => fs::remove_dir_all(path).is_ok(),
            Ok(_) => fs::remove_file(path).is_ok(),
        };
        if gone {
            return;
        }
        thread::sleep(Duration::from_millis(10));
    }
}

/// Waits for a signal in a thread of its own. It keeps the list to itself then, so that nothing is started or made any more.
pub fn on_signals() {
    let held = sys::hold_signals(&SIGNALS);
    if held.is_empty() {
        return;
    }
    thread::spawn(move || {
        let number = sys::next_signal(&held);
        let mine = mine();
        for &group in &mine.groups {
            sys::kill_group(group);
        }
        for path in &mine.paths {
            remove(path);
        }
        say::end_progress();
        std::process::exit(128 + number);
    });
}

/// A process with all that it starts. It is ended when this goes out of use.
pub struct Process {
    pub child: Child,
    group: i32,
}

pub fn start(command: &mut Command) -> io::Result<Process> {
    let mut mine = mine();
    let child = sys::apart(command).spawn()?;
    let group = child.id() as i32;
    mine.groups.push(group);
    Ok(Process { child, group })
}

impl Process {
    pub fn end(&mut self) {
        sys::kill_group(self.group);
    }
}

impl Drop for Process {
    fn drop(&mut self) {
        self.end();
        let _ = self.child.wait();
        let group = self.group;
        mine().groups.retain(|&other| other != group);
    }
}

/// A file or folder that is removed when this goes out of use.
pub struct Passing {
    pub path: PathBuf,
}

/// Makes something at a path that is not to be left behind.
pub fn passing<T>(
    path: PathBuf,
    make: impl FnOnce(&Path) -> io::Result<T>,
) -> io::Result<(Passing, T)> {
    let mut mine = mine();
    let made = make(&path)?;
    mine.paths.push(path.clone());
    Ok((Passing { path }, made))
}

impl Drop for Passing {
    fn drop(&mut self) {
        let path = &self.path;
        remove(path);
        mine().paths.retain(|other| other != path);
    }
}
