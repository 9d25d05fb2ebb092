//! What this machine allows: some faults can be made only by root, or only where mounts are allowed.

use super::Call;
use std::fs;
use std::os::unix::fs::symlink;
use std::path::{Path, PathBuf};
use std::process::{Command, Stdio};

fn works(words: &[&str]) -> bool {
    let mut command = Command::new(words[0]);
    command
        .args(&words[1..])
        .stdin(Stdio::null())
        .stdout(Stdio::null())
        .stderr(Stdio::null());
    command.status().map(|s| s.success()).unwrap_or(false)
}

pub fn has(tool: &str) -> bool {
    works(&["sh", "-c", &format!("command -v {tool}")])
}

pub fn is_root() -> bool {
    let output = Command::new("id").arg("-u").output().expect("id");
    output.stdout == b"0\n"
}

/// The words before a command that may mount, in a name space of its own.
pub fn mounting() -> Option<&'static [&'static str]> {
    let ways: [&'static [&'static str]; 2] = [&["unshare", "-m"], &["unshare", "-r", "-m"]];
    ways.into_iter().find(|way| {
        let mut words = way.to_vec();
        words.extend(["mount", "-t", "tmpfs", "-o", "size=16k", "none", "/tmp"]);
        works(&words)
    })
}

/// The words before a command that has no more rights than anybody. None: it has no more anyway.
pub fn as_anybody() -> Vec<&'static str> {
    if is_root() {
        vec![
            "setpriv",
            "--reuid=65534",
            "--regid=65534",
            "--clear-groups",
        ]
    } else {
        Vec::new()
    }
}

/// Whether anybody can run what stands here.
pub fn anybody_reaches(file: &Path) -> bool {
    let file = file.to_string_lossy();
    let mut words = as_anybody();
    words.extend(["test", "-r", &*file]);
    works(&words)
}

impl Call {
    /// The call with a small disk of so many kilobytes at a folder.
    pub fn with_disk(self, way: &[&str], folder: &Path, kilobytes: u32) -> Call {
        let place = folder.to_string_lossy().into_owned();
        let lines = format!("mount -t tmpfs -o size={kilobytes}k none \"$0\" && exec \"$@\"");
        self.behind(&["sh", "-c", &lines, &place]).behind(way)
    }
}

/// A PATH on which one tool is missing: each folder that has it is replaced by links to all the rest.
pub fn path_without(tool: &str, folder: &Path, path: &std::ffi::OsStr) -> std::ffi::OsString {
    let parts = std::env::split_paths(path).enumerate().map(|(k, part)| {
        if part.join(tool).exists() {
            all_but(tool, &part, &folder.join(format!("without {tool} {k}")))
        } else {
            part
        }
    });
    std::env::join_paths(parts).expect("a PATH")
}

fn all_but(tool: &str, part: &Path, other: &Path) -> PathBuf {
    fs::create_dir_all(other).expect("a folder");
    for entry in fs::read_dir(part).expect("a folder on the PATH").flatten() {
        if entry.file_name() != tool {
            let _ = symlink(entry.path(), other.join(entry.file_name()));
        }
    }
    other.to_path_buf()
}

/// Whether util-linux is here, which makes a terminal.
pub fn has_terminal() -> bool {
    has("script") && works(&["script", "-qec", "true", "/dev/null"])
}
