//! What the tests share: a made-up repository with a made-up toolchain, calls of the front door in it, and what the machine allows.

pub mod call;
pub mod fakes;
pub mod ground;
pub mod made;

pub use call::{Call, Ended, Running};
pub use made::Made;

use std::fs;
use std::path::{Path, PathBuf};
use std::time::{Duration, Instant};

/// The repository that these tests stand in.
pub fn real_root() -> PathBuf {
    let door = Path::new(env!("CARGO_MANIFEST_DIR"));
    fs::canonicalize(door.join("..")).expect("the folder above door/")
}

/// A door other than the launcher's: so the tests themselves are tested, on doors with a fault.
pub fn door_under_test() -> Option<PathBuf> {
    std::env::var_os("DOOR_UNDER_TEST").map(PathBuf::from)
}

/// Waits until something is so, and fails with its name if that takes too long.
pub fn wait_until(what: &str, is_so: impl FnMut() -> bool) {
    assert!(
        comes_true(Duration::from_secs(20), is_so),
        "never came true: {what}"
    );
}

pub fn comes_true(limit: Duration, mut is_so: impl FnMut() -> bool) -> bool {
    let begin = Instant::now();
    loop {
        if is_so() {
            return true;
        }
        if begin.elapsed() > limit {
            return false;
        }
        std::thread::sleep(Duration::from_millis(10));
    }
}

/// A test that cannot be made on this machine says so, and why.
pub fn skipped(test: &str, why: &str) {
    println!("skipped: {test}: {why}");
}

/// Many bytes, as a sentence can show them.
pub fn shown(bytes: &[u8]) -> String {
    let text: String = bytes
        .iter()
        .take(400)
        .flat_map(|b| std::ascii::escape_default(*b))
        .map(char::from)
        .collect();
    format!("\"{text}\" ({} bytes)", bytes.len())
}

/// All names in a folder, in order.
pub fn names_in(folder: &Path) -> Vec<String> {
    let mut names: Vec<String> = match fs::read_dir(folder) {
        Ok(entries) => entries
            .flatten()
            .map(|e| e.file_name().to_string_lossy().into_owned())
            .collect(),
        Err(_) => Vec::new(),
    };
    names.sort();
    names
}
