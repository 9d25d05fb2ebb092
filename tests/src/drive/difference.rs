//! The first difference between what was expected and what came.

use super::compare::{Gap, SHOWN};
use crate::model::RIGHT;
use std::{env, fs, io};

pub struct Difference {
    /// The work, as words for a reader and for a file name.
    pub work: String,
    pub sent: Vec<u8>,
    /// The request that the differing line answers, if there are several.
    pub request: Option<(usize, Vec<u8>)>,
    pub gap: Gap,
}

fn short_hex(bytes: &[u8]) -> String {
    let shown = &bytes[..bytes.len().min(SHOWN)];
    let dots = if shown.len() < bytes.len() { "..." } else { "" };
    format!("{} bytes {}{dots}", bytes.len(), RIGHT.hex(shown))
}

impl Difference {
    /// A plain account; the whole input goes to a file.
    pub fn tell(&self, seed: u64, again: &str) -> String {
        let mut text = format!("outside: {} differs\n", self.work);
        if let Some((number, request)) = &self.request {
            text += &format!("request {number}: {}\n", short_hex(request));
        }
        text += &format!("sent: {}\n", short_hex(&self.sent));
        text += &match self.keep(seed) {
            Ok(path) => format!("sent, whole: {path}\n"),
            Err(error) => format!("sent, whole: not kept, {error}\n"),
        };
        text += &format!("line {} (the first is 0)\n", self.gap.line);
        text += &format!("expected: {}\n", self.gap.expected);
        text += &format!("came:     {}\n", self.gap.came);
        text + &format!("again: {again}\n")
    }

    fn keep(&self, seed: u64) -> io::Result<String> {
        let name = format!("outside-{seed}-{}.bin", self.work.replace(' ', "-"));
        let path = env::temp_dir().join(name);
        fs::write(&path, &self.sent)?;
        Ok(path.display().to_string())
    }
}
