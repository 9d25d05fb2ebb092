//! Where the Rattle toolchain is, and how its programs are run.

use crate::say::{fail, Fail, BROKEN};
use std::env;
use std::fs;
use std::os::unix::fs::PermissionsExt;
use std::path::{Path, PathBuf};
use std::process::Command;

pub struct Kit {
    pub home: PathBuf,
    pub rt: PathBuf,
    /// The words that stand before the path of a program: the emulator where one is needed, and the loader.
    pub before: Vec<PathBuf>,
}

fn runs(path: &Path) -> bool {
    fs::metadata(path)
        .map(|about| about.is_file() && about.permissions().mode() & 0o111 != 0)
        .unwrap_or(false)
}

/// A command that stands in one of the folders of the PATH.
pub fn on_path(name: &str) -> Option<PathBuf> {
    let folders = env::var_os("PATH").unwrap_or_default();
    env::split_paths(&folders)
        .map(|folder| folder.join(name))
        .find(|path| runs(path))
}

/// Finds the toolchain as rt itself does.
pub fn find() -> Result<Kit, Fail> {
    let missing = "install the Rattle toolchain: its command rt is not on the PATH";
    let rt = on_path("rt").ok_or_else(|| fail(BROKEN, missing))?;
    let rt = fs::canonicalize(&rt).unwrap_or(rt);
    let home = match env::var_os("RATTLE_HOME") {
        Some(home) if !home.is_empty() => PathBuf::from(home),
        _ => rt
            .parent()
            .and_then(Path::parent)
            .unwrap_or(Path::new("/"))
            .to_path_buf(),
    };
    let home = fs::canonicalize(&home).unwrap_or(home);
    let tools = home.join("on").join(env::consts::ARCH).join("toolchain");
    let loader = tools.join("lib/ld-linux-x86-64.so.2");
    if !loader.is_file() {
        let words = "install another toolchain: this one has no loader for this machine";
        return Err(fail(BROKEN, words));
    }
    let emulator = tools.join("bin/qemu-x86_64");
    let mut before = Vec::new();
    if runs(&emulator) {
        before.push(emulator);
    }
    before.extend([loader, PathBuf::from("--library-path"), tools.join("lib")]);
    Ok(Kit { home, rt, before })
}

impl Kit {
    /// The command that runs a program. The caller's environment could speak to the loader or to the emulator, so none of it goes in.
    pub fn program(&self, path: &Path) -> Command {
        let mut command = Command::new(&self.before[0]);
        command.args(&self.before[1..]).arg(path).env_clear();
        command
    }

    /// The toolchain's identity, in one line.
    pub fn identity(&self) -> String {
        fs::read_to_string(self.home.join("KIT-ID"))
            .ok()
            .and_then(|text| text.lines().next().map(String::from))
            .unwrap_or_else(|| String::from("of an unknown version"))
    }
}
