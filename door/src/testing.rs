//! The command test: the programs against the outside tests, then the door's own.

use crate::build;
use crate::kit;
use crate::leave;
use crate::say::{fail, reason, say, Fail, BROKEN, UNSURE};
use std::ffi::OsString;
use std::io;
use std::path::Path;
use std::process::{Command, Stdio};

pub const PROGRAMS: [&str; 4] = ["replay", "readback", "write_frame", "probe"];

/// Runs a command that prints for itself.
fn runs(root: &Path, words: &[OsString]) -> Result<bool, Fail> {
    let mut command = Command::new(&words[0]);
    command
        .args(&words[1..])
        .current_dir(root)
        .stdin(Stdio::null());
    let broken = |error: io::Error| fail(BROKEN, format!("cannot run a test: {}", reason(&error)));
    let mut process = leave::start(&mut command).map_err(broken)?;
    Ok(process.child.wait().map_err(broken)?.success())
}

fn passes(root: &Path, what: &str, words: &[OsString]) -> Result<(), Fail> {
    say(what);
    if runs(root, words)? {
        Ok(())
    } else {
        Err(fail(UNSURE, format!("this test failed: {what}")))
    }
}

fn words(list: &[&str]) -> Vec<OsString> {
    list.iter().map(OsString::from).collect()
}

/// cargo over one of the folders that hold Rust. The build folder is named, since the caller's environment could name another.
fn cargo(root: &Path, verb: &str, folder: &str) -> Vec<OsString> {
    let mut all = words(&[
        "cargo",
        verb,
        "--release",
        "--quiet",
        "--offline",
        "--manifest-path",
    ]);
    all.push(root.join(folder).join("Cargo.toml").into());
    all.push("--target-dir".into());
    all.push(root.join(folder).join("target/tests").into());
    all
}

/// How the outside tests are told where the programs are and how they are run.
fn outside(root: &Path, kit: &kit::Kit, numbers: &[String]) -> Vec<OsString> {
    let mut all = vec![root
        .join("tests/target/tests/release/outside")
        .into_os_string()];
    for (option, program) in [
        ("--replay", "replay"),
        ("--probe", "probe"),
        ("--write", "write_frame"),
        ("--readback", "readback"),
    ] {
        all.push(option.into());
        all.push(root.join("target/bin").join(program).into());
    }
    let before = words(&["env", "-i"]).into_iter();
    for word in before.chain(kit.before.iter().map(OsString::from)) {
        all.push("--prefix".into());
        all.push(word);
    }
    all.push("--examples".into());
    all.push(root.join("examples").into());
    all.extend(numbers.iter().map(OsString::from));
    all
}

pub fn test(root: &Path, numbers: &[String]) -> Result<(), Fail> {
    if kit::on_path("cargo").is_none() {
        return Err(fail(
            BROKEN,
            "the tests need cargo, and it is not on the PATH: install Debian's package cargo",
        ));
    }
    say(format!("the programs {}", PROGRAMS.join(", ")));
    // the lock is given back here, since the door's tests call the door
    let kit = build::build(root, &PROGRAMS)?.kit;
    passes(
        root,
        "building the outside tests",
        &cargo(root, "build", "tests"),
    )?;
    passes(
        root,
        "the outside tests' own parts",
        &cargo(root, "test", "tests"),
    )?;
    let self_test = [
        root.join("tests/target/tests/release/outside").into(),
        "--self-test".into(),
    ];
    passes(
        root,
        "do the outside tests find faults that are put in",
        &self_test,
    )?;
    passes(
        root,
        "the programs against the outside tests",
        &outside(root, &kit, numbers),
    )?;
    passes(root, "the front door", &cargo(root, "test", "door"))?;
    let faults = words(&["door/faults"]);
    passes(
        root,
        "do the front door's tests find faults that are put in",
        &faults,
    )?;
    say("all tests passed");
    Ok(())
}
