//! Shows that the driver passes right programs and catches wrong ones.

use super::program::Program;
use super::run::Plan;
use crate::model::wrong::{Kind, KINDS};
use std::path::{Path, PathBuf};

/// Smaller than a true run, but beyond all the fixed inputs.
const CAPTURES: usize = 160;
const CALLS: usize = 3_300;
const FRAMES: usize = 200;
const READBACKS: usize = 480;

/// The fake stands beside the driver.
fn fake() -> Result<PathBuf, String> {
    let own = std::env::current_exe().map_err(|error| error.to_string())?;
    let name = format!("fake{}", std::env::consts::EXE_SUFFIX);
    let path = own.with_file_name(name);
    if path.is_file() {
        Ok(path)
    } else {
        Err(format!("no fake at {}", path.display()))
    }
}

/// The programs by the words that the fake knows.
fn plan(seed: u64, program: impl Fn(&str) -> Option<Program>) -> Plan {
    Plan {
        replay: program("replay"),
        probe: program("probe"),
        write: program("write"),
        readback: program("readback"),
        examples: Vec::new(),
        seed,
        captures: CAPTURES,
        calls: CALLS,
        frames: FRAMES,
        readbacks: READBACKS,
    }
}

/// Prints a line for each fake; true if all are as they should be.
pub fn self_test(seed: u64) -> Result<bool, String> {
    let path = fake()?;
    let mut good = right_passes(&path, seed);
    for kind in KINDS {
        good &= wrong_caught(&path, seed, kind);
    }
    Ok(good)
}

fn right_passes(path: &Path, seed: u64) -> bool {
    let again = format!("outside --self-test --seed {seed}");
    let judged = plan(seed, |name| Some(Program::new(&[], path, &[name])))
        .run()
        .map_err(|difference| difference.tell(seed, &again))
        .and_then(|tally| tally.covered(false));
    match &judged {
        Ok(_) => println!("right: passes"),
        Err(fault) => println!("right: DOES NOT PASS: {fault}"),
    }
    judged.is_ok()
}

/// A mistake that several programs show must be caught in each alone.
fn wrong_caught(path: &Path, seed: u64, kind: &Kind) -> bool {
    let mut good = true;
    let mut told = Vec::new();
    for &shown in kind.shows.programs() {
        let words = [shown, "--wrong", kind.name];
        let plan = plan(seed, |name| {
            (name == shown).then(|| Program::new(&[], path, &words))
        });
        told.push(match plan.run() {
            Err(difference) => format!("caught in {}", difference.work),
            Ok(_) => {
                good = false;
                format!("NOT CAUGHT in {shown}")
            }
        });
    }
    println!("{}: {}", kind.name, told.join(", "));
    good
}
