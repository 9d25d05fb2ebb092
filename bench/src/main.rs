//! Has builds of the program `pace` replay three captures and prints how fast
//! they were. Figures are printed only if every answer was right.
//!
//! The arguments: a folder to work in, the words that run a program, `--`, and
//! for each build a name and a path.

mod captures;

use captures::{Capture, KINDS, RECORDS};
use std::fs::{self, File};
use std::path::{Path, PathBuf};
use std::process::{Command, ExitCode};

/// The best of many tries says what the code costs; the middle one, what the
/// machine was doing beside it.
const TRIES: usize = 51;

struct Build {
    name: String,
    /// What runs it, word by word.
    words: Vec<String>,
    /// Records per second, try by try.
    speeds: Vec<usize>,
}

fn main() -> ExitCode {
    let arguments: Vec<String> = std::env::args().skip(1).collect();
    let (room, mut builds) = match read(&arguments) {
        Some(read) => read,
        None => {
            eprintln!("bench: give a folder, what runs a program, --, names and paths");
            return ExitCode::from(2);
        }
    };
    println!("records per second in {TRIES} tries, the builds in turns");
    for (kind, (name, _)) in KINDS.iter().enumerate() {
        let capture = Capture::of_kind(kind);
        if let Err(wrong) = tries(room, &mut builds, &capture) {
            eprintln!("bench: {name}: {wrong}");
            return ExitCode::FAILURE;
        }
        let (routings, choices) = (capture.routings, capture.choices);
        println!("{name}: {routings} routings, {choices} winners chosen");
        for build in &mut builds {
            build.speeds.sort_unstable();
            let (best, middle) = (build.speeds[TRIES - 1], build.speeds[TRIES / 2]);
            println!("    best {best:>9}   middle {middle:>9}   {}", build.name);
        }
    }
    ExitCode::SUCCESS
}

fn read(arguments: &[String]) -> Option<(&Path, Vec<Build>)> {
    let (room, rest) = arguments.split_first()?;
    let end = rest.iter().position(|word| word == "--")?;
    let before = &rest[..end];
    let build = |pair: &[String]| Build {
        name: pair[0].clone(),
        words: [before, &pair[1..]].concat(),
        speeds: Vec::new(),
    };
    Some((
        Path::new(room),
        rest[end + 1..].chunks(2).map(build).collect(),
    ))
}

/// Each try has all builds one after the other, so that a slow hour of the
/// machine is slow for all of them.
fn tries(room: &Path, builds: &mut [Build], capture: &Capture) -> Result<(), String> {
    let files = [room.join("capture"), room.join("answers")];
    fs::write(&files[0], &capture.bytes).map_err(|fault| fault.to_string())?;
    builds.iter_mut().for_each(|build| build.speeds.clear());
    for _ in 0..TRIES {
        for build in builds.iter_mut() {
            let said = run(&build.words, &files).map_err(|fault| fault.to_string())?;
            if fs::read(&files[1]).ok().as_ref() != Some(&capture.answers) {
                return Err(format!("the answers of {} are wrong", build.name));
            }
            build.speeds.push(match said.parse::<usize>() {
                Ok(microseconds) if microseconds > 0 => RECORDS * 1_000_000 / microseconds,
                _ => return Err(format!("{} told no time: '{said}'", build.name)),
            });
        }
    }
    Ok(())
}

/// What the program says on standard error. It reads and writes files: at the
/// other end of a pipe somebody would work at the same time.
fn run(words: &[String], files: &[PathBuf; 2]) -> std::io::Result<String> {
    let done = Command::new(&words[0])
        .args(&words[1..])
        .stdin(File::open(&files[0])?)
        .stdout(File::create(&files[1])?)
        .output()?;
    Ok(String::from_utf8_lossy(&done.stderr).into_owned())
}
