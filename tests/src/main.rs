//! The driver: judges four programs by the model, or itself by the fakes.
//! The options are told in `drive::options::USAGE`. Status 0 is a good run,
//! 1 a difference or too little seen, 2 a bad command line.

use outside_model::drive::examples::read_folder;
use outside_model::drive::options::{Options, CALLS, CAPTURES, FRAMES, READBACKS, USAGE};
use outside_model::drive::program::Program;
use outside_model::drive::run::Plan;
use outside_model::drive::selftest::self_test;
use std::path::PathBuf;
use std::process::ExitCode;
use std::time::{SystemTime, UNIX_EPOCH};

const FAILED: u8 = 1;
const BAD_OPTIONS: u8 = 2;

fn main() -> ExitCode {
    let words: Vec<String> = std::env::args_os()
        .skip(1)
        .map(|word| word.to_string_lossy().into_owned())
        .collect();
    let options = match Options::read(&words) {
        Ok(options) => options,
        Err(why) => {
            eprintln!("outside: {why}\n{USAGE}");
            return ExitCode::from(BAD_OPTIONS);
        }
    };
    let seed = options.seed.unwrap_or_else(clock);
    println!("seed {seed}");
    let result = if options.self_test {
        judge_self(seed)
    } else {
        judge_programs(&options, seed, &again(&words, seed))
    };
    match result {
        Ok(()) => {
            println!("outside: ok");
            ExitCode::SUCCESS
        }
        Err(why) => {
            println!("{}", why.trim_end());
            println!("outside: failed");
            ExitCode::from(FAILED)
        }
    }
}

fn clock() -> u64 {
    let now = SystemTime::now().duration_since(UNIX_EPOCH);
    now.map_or(0, |time| time.as_nanos() as u64)
}

/// The command that repeats this run, whatever seed it took.
fn again(words: &[String], seed: u64) -> String {
    let mut line = String::from("outside");
    let mut rest = words.iter();
    while let Some(word) = rest.next() {
        if word == "--seed" {
            rest.next();
        } else {
            line = format!("{line} {word}");
        }
    }
    format!("{line} --seed {seed}")
}

fn judge_self(seed: u64) -> Result<(), String> {
    match self_test(seed)? {
        true => Ok(()),
        false => Err("a fake was not judged as it should be".into()),
    }
}

fn judge_programs(options: &Options, seed: u64, again: &str) -> Result<(), String> {
    let program = |path: &Option<PathBuf>| {
        let path = path.as_ref()?;
        Some(Program::new(&options.prefix, path, &[]))
    };
    let examples = match &options.examples {
        Some(folder) => read_folder(folder)?,
        None => Vec::new(),
    };
    let plan = Plan {
        replay: program(&options.replay),
        probe: program(&options.probe),
        write: program(&options.write),
        readback: program(&options.readback),
        examples,
        seed,
        captures: options.captures.unwrap_or(CAPTURES),
        calls: options.calls.unwrap_or(CALLS),
        frames: options.frames.unwrap_or(FRAMES),
        readbacks: options.readbacks.unwrap_or(READBACKS),
    };
    let tally = plan
        .run()
        .map_err(|difference| difference.tell(seed, again))?;
    tally.lines().iter().for_each(|line| println!("{line}"));
    let small = plan.captures < CAPTURES
        || plan.calls < CALLS
        || plan.frames < FRAMES
        || plan.readbacks < READBACKS;
    if let Some(note) = tally.covered(small)? {
        println!("{note}");
    }
    Ok(())
}
