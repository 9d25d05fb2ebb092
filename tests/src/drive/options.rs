//! The command line.

use std::env::current_dir;
use std::path::PathBuf;

pub const CAPTURES: usize = 2_400;
pub const CALLS: usize = 27_000;
pub const FRAMES: usize = 300;
pub const READBACKS: usize = 800;

pub const USAGE: &str = "\
outside --replay PATH --probe PATH --write PATH --readback PATH [--prefix WORD]...
        [--examples DIR] [--seed N] [--captures N] [--calls N] [--frames N] [--readbacks N]
outside --self-test [--seed N]
Captures go to replay, calls to probe, inputs of some frames each to write_frame, and texts
with a capture to readback.";

#[derive(Debug, Default)]
pub struct Options {
    pub replay: Option<PathBuf>,
    pub probe: Option<PathBuf>,
    pub write: Option<PathBuf>,
    pub readback: Option<PathBuf>,
    pub prefix: Vec<String>,
    pub examples: Option<PathBuf>,
    pub seed: Option<u64>,
    pub captures: Option<usize>,
    pub calls: Option<usize>,
    pub frames: Option<usize>,
    pub readbacks: Option<usize>,
    pub self_test: bool,
}

impl Options {
    pub fn read(words: &[String]) -> Result<Options, String> {
        let mut options = Options::default();
        let mut rest = words.iter();
        while let Some(name) = rest.next() {
            if name == "--self-test" {
                options.self_test = true;
                continue;
            }
            let mut value = || rest.next().ok_or(format!("{name} wants a value"));
            match name.as_str() {
                "--replay" => options.replay = Some(path(value()?)?),
                "--probe" => options.probe = Some(path(value()?)?),
                "--write" => options.write = Some(path(value()?)?),
                "--readback" => options.readback = Some(path(value()?)?),
                "--prefix" => options.prefix.push(value()?.clone()),
                "--examples" => options.examples = Some(path(value()?)?),
                "--seed" => options.seed = Some(number(name, value()?)?),
                "--captures" => options.captures = Some(number(name, value()?)?),
                "--calls" => options.calls = Some(number(name, value()?)?),
                "--frames" => options.frames = Some(number(name, value()?)?),
                "--readbacks" => options.readbacks = Some(number(name, value()?)?),
                _ => return Err(format!("unknown option {name}")),
            }
        }
        options.fit_together()?;
        Ok(options)
    }

    /// The self-test judges the driver; it would be a false comfort if it
    /// took the names of programs and left them untested.
    fn fit_together(&self) -> Result<(), String> {
        let programs = [&self.replay, &self.probe, &self.write, &self.readback];
        if self.self_test {
            let unused = programs.iter().any(|path| path.is_some()) || self.examples.is_some();
            return if unused {
                Err("--self-test tests no program and no examples".into())
            } else {
                Ok(())
            };
        }
        if programs.iter().any(|path| path.is_none()) {
            return Err("--replay, --probe, --write and --readback are all wanted".into());
        }
        let missing = programs.into_iter().flatten().find(|path| !path.is_file());
        if let Some(path) = missing {
            return Err(format!("no program at {}", path.display()));
        }
        match &self.examples {
            Some(folder) if !folder.is_dir() => Err(format!("no folder {}", folder.display())),
            _ => Ok(()),
        }
    }
}

/// Made absolute, so that a bare name is not looked for among the commands.
fn path(word: &str) -> Result<PathBuf, String> {
    let here = current_dir().map_err(|error| format!("{word}: {error}"))?;
    Ok(here.join(word))
}

fn number<T: std::str::FromStr>(name: &str, word: &str) -> Result<T, String> {
    word.parse()
        .map_err(|_| format!("{name} wants a number, not {word}"))
}

#[cfg(test)]
mod tests {
    use super::*;

    const THREE: &str = "--replay Cargo.toml --probe Cargo.toml --write Cargo.toml";

    fn read(line: &str) -> Result<Options, String> {
        let words: Vec<String> = line.split_whitespace().map(String::from).collect();
        Options::read(&words)
    }

    #[test]
    fn good_lines() {
        let rest = "--readback Cargo.toml --prefix a --prefix -b --frames 9 --readbacks 8";
        let options = read(&format!("{THREE} {rest}")).expect("good");
        assert_eq!(options.prefix, ["a", "-b"]);
        assert_eq!((options.frames, options.calls), (Some(9), None));
        assert_eq!(options.readbacks, Some(8));
        let options = read("--self-test --seed 7 --prefix a").expect("good");
        assert!(options.self_test && options.seed == Some(7));
    }

    #[test]
    fn bad_lines() {
        for line in [
            "",
            "--replay Cargo.toml",
            "--replay Cargo.toml --probe Cargo.toml",
            THREE,
            &format!("{THREE} --readback nowhere"),
            &format!("{THREE} --readback Cargo.toml --readbacks many"),
            "--self-test --seed",
            "--self-test --seed x",
            "--self-test --seed -1",
            "--self-test more",
            "--self-test --probe Cargo.toml",
            "--self-test --write Cargo.toml",
            "--self-test --readback Cargo.toml",
            "--self-test --speed 1",
        ] {
            assert!(read(line).is_err(), "{line}");
        }
    }
}
