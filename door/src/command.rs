//! The command line.

use crate::say::{misused, shown, Fail};
use std::ffi::{OsStr, OsString};
use std::path::PathBuf;

/// Where something is read from.
#[derive(Clone, Debug, PartialEq)]
pub enum Place {
    Input,
    File(OsString),
}

/// Where what is handed on goes to.
#[derive(Clone, Debug, PartialEq)]
pub enum Out {
    /// Standard output; `named` by `-o -`.
    Stream {
        named: bool,
    },
    File(PathBuf),
}

#[derive(Clone, Debug, PartialEq)]
pub enum Texts {
    /// In the input, before the capture.
    Inside,
    /// In files of their own, or none due.
    Apart([Option<OsString>; 4]),
}

#[derive(Clone, Debug, PartialEq)]
pub enum Command {
    Replay(Place),
    ReadBack(Texts, Place),
    Write(Place),
    Bytes(Place),
    Probe,
    Build,
    Test(Vec<String>),
    Help(Option<String>),
    Version,
}

#[derive(Clone, Debug, PartialEq)]
pub struct Call {
    pub command: Command,
    pub out: Out,
    /// Bytes may go to a terminal.
    pub force: bool,
}

pub const COMMANDS: [&str; 9] = [
    "replay", "readback", "write", "bytes", "probe", "build", "test", "help", "version",
];
const COUNTS: [&str; 5] = ["--seed", "--captures", "--calls", "--frames", "--readbacks"];

/// The words behind a command: its options, and the names that are no option.
struct Words {
    names: Vec<OsString>,
    texts: Option<[Option<OsString>; 4]>,
    out: Option<OsString>,
    force: bool,
}

fn is(word: &OsStr, option: &str) -> bool {
    word == OsStr::new(option)
}

fn four_texts(rest: &mut std::slice::Iter<OsString>) -> Result<[Option<OsString>; 4], Fail> {
    let texts: Vec<Option<OsString>> = rest
        .by_ref()
        .take(4)
        .map(|word| Some(word.clone()).filter(|word| !is(word, "-")))
        .collect();
    <[Option<OsString>; 4]>::try_from(texts).map_err(|texts| {
        misused(format!(
            "--texts needs four texts, for heads 0 to 3, and here are {}",
            texts.len()
        ))
    })
}

fn sorted(command: &str, rest: &[OsString]) -> Result<Words, Fail> {
    let mut words = Words {
        names: Vec::new(),
        texts: None,
        out: None,
        force: false,
    };
    let bytes = matches!(command, "write" | "bytes");
    let mut rest = rest.iter();
    while let Some(word) = rest.next() {
        if is(word, "--") {
            words.names.extend(rest.by_ref().cloned());
        } else if is(word, "-o") {
            let name = rest.next().filter(|name| !name.is_empty());
            let name = name.ok_or_else(|| misused("-o needs the name of a file"))?;
            if words.out.replace(name.clone()).is_some() {
                return Err(misused("-o stands twice"));
            }
        } else if is(word, "--force") && bytes {
            words.force = true;
        } else if is(word, "--texts") && command == "readback" && words.texts.is_none() {
            words.texts = Some(four_texts(&mut rest)?);
        } else {
            words.names.push(word.clone());
        }
    }
    Ok(words)
}

fn place(command: &str, names: &[OsString]) -> Result<Place, Fail> {
    match names {
        [] => Ok(Place::Input),
        [name] if is(name, "-") => Ok(Place::Input),
        [name] => Ok(Place::File(name.clone())),
        _ => Err(misused(format!(
            "{command} takes one FILE, and here are {}",
            names.len()
        ))),
    }
}

fn nothing_more(command: &str, names: &[OsString]) -> Result<(), Fail> {
    match names.first() {
        None => Ok(()),
        Some(name) => Err(misused(format!(
            "{command} takes nothing more, and here is '{}'",
            shown(name)
        ))),
    }
}

fn counts(rest: &[OsString]) -> Result<Vec<String>, Fail> {
    let mut words = Vec::new();
    for pair in rest.chunks(2) {
        let name = shown(&pair[0]);
        if !COUNTS.contains(&name.as_str()) {
            return Err(misused(format!("test knows no '{name}'")));
        }
        let number = pair.get(1).map(|word| shown(word)).unwrap_or_default();
        if number.is_empty() || !number.bytes().all(|b| b.is_ascii_digit()) {
            return Err(misused(format!("{name} needs a number")));
        }
        words.extend([name, number]);
    }
    Ok(words)
}

fn page(names: &[OsString]) -> Result<Option<String>, Fail> {
    let name = names.first().map(|name| shown(name));
    nothing_more("help", names.get(1..).unwrap_or(&[]))?;
    match name {
        Some(name) if !COMMANDS.contains(&name.as_str()) => {
            Err(misused(format!("there is no command '{name}'")))
        }
        name => Ok(name),
    }
}

fn command(word: &str, rest: &[OsString], words: &Words) -> Result<Command, Fail> {
    let names = &words.names;
    Ok(match word {
        "replay" => Command::Replay(place(word, names)?),
        "write" => Command::Write(place(word, names)?),
        "bytes" => Command::Bytes(place(word, names)?),
        "readback" => match &words.texts {
            Some(texts) => Command::ReadBack(
                Texts::Apart(texts.clone()),
                place("readback behind four texts", names)?,
            ),
            None => Command::ReadBack(Texts::Inside, place(word, names)?),
        },
        "test" => Command::Test(counts(rest)?),
        "help" => Command::Help(page(names)?),
        _ => {
            nothing_more(word, names)?;
            match word {
                "probe" => Command::Probe,
                "build" => Command::Build,
                _ => Command::Version,
            }
        }
    })
}

/// What is asked for.
pub fn call(words: &[OsString]) -> Result<Call, Fail> {
    let list = COMMANDS.join(", ");
    let (first, rest) = words
        .split_first()
        .ok_or_else(|| misused(format!("say what to do: {list}")))?;
    let word = match shown(first).as_str() {
        "-h" | "--help" => String::from("help"),
        "--version" => String::from("version"),
        word if COMMANDS.contains(&word) => String::from(word),
        word => return Err(misused(format!("there is no command '{word}'"))),
    };
    if matches!(rest.first(), Some(next) if is(next, "-h") || is(next, "--help")) {
        return call(&[OsString::from("help"), OsString::from(word)]);
    }
    let words = sorted(&word, rest)?;
    if words.out.is_some() && matches!(word.as_str(), "build" | "test") {
        return Err(misused(format!(
            "{word} hands nothing on, so there is nothing for -o"
        )));
    }
    let command = command(&word, rest, &words)?;
    let out = match words.out {
        None => Out::Stream { named: false },
        Some(name) if is(&name, "-") => Out::Stream { named: true },
        Some(name) => Out::File(PathBuf::from(name)),
    };
    Ok(Call {
        command,
        out,
        force: words.force,
    })
}

#[cfg(test)]
mod tests {
    use super::*;

    fn called(words: &[&str]) -> Result<Call, Fail> {
        call(&words.iter().map(OsString::from).collect::<Vec<_>>())
    }
    fn file(name: &str) -> Place {
        Place::File(OsString::from(name))
    }

    #[test]
    fn a_dash_is_standard_input() {
        for words in [
            &["replay"][..],
            &["replay", "-"],
            &["replay", "--"],
            &["replay", "--", "-"],
        ] {
            assert_eq!(
                called(words).unwrap().command,
                Command::Replay(Place::Input)
            );
        }
    }

    #[test]
    fn names_that_begin_with_a_dash_are_files() {
        assert_eq!(
            called(&["replay", "-dose"]).unwrap().command,
            Command::Replay(file("-dose"))
        );
        assert_eq!(
            called(&["bytes", "--", "-o"]).unwrap().command,
            Command::Bytes(file("-o"))
        );
        assert_eq!(
            called(&["replay", "--force"]).unwrap().command,
            Command::Replay(file("--force"))
        );
    }

    #[test]
    fn where_it_goes_may_stand_before_and_behind() {
        for words in [["write", "-o", "x", "y"], ["write", "y", "-o", "x"]] {
            let call = called(&words).unwrap();
            assert_eq!(call.command, Command::Write(file("y")));
            assert_eq!(call.out, Out::File(PathBuf::from("x")));
        }
        assert_eq!(
            called(&["write", "-o", "-"]).unwrap().out,
            Out::Stream { named: true }
        );
    }

    #[test]
    fn texts_are_four() {
        let call = called(&["readback", "--texts", "-", "a", "-", "--", "c"]).unwrap();
        let texts = [
            None,
            Some(OsString::from("a")),
            None,
            Some(OsString::from("--")),
        ];
        assert_eq!(
            call.command,
            Command::ReadBack(Texts::Apart(texts), file("c"))
        );
        assert!(called(&["readback", "--texts", "-", "-", "-"]).is_err());
    }

    #[test]
    fn what_is_typed_wrongly_is_2() {
        for words in [
            &[][..],
            &["reply"],
            &["replay", "a", "b"],
            &["replay", "-o"],
            &["replay", "-o", "a", "-o", "b"],
            &["probe", "a"],
            &["build", "a"],
            &["test", "-o", "a"],
            &["test", "--seed"],
            &["test", "--seed", "x"],
            &["test", "--fast", "1"],
            &["help", "reply"],
            &["help", "replay", "write"],
            &["version", "2"],
        ] {
            assert_eq!(called(words).unwrap_err().status, 2, "{words:?}");
        }
    }
}
