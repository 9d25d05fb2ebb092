//! The command line: what is typed wrongly is told before anything is read or built.
use crate::common::Made;

/// What is typed wrongly, and what is said to it.
const WRONG: &[(&[&str], &str)] = &[
    (
        &[],
        "replay, readback, write, bytes, probe, build, test, help, version",
    ),
    (&["reply"], "there is no command 'reply'"),
    (&["re\nplay"], "there is no command 're\\x0Aplay'"),
    (&["-x"], "there is no command '-x'"),
    (
        &["replay", "a", "b"],
        "replay takes one FILE, and here are 2",
    ),
    (
        &["readback", "a", "b"],
        "readback takes one FILE, and here are 2",
    ),
    (
        &["write", "a", "b", "c"],
        "write takes one FILE, and here are 3",
    ),
    (
        &["bytes", "a", "--", "b"],
        "bytes takes one FILE, and here are 2",
    ),
    (
        &["replay", "-", "-"],
        "replay takes one FILE, and here are 2",
    ),
    (
        &["readback", "--texts"],
        "--texts needs four texts, for heads 0 to 3, and here are 0",
    ),
    (
        &["readback", "--texts", "-"],
        "--texts needs four texts, for heads 0 to 3, and here are 1",
    ),
    (
        &["readback", "--texts", "-", "-"],
        "--texts needs four texts, for heads 0 to 3, and here are 2",
    ),
    (
        &["readback", "--texts", "-", "-", "-"],
        "--texts needs four texts, for heads 0 to 3, and here are 3",
    ),
    (
        &["readback", "--texts", "-", "-", "-", "-", "a", "b"],
        "readback behind four texts takes one FILE, and here are 2",
    ),
    (&["replay", "-o"], "-o needs"),
    (&["replay", "a", "-o"], "-o needs"),
    (&["probe", "a"], "here is 'a'"),
    (&["build", "a"], "here is 'a'"),
    (&["help", "reply"], "'reply'"),
    (&["help", "replay", "write"], "'write'"),
    (&["version", "2"], "here is '2'"),
    (&["--version", "2"], "here is '2'"),
    (&["test", "--fast"], "test knows no '--fast'"),
    (
        &["test", "--captures", "3", "--seed"],
        "--seed needs a number",
    ),
    (&["test", "--calls", "many"], "--calls needs a number"),
    (&["test", "--frames", "-1"], "--frames needs a number"),
    (&["test", "--readbacks", ""], "--readbacks needs a number"),
];

#[test]
fn what_is_typed_wrongly_is_told() {
    let made = Made::new("wrong words");
    for (words, said) in WRONG {
        made.call(words)
            .run()
            .is(2)
            .says(said)
            .says("./mirvashek help");
    }
    assert_eq!(made.log(), "", "nothing is built");
}

const COMMANDS: [&str; 9] = [
    "replay", "readback", "write", "bytes", "probe", "build", "test", "help", "version",
];

#[track_caller]
fn fits_80_columns(page: &[u8]) {
    let page = String::from_utf8(page.to_vec()).expect("a page of letters");
    assert!(page.ends_with('\n'), "a page ends with a line");
    for line in page.lines() {
        assert!(
            line.chars().count() <= 80,
            "{} columns: {line}",
            line.chars().count()
        );
        assert!(!line.ends_with(' '), "a blank ends the line {line:?}");
    }
}

#[test]
fn help_names_every_command_in_80_columns() {
    let made = Made::new("help");
    let page = made.call(&["help"]).run();
    page.is(0).silent();
    fits_80_columns(&page.out);
    let text = String::from_utf8_lossy(&page.out).into_owned();
    for command in COMMANDS {
        assert!(
            text.contains(&format!("./mirvashek {command}")),
            "no use of {command} in:\n{text}"
        );
    }
    for word in ["-h", "--help"] {
        made.call(&[word]).run().is(0).silent().prints(&page.out);
    }
    assert_eq!(made.log(), "", "nothing is built");
}

#[test]
fn each_command_has_a_page_in_80_columns() {
    let made = Made::new("pages");
    for command in COMMANDS {
        let page = made.call(&["help", command]).run();
        page.is(0).silent();
        fits_80_columns(&page.out);
        let names_it =
            String::from_utf8_lossy(&page.out).contains(&format!("./mirvashek {command}"));
        page.hold(names_it, &format!("the use of {command}"));
        for word in ["-h", "--help"] {
            made.call(&[command, word])
                .run()
                .is(0)
                .silent()
                .prints(&page.out);
        }
    }
    assert_eq!(made.log(), "", "nothing is built");
}

#[test]
fn the_version_says_what_it_is() {
    let made = Made::new("version");
    let version = made.call(&["version"]).run();
    version.is(0).silent();
    let line = String::from_utf8_lossy(&version.out).into_owned();
    assert!(
        line.starts_with("mirvashek 0.") && line.ends_with('\n'),
        "{line:?}"
    );
    made.call(&["--version"])
        .run()
        .is(0)
        .silent()
        .prints(&version.out);
}

/// A word that begins with a dash and is no option of the command is a file, and `--` ends the options.
#[test]
fn words_that_begin_with_a_dash_are_files() {
    let made = Made::new("dashes");
    made.file("-dose.hex", "82 00 00 00 00");
    for (words, name) in [
        (&["bytes", "-dose.hex"][..], "-dose.hex"),
        (&["bytes", "--", "-dose.hex"], "-dose.hex"),
    ] {
        let made_of = made.call(words).run();
        made_of.is(0).silent().hold(
            made_of.out == [0x82, 0, 0, 0, 0],
            &format!("the bytes of {name}"),
        );
    }
    for name in ["-o", "--help", "-h", "--force", "--texts", "--"] {
        made.file(name, "82 02");
        made.call(&["bytes", "--", name])
            .run()
            .is(0)
            .silent()
            .prints([0x82, 2]);
    }
    for word in ["--text", "-x", "--texts=-", "--force"] {
        made.call(&["readback", word, "-o", "unmade"])
            .from(&made.scratch)
            .run()
            .is(2)
            .says(&format!("cannot open '{word}'"));
    }
}
