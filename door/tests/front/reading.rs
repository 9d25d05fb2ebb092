//! What is read: files with any name, standard input, and things that are no file.
use crate::common::{ground, real_root, skipped, Made};
use std::ffi::OsStr;
use std::fs;
use std::os::unix::ffi::OsStrExt;
use std::os::unix::fs::{symlink, PermissionsExt};
use std::os::unix::net::UnixListener;

/// The words of each command that reads a file, up to the file.
const CALLS: [&[&str]; 9] = [
    &["replay"],
    &["readback"],
    &["write"],
    &["bytes"],
    &["readback", "--texts"],
    &["readback", "--texts", "-"],
    &["readback", "--texts", "-", "-"],
    &["readback", "--texts", "-", "-", "-"],
    &["readback", "--texts", "-", "-", "-", "-"],
];

/// Each command with this name in each place where a file can stand: 2, with these words.
#[track_caller]
fn is_unusable(made: &Made, name: &[u8], words: &str) {
    for call in CALLS {
        let rest: &[&str] = if call.len() > 1 {
            &["-", "-", "-"][..(6 - call.len()).min(3)]
        } else {
            &[]
        };
        let call = made.call(call).word(OsStr::from_bytes(name)).words(rest);
        // there is something to read instead, were it taken for standard input
        call.input("82 00 00 00 00").run().is(2).says(words);
    }
    assert_eq!(made.log(), "", "nothing is built");
}

#[test]
fn a_file_that_is_not_there() {
    let made = Made::new("missing");
    is_unusable(
        &made,
        b"not there",
        "cannot open 'not there': No such file or directory",
    );
    is_unusable(&made, b"", "cannot open '': No such file or directory");
    is_unusable(
        &made,
        b"none/x.hex",
        "cannot open 'none/x.hex': No such file or directory",
    );
    made.file("file", "");
    is_unusable(&made, b"file/x", "cannot open 'file/x': Not a directory");
}

#[test]
fn a_folder() {
    let made = Made::new("folders");
    fs::create_dir(made.here.join("a folder")).expect("a folder");
    fs::create_dir(made.here.join("folder.hex")).expect("a folder");
    is_unusable(&made, b"a folder", "'a folder' is a folder");
    is_unusable(&made, b"folder.hex", "'folder.hex' is a folder");
    is_unusable(&made, b".", "'.' is a folder");
}

#[test]
fn a_link_that_leads_nowhere() {
    let made = Made::new("links");
    symlink("nowhere", made.here.join("broken")).expect("a link");
    symlink("round", made.here.join("round")).expect("a link");
    is_unusable(
        &made,
        b"broken",
        "cannot open 'broken': No such file or directory",
    );
    is_unusable(
        &made,
        b"round",
        "cannot open 'round': Too many levels of symbolic links",
    );
}

#[test]
fn a_socket_is_no_file() {
    let made = Made::new("sockets");
    let _socket = UnixListener::bind(made.here.join("socket")).expect("a socket");
    is_unusable(
        &made,
        b"socket",
        "cannot open 'socket': No such device or address",
    );
}

#[test]
fn a_file_that_may_not_be_read() {
    let made = Made::new("secret");
    if ground::is_root() && !ground::has("setpriv") {
        return skipped(
            "a file that may not be read",
            "root reads all, and there is no setpriv",
        );
    }
    if !ground::anybody_reaches(&real_root().join("mirvashek")) {
        return skipped(
            "a file that may not be read",
            "others do not reach this repository",
        );
    }
    for name in ["secret", "secret.hex"] {
        let secret = made.file(name, "82 00 00 00 00");
        fs::set_permissions(secret, fs::Permissions::from_mode(0o000)).expect("rights");
        for command in ["replay", "readback", "write", "bytes"] {
            let call = made
                .call(&[command, name])
                .input("x")
                .behind(&ground::as_anybody());
            call.run()
                .is(2)
                .says(&format!("cannot open '{name}': Permission denied"));
        }
        let call = made
            .call(&["readback", "--texts", "-", name, "-", "-"])
            .behind(&ground::as_anybody());
        call.run()
            .is(2)
            .says(&format!("cannot open '{name}': Permission denied"));
    }
}

/// A read that fails where the file could be opened.
#[test]
fn a_file_that_cannot_be_read() {
    let made = Made::new("unreadable").built();
    for command in ["replay", "readback", "write", "bytes"] {
        let ended = made.call(&[command, "/proc/self/mem"]).run();
        ended
            .hold(ended.status == 2 || ended.status == 4, "2 or 4")
            .prints("")
            .says("/proc/self/mem")
            .says("Input/output error");
    }
}

/// Names that are hard to take, and as they are shown.
const NAMES: [(&[u8], &str); 8] = [
    (b"two words", "two words"),
    (b" ", " "),
    (b"line\nfeed", "line\\x0Afeed"),
    (b"-dash", "-dash"),
    (b"\xFFno letter\x80", "\\xFFno letter\\x80"),
    (b"\x1B[31m", "\\x1B[31m"),
    (b"\xC2\xB5g $HOME * \\", "\u{b5}g $HOME * \\"),
    (b"it's \"it\"", "it's \"it\""),
];

#[test]
fn any_name_can_be_read_and_is_shown_safely() {
    let made = Made::new("names");
    for (name, shown) in NAMES {
        is_unusable(
            &made,
            name,
            &format!("cannot open '{shown}': No such file or directory"),
        );
        made.file(OsStr::from_bytes(name), "82 02 0x");
        let ended = made.call(&["bytes"]).word(OsStr::from_bytes(name)).run();
        ended.is(2).says(&format!("{shown}, line 1: \"0x\""));
        let plain = ended.err.chars().all(|c| c == '\n' || !c.is_control());
        ended.hold(plain, "no byte that speaks to a terminal");
        made.file(OsStr::from_bytes(name), "82 02");
        made.call(&["bytes"])
            .word(OsStr::from_bytes(name))
            .run()
            .is(0)
            .silent()
            .prints([0x82, 2]);
    }
}

/// A capture that comes piece by piece, from a pipe or under the name of one.
#[test]
fn a_fifo_and_standard_input() {
    let made = Made::new("fifos").built();
    let listing = "cycle ack h0 h1 h2 h3\n0 00 00 00 00 00\n1 00 00 00 00 00\n";
    for (name, pieces) in [
        ("fifo", ["\\0\\0\\0\\0\\0\\0\\0", "\\0\\0\\0"]),
        ("fifo.hex", ["00000000000", "000 000000"]),
    ] {
        made.fifo(name);
        let lines = format!(
            "{{ printf '{}'; sleep 0.3; printf '{}'; }} >{name} & exec \"$@\"",
            pieces[0], pieces[1]
        );
        made.call(&["replay", name])
            .shell(&lines)
            .run()
            .is(0)
            .silent()
            .prints(listing);
    }
    for name in ["-", "/dev/stdin"] {
        let lines = "{ printf '\\0\\0\\0\\0\\0\\0\\0'; sleep 0.3; printf '\\0\\0\\0'; } | \"$@\"";
        made.call(&["replay", name])
            .shell(lines)
            .run()
            .is(0)
            .silent()
            .prints(listing);
    }
}

/// A name that ends in .hex is hex text, and any other is not.
#[test]
fn only_the_end_of_a_name_says_hex() {
    let made = Made::new("hex names").built();
    let given = made.folder.join("given");
    let lines = format!("cat >'{}'; echo 'refused 1'", given.display());
    made.program("replay", &lines);
    for (name, is_hex) in [
        ("x.hex", true),
        (".hex", true),
        ("x.HEX", false),
        ("xhex", false),
        ("x.hex.txt", false),
        ("x.hex ", false),
    ] {
        made.file(name, "82 02\n");
        made.call(&["replay", name]).run().is(1);
        let bytes = fs::read(&given).expect("what the program was given");
        assert_eq!(bytes == [0x82, 2], is_hex, "{name:?}");
        assert_eq!(bytes == b"82 02\n", !is_hex, "{name:?}");
    }
}

/// The capture is taken away while the texts are still being read: it is read whole, or it cannot be opened; nothing else.
#[test]
fn a_capture_that_vanishes() {
    let made = Made::new("vanishing").built();
    made.file("capture", b"\0\x002\0\0\0\0.\0\0\0\x005\0\0");
    made.fifo("text");
    let lines = "{ sleep 0.3; rm capture; printf 2.5; } >text & exec \"$@\"";
    let ended = made
        .call(&["readback", "--texts", "-", "text", "-", "-", "capture"])
        .input([0; 5])
        .shell(lines)
        .run();
    match ended.status {
        0 => ended.prints("0 same\n1 same\n2 same\n3 same\n"),
        _ => ended
            .is(2)
            .says("cannot open 'capture': No such file or directory"),
    };
}

/// What is not the caller's input is not eaten: the text comes by standard input, the capture by a file, and the other way round.
#[test]
fn one_reader_for_standard_input() {
    let made = Made::new("one reader").built();
    made.file("capture", b"\0\x002\0\0\0\0.\0\0\0\x005\0\0");
    let ended = made
        .call(&["readback", "--texts", "-", "/dev/stdin", "-", "-"])
        .input("2.5\n")
        .run();
    // the text has eaten it, so the capture behind it is empty
    ended.hold(
        ended.status != 0,
        "no read-back of a capture that the text has eaten",
    );
    made.call(&[
        "readback",
        "--texts",
        "-",
        "/dev/stdin",
        "-",
        "-",
        "capture",
    ])
    .input("2.5\n")
    .run()
    .is(0);
}
