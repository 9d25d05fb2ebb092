//! Streams that are closed at the call. A closed stream's number could go to a file that is opened later, and what was meant for the
//! stream would go there.
use crate::common::Made;
use std::fs;

const COMBINATIONS: [&str; 8] = ["", "0", "1", "2", "01", "02", "12", "012"];

/// Words with a FILE, and without one.
const CALLS: [(&[&str], &[&str]); 4] = [
    (&["replay", "capture"], &["replay"]),
    (
        &["readback", "--texts", "-", "text", "-", "-", "capture"],
        &["readback", "--texts", "-", "text", "-", "-"],
    ),
    (&["write", "x.frames"], &["write"]),
    (&["bytes", "x.hex"], &["bytes"]),
];

const FILES: [(&str, &[u8]); 4] = [
    ("capture", b"\0\x002\0\0\0\0.\0\0\0\x005\0\0"),
    ("text", b"2.5\n"),
    ("x.frames", b"frame 1 11 1\n"),
    ("x.hex", b"82 02 00 00 00\n"),
];

fn made(name: &str) -> Made {
    let made = Made::new(name).built();
    for (name, bytes) in FILES {
        made.file(name, bytes);
    }
    made
}

/// No file was written to that was only to be read.
#[track_caller]
fn files_are_as_they_were(made: &Made) {
    for (name, bytes) in FILES {
        assert_eq!(made.read(name), bytes, "the file {name}");
    }
}

#[test]
fn closed_streams_with_a_file() {
    let made = made("with a file");
    for (words, _) in CALLS {
        let whole = made.call(words).run();
        whole.is(0);
        for closed in COMBINATIONS {
            let ended = made.call(words).closed(closed).run();
            if closed.contains('1') {
                ended.ends(4).prints("");
                if !closed.contains('2') {
                    ended.is(4).says("standard output is closed");
                }
            } else {
                ended.ends(0).prints(&whole.out);
                ended.hold(
                    closed.contains('2') || ended.err == whole.err,
                    "the same words",
                );
            }
            files_are_as_they_were(&made);
        }
    }
}

#[test]
fn closed_streams_with_an_output_file() {
    let made = made("with an output file");
    for (words, _) in CALLS {
        let whole = made.call(words).run();
        for closed in COMBINATIONS {
            made.call(words)
                .words(&["-o", "out"])
                .closed(closed)
                .run()
                .ends(0)
                .prints("");
            assert_eq!(
                made.read("out"),
                whole.out,
                "{words:?} with {closed:?} closed"
            );
            fs::remove_file(made.here.join("out")).expect("the output");
            files_are_as_they_were(&made);
        }
    }
}

#[test]
fn closed_streams_without_a_file() {
    let made = made("without a file");
    for (_, words) in CALLS {
        for closed in ["0", "01", "02", "012"] {
            let ended = made.call(words).closed(closed).run();
            // where both are closed each is a reason
            ended.hold(
                ended.status == 2 || (ended.status == 4 && closed.contains('1')),
                "2, or 4 where 1 is closed too",
            );
            ended.prints("");
            if closed == "0" {
                ended.is(2).says("standard input is closed");
            }
            let ended = made.call(words).words(&["-o", "out"]).closed(closed).run();
            ended
                .ends(2)
                .hold(!made.here.join("out").exists(), "no output");
            files_are_as_they_were(&made);
        }
    }
}

#[test]
fn a_text_from_a_closed_stream_is_2() {
    let made = made("closed text");
    for words in [
        &[
            "readback",
            "--texts",
            "-",
            "/dev/stdin",
            "-",
            "-",
            "capture",
        ][..],
        &["replay", "/dev/stdin"],
        &["bytes", "/dev/stdin"],
    ] {
        made.call(words).closed("0").run().is(2).says("closed");
    }
}

#[test]
fn a_file_that_is_a_closed_stream_is_4() {
    let made = made("closed file");
    for (words, _) in CALLS {
        let ended = made
            .call(words)
            .words(&["-o", "/dev/stdout"])
            .closed("1")
            .run();
        ended.is(4).says("standard output is closed");
    }
}

/// The first build happens with streams closed: rt must not get a number that was free.
#[test]
fn closed_streams_while_building() {
    for closed in COMBINATIONS {
        let made = Made::new("closed while building");
        made.file("capture", [0; 5]);
        let ended = made
            .call(&["replay", "capture", "-o", "out"])
            .closed(closed)
            .run();
        ended.ends(0).prints("");
        assert_eq!(
            made.read("out"),
            b"cycle ack h0 h1 h2 h3\n0 00 00 00 00 00\n"
        );
    }
}

#[test]
fn other_commands_with_closed_streams() {
    let made = made("others");
    for words in [&["help"][..], &["version"], &["help", "replay"]] {
        made.call(words)
            .closed("1")
            .run()
            .is(4)
            .says("standard output is closed");
        made.call(words).closed("0").run().is(0).silent();
        made.call(words).closed("2").run().is(0);
    }
    made.call(&["probe"])
        .closed("0")
        .run()
        .is(2)
        .says("standard input is closed");
    made.call(&["probe"])
        .closed("1")
        .run()
        .is(4)
        .says("standard output is closed");
    made.call(&["build"]).closed("012").run().ends(0);
}
