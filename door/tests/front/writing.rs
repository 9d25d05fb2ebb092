//! Where what is handed on goes to: whole, or not at all, and never past a write that fails.
use crate::common::{fakes, ground, names_in, skipped, Ended, Made};
use std::fs;
use std::os::unix::fs::{symlink, FileTypeExt, PermissionsExt};
use std::path::Path;

/// A call of each kind whose output is far above any small limit, and that output.
struct Long {
    words: &'static [&'static str],
    output: Vec<u8>,
}

/// A listing, a capture, a read-back and bytes, all above 16,000 bytes.
fn long_calls(made: &Made) -> Vec<Long> {
    made.file("long", b"\x007777".repeat(2_000));
    let hex = "82 00 00 00 00\n".repeat(20_000);
    made.file("long.hex", hex);
    made.file("long.frames", "frame 1 4096 1\n".repeat(5));
    let piece = "37".repeat(2_000);
    let lines: String = (0..4).map(|h| format!("{h} 0 {piece}\n")).collect();
    let answer = made.folder.join("lines");
    fs::write(&answer, &lines).expect("lines");
    made.program(
        "readback",
        &fakes::after_reading(&format!("cat '{}'", answer.display())),
    );
    made.call(&["build"]).run().is(0);
    let cycles: String = (0..2_000)
        .map(|k| format!("{k} 00 37 37 37 37\n"))
        .collect();
    vec![
        Long {
            words: &["replay", "long"],
            output: format!("cycle ack h0 h1 h2 h3\n{cycles}").into_bytes(),
        },
        Long {
            words: &["readback", "--texts", "-", "-", "-", "-", "long"],
            output: lines.into_bytes(),
        },
        Long {
            words: &["write", "long.frames"],
            output: vec![0; 102_400],
        },
        Long {
            words: &["bytes", "long.hex"],
            output: [0x82, 0, 0, 0, 0].repeat(20_000),
        },
    ]
}

/// Where the output stands when all is well.
#[test]
fn a_file_gets_what_standard_output_would() {
    let made = Made::new("files").built();
    for long in long_calls(&made) {
        let plain = made.call(long.words).run();
        plain.prints(&long.output);
        for existed in [false, true] {
            if existed {
                made.file("out", "older");
            }
            let ended = made.call(long.words).words(&["-o", "out"]).run();
            ended
                .ends(plain.status)
                .prints("")
                .hold(ended.err == plain.err, "the same words as without -o");
            ended.hold(
                made.read("out") == long.output,
                "the same bytes in the file",
            );
            ended.hold(
                !names_in(&made.here).iter().any(|n| n.contains("part")),
                "no file is left beside it",
            );
            fs::remove_file(made.here.join("out")).expect("the output");
        }
        made.call(long.words)
            .words(&["-o", "-"])
            .run()
            .ends(plain.status)
            .prints(&long.output);
        let command = long.words[0];
        let before = [&[command, "-o", "out"], &long.words[1..]].concat();
        made.call(&before).run().ends(plain.status);
        assert_eq!(made.read("out"), long.output);
    }
}

/// A refusal is handed on like a listing, and what a refused text leaves is nothing: not even an empty file.
#[test]
fn a_file_is_made_only_where_something_is_handed_on() {
    let made = Made::new("no file").built();
    made.program("replay", &fakes::after_reading("echo 'refused 1'"));
    made.call(&["replay", "-o", "out"])
        .input([0; 6])
        .run()
        .is(1)
        .prints("");
    assert_eq!(made.read("out"), b"refused 1\n");
    made.file("out", "older");
    made.program(
        "write_frame",
        &fakes::after_reading("echo 'refused 20 at 0' >&2"),
    );
    made.program("replay", &fakes::after_reading("exit 1"));
    for (words, input, status) in [
        (&["write", "-o", "out"][..], "frame 1 2 1", 1),
        (&["write", "-o", "out"], "frame 1", 2),
        (&["bytes", "-o", "out"], "82 0", 2),
        (&["replay", "-o", "out"], "12345", 4),
        (&["replay", "-o", "out", "nowhere"], "", 2),
    ] {
        made.call(words).input(input).run().is(status);
        assert_eq!(made.read("out"), b"older", "{words:?}");
        assert!(!names_in(&made.here).iter().any(|n| n.contains("part")));
    }
}

#[test]
fn an_output_that_cannot_be_is_told_before_anything_is_built() {
    let made = Made::new("no output");
    fs::create_dir(made.here.join("folder")).expect("a folder");
    for name in [
        "folder",
        "folder/",
        ".",
        "/",
        "nowhere/out",
        "folder/none/out",
        "",
    ] {
        made.call(&["replay", "-o", name]).run().is(2);
        made.call(&["bytes", "-o", name]).run().is(2);
    }
    made.call(&["replay", "-o", "folder"])
        .run()
        .is(2)
        .says("'folder'")
        .says("folder");
    assert_eq!(made.log(), "", "nothing is built");
}

/// A link stays a link, rights stay as they were, and a name may be any name.
#[test]
fn an_output_keeps_what_it_was() {
    let made = Made::new("kept").built();
    made.file("real", "older");
    fs::set_permissions(made.here.join("real"), fs::Permissions::from_mode(0o640)).expect("rights");
    symlink("real", made.here.join("link")).expect("a link");
    made.call(&["bytes", "-o", "link"])
        .input("82 02")
        .run()
        .is(0)
        .silent();
    assert_eq!(made.read("real"), [0x82, 2]);
    assert!(fs::symlink_metadata(made.here.join("link"))
        .expect("the link")
        .file_type()
        .is_symlink());
    let rights = fs::metadata(made.here.join("real"))
        .expect("the file")
        .permissions()
        .mode();
    assert_eq!(rights & 0o777, 0o640);
    for name in ["two words", "-o", "--texts", "line\nfeed", "x.hex"] {
        made.call(&["bytes", "-o", name])
            .input("82 02")
            .run()
            .is(0)
            .silent();
        assert_eq!(made.read(name), [0x82, 2]);
    }
}

#[test]
fn a_pipe_and_a_device_are_written_directly() {
    let made = Made::new("devices").built();
    made.call(&["bytes", "-o", "/dev/null"])
        .input("82 02")
        .run()
        .is(0)
        .silent();
    assert!(fs::metadata("/dev/null")
        .expect("/dev/null")
        .file_type()
        .is_char_device());
    let fifo = made.fifo("fifo");
    let reader = std::thread::spawn(move || fs::read(fifo));
    made.call(&["bytes", "-o", "fifo"])
        .input("82 02")
        .run()
        .is(0)
        .silent()
        .prints("");
    assert_eq!(
        reader.join().expect("a reader").expect("what was read"),
        [0x82, 2]
    );
    assert!(fs::metadata(made.here.join("fifo"))
        .expect("the fifo")
        .file_type()
        .is_fifo());
}

/// A write that fails: 4, with words, and OUT is as it was with nothing beside it.
#[track_caller]
fn leaves_nothing(made: &Made, ended: &Ended, folder: &Path, out: &Path, before: Option<&[u8]>) {
    ended.is(4).says("cannot write");
    ended.hold(fs::read(out).ok().as_deref() == before, "OUT as it was");
    let parts: Vec<String> = names_in(folder)
        .into_iter()
        .filter(|n| n.contains("part"))
        .collect();
    ended.hold(
        parts.is_empty(),
        &format!("no file beside OUT, and here is {parts:?}"),
    );
    let left = made.somebody_is_left();
    ended.hold(
        left.is_none(),
        &format!("nobody is left, and here is {left:?}"),
    );
}

#[test]
fn a_file_that_cannot_take_all_is_as_it_was() {
    let made = Made::new("file limit").built();
    for long in long_calls(&made) {
        for before in [None, Some(&b"older"[..])] {
            before.map(|bytes| made.file("out", bytes));
            let call = made.call(long.words).words(&["-o", "out"]);
            let ended = call.shell("ulimit -f 8; exec \"$@\"").run();
            leaves_nothing(&made, &ended, &made.here, &made.here.join("out"), before);
        }
        fs::remove_file(made.here.join("out")).expect("the older file");
    }
}

/// A regular file behind standard output is cut back to what it had.
#[test]
fn standard_output_that_cannot_take_all_is_cut_back() {
    let made = Made::new("output limit").built();
    for long in long_calls(&made) {
        for (sign, before) in [(">", ""), (">>", "older\n")] {
            made.file("out", "older\n");
            let ended = made
                .call(long.words)
                .shell(&format!("ulimit -f 8; exec \"$@\" {sign}out"))
                .run();
            leaves_nothing(
                &made,
                &ended,
                &made.here,
                &made.here.join("out"),
                Some(before.as_bytes()),
            );
        }
    }
}

#[test]
fn a_full_device_behind_standard_output_is_4() {
    let made = Made::new("full device").built();
    for long in long_calls(&made) {
        made.call(long.words)
            .shell("exec \"$@\" >/dev/full")
            .run()
            .is(4)
            .says("cannot write")
            .says("No space left on device");
        made.call(long.words)
            .words(&["-o", "/dev/full"])
            .run()
            .is(4)
            .says("cannot write")
            .says("No space left on device");
    }
    // a single byte is enough
    made.call(&["bytes"])
        .input("82")
        .shell("exec \"$@\" >/dev/full")
        .run()
        .is(4)
        .says("cannot write");
}

#[test]
fn a_small_disk_behind_the_output_is_4() {
    let way = match ground::mounting() {
        Some(way) => way,
        None => return skipped("a small disk", "this machine lets nobody mount one"),
    };
    let made = Made::new("small disk").built();
    let disk = made.here.join("disk");
    fs::create_dir(&disk).expect("a folder");
    // the disk is gone with its name space, so what is on it is looked at before
    let look =
        "\"$@\"; s=$?; [ -z \"$(ls -A disk)\" ] || echo \"  left: $(ls -lA disk)\" >&2; exit $s";
    for long in long_calls(&made) {
        let call = made.call(long.words).words(&["-o", "disk/out"]).shell(look);
        call.with_disk(way, &disk, 8)
            .run()
            .is(4)
            .says("cannot write")
            .says("No space left")
            .says_not("left:");
        let look = "\"$@\" >disk/out; s=$?; [ ! -s disk/out ] || echo \"  left: $(wc -c disk/out)\" >&2; exit $s";
        let call = made.call(long.words).shell(look);
        call.with_disk(way, &disk, 8)
            .run()
            .is(4)
            .says("cannot write")
            .says("No space left")
            .says_not("left:");
    }
}

#[test]
fn a_reader_that_goes_away_is_told() {
    let made = Made::new("reader").built();
    for long in long_calls(&made) {
        for first in ["", "trap '' PIPE; "] {
            let lines = format!("{first}{{ sleep 0.2; \"$@\"; echo \"  status $?\" >&2; }} | true");
            made.call(long.words)
                .shell(&lines)
                .run()
                .ends(0)
                .says("went away")
                .says_line("  status 4");
        }
    }
    // more than a pipe holds, and a reader that takes the first of it
    let lines = "{ \"$@\"; echo \"  status $?\" >&2; } | head -c 1 >/dev/null";
    made.call(&["write", "long.frames"])
        .shell(lines)
        .run()
        .ends(0)
        .says("went away")
        .says("of 102400 bytes");
}

/// A call with these words on a terminal of its own.
fn on_a_terminal(made: &Made, words: &str) -> Ended {
    // script takes one line, so each word of the call is put between quotes
    let lines =
        format!("c=; for w; do c=\"$c '$w'\"; done; exec script -qec \"$c {words}\" /dev/null");
    made.call(&[]).shell(&lines).mixed().run()
}

#[test]
fn bytes_are_not_for_a_terminal() {
    if !ground::has_terminal() {
        return skipped("bytes on a terminal", "there is no command 'script'");
    }
    let made = Made::new("terminal");
    made.file("x.hex", "41 42 43 44 45");
    made.file("x.frames", "frame 1 3 1");
    let text = |ended: &Ended| String::from_utf8_lossy(&ended.out).into_owned();
    for words in ["bytes x.hex", "write x.frames"] {
        let ended = on_a_terminal(&made, words);
        ended.ends(2).hold(
            text(&ended).contains("terminal") && !text(&ended).contains("ABCDE"),
            "words, and no byte",
        );
    }
    assert_eq!(made.log(), "", "nothing is built");
    for words in [
        "bytes -o - x.hex",
        "bytes --force x.hex",
        "bytes x.hex --force",
    ] {
        let ended = on_a_terminal(&made, words);
        ended
            .ends(0)
            .hold(text(&ended).contains("ABCDE"), "the bytes");
    }
    let ended = on_a_terminal(&made, "bytes x.hex -o out");
    ended.ends(0);
    assert_eq!(made.read("out"), b"ABCDE");
    on_a_terminal(&made, "write -o - x.frames").ends(0);
    // a listing is text
    made.file("capture", [0; 5]);
    let ended = on_a_terminal(&made, "replay capture");
    ended
        .ends(0)
        .hold(text(&ended).contains("0 00 00 00 00 00"), "a listing");
}
