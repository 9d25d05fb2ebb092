//! Faults that the door had before, each by its name.
use crate::common::{fakes, ground, skipped, Made};
use std::fs;
use std::os::unix::net::UnixListener;
use std::time::Duration;

/// The listing went through a file in TMPDIR; where that was full the half that was there was handed on with status 0.
#[test]
fn half_a_listing_from_a_full_temporary_folder() {
    let made = Made::new("full TMPDIR").built();
    made.file("capture", vec![0; 60_000]);
    let cycles: String = (0..12_000)
        .map(|k| format!("{k} 00 00 00 00 00\n"))
        .collect();
    let listing = format!("cycle ack h0 h1 h2 h3\n{cycles}");
    // as another limit on what can be written makes it
    let call = made
        .call(&["replay", "capture"])
        .shell("ulimit -f 8; exec \"$@\"");
    call.run().is(0).silent().prints(&listing);
    // and where there is no such folder at all
    made.call(&["replay", "capture"])
        .env("TMPDIR", made.folder.join("nowhere"))
        .run()
        .is(0)
        .silent()
        .prints(&listing);
    match ground::mounting() {
        None => skipped(
            "a full temporary folder",
            "this machine lets nobody mount one",
        ),
        Some(way) => {
            let fill = "head -c 100000 /dev/zero >\"$TMPDIR/full\" 2>/dev/null; \"$@\"; s=$?; rm \"$TMPDIR/full\"; exit $s";
            let call =
                made.call(&["replay", "capture"])
                    .shell(fill)
                    .with_disk(way, &made.scratch, 8);
            call.run().is(0).silent().prints(&listing);
        }
    }
}

/// The capture went the same way: 40,960 of 102,400 bytes with status 0.
#[test]
fn write_hands_on_40960_of_102400_bytes() {
    let made = Made::new("half a capture").built();
    let text = "frame 1 4096 1\n".repeat(5);
    for lines in ["ulimit -f 80; exec \"$@\"", "TMPDIR=/nowhere exec \"$@\""] {
        made.call(&["write"])
            .input(&text)
            .shell(lines)
            .run()
            .is(0)
            .silent()
            .prints(vec![0; 102_400]);
    }
    // a program that stops there
    made.program(
        "write_frame",
        &fakes::after_reading("head -c 40960 /dev/zero"),
    );
    made.call(&["write"])
        .input(&text)
        .run()
        .is(4)
        .says("is not whole")
        .says("40960 of 102400");
}

/// Nothing was recorded, nothing is due: four times the same, and status 0.
#[test]
fn false_into_readback_is_no_0() {
    let made = Made::new("false").built();
    let ended = made
        .call(&["readback", "--texts", "-", "-", "-", "-"])
        .shell("false | \"$@\"")
        .run();
    ended
        .is(1)
        .prints("0 same\n1 same\n2 same\n3 same\n")
        .says("the capture is empty");
}

/// A write that fails sends nothing, and the replay behind it listed no cycle with status 0.
#[test]
fn write_of_no_file_into_replay_is_no_0() {
    let made = Made::new("no file").built();
    let ended = made
        .call(&["replay"])
        .shell("cat nofile 2>/dev/null | \"$@\"")
        .run();
    ended
        .is(1)
        .prints("cycle ack h0 h1 h2 h3\n")
        .says("the capture is empty");
}

/// The capture ends while the last byte of 2.50 is inside the fabric, where 2.5 is due: four times the same, and status 0.
#[test]
fn cut_while_the_0_of_2_50_is_on_its_way() {
    let made = Made::new("cut").built();
    made.file("text", "2.5\n");
    let capture = b"\0\x002\0\0\0\0.\0\0\0\x005\0\0";
    let words = ["readback", "--texts", "-", "text", "-", "-"];
    made.call(&words).input(capture).run().is(0);
    for (program, lines) in [("readback", fakes::COMPARES), ("replay", fakes::SHOWS)] {
        made.program(
            program,
            &format!("{lines}\necho 'on its way to head 1' >&2\n"),
        );
    }
    let ended = made.call(&words).input(capture).run();
    ended
        .is(1)
        .prints("0 same\n1 same\n2 same\n3 same\n")
        .says("on its way to head 1");
    made.call(&["replay"])
        .input(capture)
        .run()
        .is(1)
        .says("on its way to head 1");
}

/// A remark went on to the line feed, so that a cell behind a carriage return was a part of it.
#[test]
fn a_remark_eats_the_cell_behind_a_carriage_return() {
    let made = Made::new("eaten").built();
    let text = "frame 1 11 1\n# the dose\rcell 0 1 low 2.5\n";
    made.call(&["write"])
        .input(text)
        .run()
        .is(2)
        .says("standard input, line 2: a carriage return that ends no line");
    let hex = "82 00 00 00 00 # start\r02 00 00 00 00\n";
    made.call(&["bytes"])
        .input(hex)
        .run()
        .is(2)
        .says("standard input, line 1: a carriage return that ends no line");
}

/// A name that could not be opened left standard input in its place.
#[test]
fn a_socket_is_taken_for_standard_input() {
    let made = Made::new("socket").built();
    let _socket = UnixListener::bind(made.here.join("socket")).expect("a socket");
    for command in ["replay", "readback", "write", "bytes"] {
        let ended = made.call(&[command, "socket"]).input([0; 5]).run();
        ended
            .is(2)
            .says("cannot open 'socket': No such device or address");
    }
}

/// The times of files decided, so that the programs of another commit were run as they were.
#[test]
fn a_stale_target_is_run_as_it_is() {
    let made = Made::new("stale").built();
    made.program("replay", &fakes::after_reading("echo 'refused 4'"));
    // a copy of target/ is newer than every source
    std::thread::sleep(Duration::from_millis(20));
    for part in ["bin/replay", "stamp/replay"] {
        let path = made.repo.join("target").join(part);
        let bytes = fs::read(&path).expect("a part of target/");
        fs::write(&path, bytes).expect("a part of target/");
    }
    made.call(&["replay"])
        .input([0; 5])
        .run()
        .is(1)
        .prints("refused 4\n");
}

/// Two calls at once built at once, each into the other's files.
#[test]
fn two_builders_at_once() {
    let made = Made::new("two at once");
    fs::write(made.repo.join("slow"), "1.5").expect("a slow rt");
    let both: Vec<_> = (0..2)
        .map(|_| made.call(&["replay"]).input([0; 5]).among_others().start())
        .collect();
    for one in both {
        one.end()
            .is(0)
            .prints("cycle ack h0 h1 h2 h3\n0 00 00 00 00 00\n");
    }
    let log = made.log();
    let turns: Vec<&str> = log
        .lines()
        .filter(|l| matches!(*l, "begin" | "end"))
        .collect();
    assert_eq!(turns, ["begin", "end", "begin", "end"]);
}
