//! The real launcher with the real programs. It needs the Rattle toolchain, and the first call builds what is not built.
use crate::common::{real_root, Call, Ended, Made};
use std::fs;
use std::os::unix::fs::symlink;
use std::path::{Path, PathBuf};

const SAME: &str = "0 same\n1 same\n2 same\n3 same\n";
const HEADING: &str = "cycle ack h0 h1 h2 h3\n";

fn real(made: &Made, words: &[&str]) -> Call {
    Call::at(&real_root(), &made.here, words).built_beside()
}

fn example(name: &str) -> PathBuf {
    real_root().join("examples").join(name)
}

fn path(name: &str) -> String {
    example(name).to_string_lossy().into_owned()
}

fn bytes_of(name: &str) -> Vec<u8> {
    fs::read(example(name)).unwrap_or_else(|e| panic!("{name}: {e}"))
}

/// The status that belongs to a listing, a capture's or none's.
fn status_of(listing: &[u8]) -> i32 {
    i32::from(listing.starts_with(b"refused ") || listing == HEADING.as_bytes())
}

#[track_caller]
fn is_listed(ended: &Ended, listing: &[u8]) {
    ended.is(status_of(listing)).prints(listing);
    ended.hold(
        ended.status != 0 || ended.err.is_empty(),
        "nothing on standard error",
    );
}

#[test]
fn the_examples_are_replayed() {
    let made = Made::new("examples");
    let names = fs::read_dir(real_root().join("examples"))
        .expect("examples/")
        .flatten()
        .map(|e| e.file_name().to_string_lossy().into_owned());
    // texts stand before the capture of a read-back
    let names: Vec<String> = names
        .filter(|n| n.ends_with(".hex") && !n.ends_with(".readback.hex"))
        .collect();
    assert!(names.len() >= 7, "{names:?}");
    for name in names {
        let listing = bytes_of(&name.replace(".hex", ".listing"));
        is_listed(&real(&made, &["replay", &path(&name)]).run(), &listing);
        let bytes = real(&made, &["bytes", &path(&name)]).run();
        bytes.is(0).silent();
        is_listed(&real(&made, &["replay"]).input(&bytes.out).run(), &listing);
    }
}

#[test]
fn an_empty_capture_is_1() {
    let made = Made::new("real empty");
    real(&made, &["replay"])
        .run()
        .is(1)
        .prints(HEADING)
        .says("the capture is empty");
    let ended = real(&made, &["readback", "--texts", "-", "-", "-", "-"])
        .shell("false | \"$@\"")
        .run();
    ended.is(1).prints(SAME).says("the capture is empty");
    let texts = [&*path("dose-head1.txt"), &*path("dose-head3.txt")];
    let ended = real(
        &made,
        &["readback", "--texts", "-", texts[0], "-", texts[1]],
    )
    .run();
    ended
        .is(1)
        .prints("0 same\n1 0 322E35\n2 same\n3 0 313034\n")
        .says("the capture is empty");
}

#[test]
fn frames_are_written_and_replayed() {
    let made = Made::new("real frames");
    let dose = real(&made, &["bytes", &path("dose.hex")]).run();
    real(&made, &["write", &path("dose.frames")])
        .run()
        .is(0)
        .silent()
        .prints(&dose.out);
    real(&made, &["write"])
        .input(bytes_of("dose.frames"))
        .run()
        .is(0)
        .silent()
        .prints(&dose.out);
    for name in ["leaflet", "wrong-head"] {
        real(
            &made,
            &["write", &path(&format!("{name}.frames")), "-o", "capture"],
        )
        .run()
        .is(0)
        .silent()
        .prints("");
        real(&made, &["replay", "capture"])
            .run()
            .is(0)
            .silent()
            .prints(bytes_of(&format!("{name}.replayed")));
    }
}

/// Two doors in one pipe, as README shows them.
#[test]
fn a_pipe_of_two_doors() {
    let made = Made::new("real pipe");
    if crate::common::door_under_test().is_some() {
        return crate::common::skipped("a pipe of two doors", "it calls the launcher");
    }
    let lines = format!(
        "\"$@\" | '{}' readback --texts - '{}' - '{}'",
        real_root().join("mirvashek").display(),
        path("dose-head1.txt"),
        path("dose-head3.txt")
    );
    let ended = real(&made, &["write", &path("wrong-head.frames")])
        .shell(&lines)
        .run();
    ended.is(1).prints(bytes_of("wrong-head.compared"));
    ended
        .says("head 1: differs at place 1")
        .says_line("  due   \"2.5\"")
        .says_line("  shows \"25\"");
    let lines = format!(
        "\"$@\" | '{}' replay",
        real_root().join("mirvashek").display()
    );
    let ended = real(&made, &["write", "nofile"]).shell(&lines).run();
    ended
        .is(1)
        .prints(HEADING)
        .says("the capture is empty")
        .says("cannot open 'nofile': No such file or directory");
}

/// What is said, the line at which the frame begins, and the text.
#[test]
fn refused_frames_are_told() {
    let made = Made::new("real refused frames");
    let long = format!(
        "frame 1 99 1\ncell 0 1 low 5\ncell 1 1 low {}\n",
        "7".repeat(65)
    );
    for (refusal, frame, line, text) in [
        (20, 0, 1, "frame 0 0 none\n"),
        (
            20,
            2,
            3,
            "frame 1 3 1\nframe 1 4096 1\nframe 1 4097 1\nframe 0 9 1\n",
        ),
        (22, 0, 1, &long),
        (22, 0, 1, "frame 1 99 1\ncell 0 1 low 5\\x00\n"),
        (
            23,
            1,
            4,
            "frame 1 7 1\ncell 3 1 low 2.5\n\nframe 1 6 1\ncell 3 1 low 2.5\n",
        ),
    ] {
        made.file("bad.frames", text);
        let ended = real(&made, &["write", "bad.frames", "-o", "out"]).run();
        ended
            .is(1)
            .prints("")
            .says(&format!("refused {refusal} at {frame}"));
        ended.says(&format!("frame {frame}, counted from 0, begins at line {line} of bad.frames; nothing is written"));
        ended.hold(!made.here.join("out").exists(), "no file");
    }
}

#[test]
fn doses_are_read_back() {
    let made = Made::new("real doses");
    let whole = real(&made, &["bytes", &path("dose.readback.hex")]).run();
    real(&made, &["readback", &path("dose.readback.hex")])
        .run()
        .is(0)
        .prints(SAME);
    // cut inside a text, and inside a record
    for cut in [3, 13] {
        let lines = format!("{{ dd bs=1 count={cut} 2>/dev/null; sleep 0.5; cat; }} | \"$@\"");
        real(&made, &["readback"])
            .input(&whole.out)
            .shell(&lines)
            .run()
            .is(0)
            .prints(SAME);
    }
    let words = [
        "readback",
        "--texts",
        "-",
        &*path("dose-head1.txt"),
        "-",
        &*path("dose-head3.txt"),
    ];
    let ended = real(&made, &words).word(example("dose.hex")).run();
    ended.is(0).prints(SAME);
    let said: Vec<&str> = ended.err.lines().collect();
    let wanted = [
        "mirvashek: head 0: the same: nothing is due and nothing shown",
        "mirvashek: head 1: the same: \"2.5\"",
        "mirvashek: head 2: the same: nothing is due and nothing shown",
        "mirvashek: head 3: the same: \"104\"",
    ];
    ended.hold(said == wanted, &format!("{wanted:#?}"));
    for name in ["refused", "cut"] {
        let ended = real(&made, &words)
            .word(example(&format!("{name}.hex")))
            .run();
        ended.is(1).prints(bytes_of(&format!("{name}.listing")));
    }
}

/// Texts due at head 1, where 2.5 is shown, and what is said of that head.
const DUE: [(&[u8], &str); 8] = [
    (b"2.5", "same"),
    (b"2.5\n\n", "3 0A"),
    (b"2\05", "1 00"),
    (b"", "0 322E35"),
    (b"25", "1 3235"),
    (b"2,5", "1 322C35"),
    (b"2.50\n", "3 322E3530"),
    (b"mg 2.5", "0 6D"),
];

#[test]
fn texts_due_are_compared() {
    let made = Made::new("real texts");
    let dose = real(&made, &["bytes", &path("dose.hex")]).run();
    made.file("dose", &dose.out);
    for (text, said) in DUE {
        made.file("text", text);
        let ended = real(
            &made,
            &[
                "readback",
                "--texts",
                "-",
                "text",
                "-",
                &path("dose-head3.txt"),
                "dose",
            ],
        )
        .run();
        ended
            .is(i32::from(said != "same"))
            .prints(format!("0 same\n1 {said}\n2 same\n3 same\n"));
    }
    made.file("text", vec![b'7'; 255]);
    let ended = real(
        &made,
        &[
            "readback",
            "--texts",
            "-",
            "text",
            "-",
            &path("dose-head3.txt"),
            "dose",
        ],
    )
    .run();
    ended.is(1).prints(format!(
        "0 same\n1 0 {}\n2 same\n3 same\n",
        "37".repeat(255)
    ));
}

#[test]
fn an_input_that_ends_inside_the_texts_is_refused() {
    let made = Made::new("real texts cut");
    let whole = real(&made, &["bytes", &path("dose.readback.hex")]).run();
    for size in [0, 1, 4, 8] {
        let ended = real(&made, &["readback"]).input(&whole.out[..size]).run();
        ended.is(1).prints("refused 25\n").says("refused 25");
    }
}

#[test]
fn the_most_records() {
    let made = Made::new("real limits");
    made.file("most", vec![0; 5 * 12_288]);
    made.file("many", vec![0; 5 * 12_289]);
    made.file("four", "1234");
    real(&made, &["replay", "many"])
        .run()
        .is(1)
        .prints("refused 4\n")
        .says("refused 4");
    real(&made, &["readback", "--texts", "-", "-", "-", "-", "many"])
        .run()
        .is(1)
        .prints("refused 4\n");
    real(&made, &["readback", "--texts", "-", "-", "-", "-", "most"])
        .run()
        .is(0)
        .prints(SAME);
    real(&made, &["replay", "four"])
        .run()
        .is(1)
        .prints("refused 1\n")
        .says("refused 1");
    let ended = real(&made, &["replay", "most"]).run();
    ended.is(0).silent().hold(
        ended.out.iter().filter(|&&b| b == b'\n').count() == 12_289,
        "12,289 lines",
    );
    // nobody ends such an input: it is read to its end, and no more than the program keeps is held
    let lines = "head -c 30000000 /dev/zero | \"$@\"";
    real(&made, &["replay"])
        .shell(lines)
        .run()
        .is(1)
        .prints("refused 4\n");
    real(&made, &["replay", "most"])
        .words(&["-o", "/dev/full"])
        .run()
        .is(4)
        .says("cannot write");
}

/// The capture of 2.50, cut behind each of its records. A byte is shown four cycles after it was sent.
#[test]
fn a_capture_that_is_cut_while_a_byte_is_on_its_way() {
    let made = Made::new("real cut");
    made.file("dose.frames", "frame 1 14 1\ncell 1 1 high 2.50\n");
    made.file("text", "2.5\n");
    let whole = real(&made, &["write", "dose.frames"]).run();
    whole.is(0).hold(whole.out.len() == 70, "14 records");
    for records in [3, 4, 7, 10, 11] {
        let cut = &whole.out[..5 * records];
        let way = (4..=10).contains(&records);
        let ended = real(&made, &["replay"]).input(cut).run();
        ended.is(i32::from(way));
        match way {
            true => ended.says("on its way to head 1"),
            false => ended.silent(),
        };
        assert_eq!(
            ended.out.iter().filter(|&&b| b == b'\n').count(),
            records + 1
        );
    }
    // 2.5 has been shown, and the 0 has not: four times the same, and nothing to sign
    let ended = real(&made, &["readback", "--texts", "-", "text", "-", "-"])
        .input(&whole.out[..50])
        .run();
    ended
        .is(1)
        .prints(SAME)
        .says("on its way to head 1")
        .says_not("on its way to head 0");
    let ended = real(&made, &["readback", "--texts", "-", "text", "-", "-"])
        .input(&whole.out)
        .run();
    ended
        .is(1)
        .prints("0 same\n1 3 322E3530\n2 same\n3 same\n")
        .says_not("on its way");
}

#[test]
fn the_probe_answers() {
    let made = Made::new("real probe");
    real(&made, &["probe"]).run().is(0).silent().prints("");
    real(&made, &["probe"])
        .input("Z\0\0\0\0")
        .run()
        .is(0)
        .silent()
        .prints("unknown\n");
    real(&made, &["probe"])
        .input("Z\0\0\0\0Z\0\0")
        .run()
        .is(0)
        .silent()
        .prints("unknown\ncut short\n");
}

/// From another folder, by any name, by links and by the PATH.
#[test]
fn from_anywhere() {
    let made = Made::new("real places");
    let dose = real(&made, &["bytes", &path("dose.hex")]).run();
    let listing = bytes_of("dose.listing");
    for name in ["two words", "-dose"] {
        made.file(name, &dose.out);
        real(&made, &["replay", name])
            .run()
            .is(0)
            .silent()
            .prints(&listing);
    }
    fs::copy(example("dose.hex"), made.here.join("-h x.hex")).expect("a copy");
    real(&made, &["replay", "-h x.hex"])
        .run()
        .is(0)
        .silent()
        .prints(&listing);
    let lines = "{ dd bs=1 count=7 2>/dev/null; sleep 0.5; cat; } | \"$@\"";
    real(&made, &["replay", "--"])
        .input(&dose.out)
        .shell(lines)
        .run()
        .is(0)
        .silent()
        .prints(&listing);
    symlink(real_root().join("mirvashek"), made.here.join("a link")).expect("a link");
    let call = real(&made, &["replay", "two words"]).by(Path::new("./a link"));
    call.run().is(0).silent().prints(&listing);
}
