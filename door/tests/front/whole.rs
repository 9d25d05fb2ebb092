//! What a program says is handed on only if it is whole. The real programs never say less, so these are made up.
use crate::common::{fakes, Made};

const THREE: [u8; 15] = [0; 15];
const HEADING: &str = "cycle ack h0 h1 h2 h3\n";

fn listing(cycles: usize) -> String {
    let lines: String = (0..cycles)
        .map(|k| format!("{k} 0F 00 32 2E FF\n"))
        .collect();
    format!("{HEADING}{lines}")
}

/// Listings of three records that are no listing of three records: what is changed in the right one, and to what.
const NOT_WHOLE: &[(&str, &str)] = &[
    ("cycle ack", "cycle  ack"),
    ("cycle ack h0 h1 h2 h3\n", ""),
    ("cycle ack h0 h1 h2 h3\n", "cycle ack h0 h1\n"),
    (
        "cycle ack h0 h1 h2 h3\n",
        "cycle ack h0 h1 h2 h3\ncycle ack h0 h1 h2 h3\n",
    ),
    ("0 0F 00 32 2E FF\n", ""),
    ("1 0F 00 32 2E FF\n", ""),
    ("2 0F 00 32 2E FF\n", ""),
    ("2 0F 00 32 2E FF\n", "2 0F 00 32 2E FF"),
    ("2 0F 00 32 2E FF\n", "2 0F 00 32 2E FF\n3 0F 00 32 2E FF\n"),
    ("2 0F 00 32 2E FF\n", "2 0F 00 32 2E FF\n\n"),
    ("2 0F 00 32 2E FF\n", "2 0F 00 32 2E FF\nrefused 1\n"),
    ("2 0F 00 32 2E FF\n", "2 0F 00 32 2E FF\n2 0F 00 32 2E FF\n"),
    ("2 0F 00 32 2E FF\n", "2 0F 00 32 2E FF\nx"),
    ("1 0F", "2 0F"),
    ("1 0F", "01 0F"),
    ("1 0F", "1 1F"),
    ("1 0F", "1 0f"),
    ("1 0F", "1  0F"),
    ("1 0F", " 1 0F"),
    ("1 0F 00", "1 0F 0"),
    ("1 0F 00", "1 0F 000"),
    ("1 0F 00", "1 0F 00 00"),
    ("1 0F 00 ", "1 0F "),
    ("FF\n1", "FF \n1"),
    ("FF\n1", "FF\r\n1"),
    ("FF\n1", "FF\n\n1"),
    ("FF\n1", "FF\0\n1"),
    ("FF\n1", "FF 1"),
    ("2E FF\n1", "2e FF\n1"),
];

#[test]
fn half_a_listing_is_never_handed_on() {
    let made = Made::new("listings");
    let good = listing(3);
    made.program("replay", &fakes::printing(good.as_bytes()));
    made.call(&["replay"])
        .input(THREE)
        .run()
        .is(0)
        .silent()
        .prints(&good);
    for (old, new) in NOT_WHOLE {
        let bad = good.replacen(old, new, 1);
        assert_ne!(bad, good);
        made.program("replay", &fakes::printing(bad.as_bytes()));
        made.call(&["replay"])
            .input(THREE)
            .run()
            .is(4)
            .says("replay")
            .says("is not whole");
    }
    for other in ["", "\n", "x", "\u{ff}\n"] {
        made.program("replay", &fakes::printing(other.as_bytes()));
        made.call(&["replay"])
            .input(THREE)
            .run()
            .is(4)
            .says("is not whole");
    }
}

/// A listing of three records belongs to fifteen bytes and to no other number.
#[test]
fn a_listing_belongs_to_the_records_that_were_read() {
    let made = Made::with("records", "replay", &fakes::printing(listing(3).as_bytes()));
    for size in [0, 1, 5, 10, 14, 16, 19, 20, 25] {
        made.call(&["replay"])
            .input(vec![0; size])
            .run()
            .is(4)
            .says("is not whole");
        made.file("x.hex", "00 ".repeat(size));
        made.call(&["replay", "x.hex"])
            .run()
            .is(4)
            .says("is not whole");
    }
    made.program("replay", &fakes::printing(HEADING.as_bytes()));
    made.call(&["replay"])
        .input([0; 3])
        .run()
        .is(4)
        .says("is not whole");
}

/// Lines that are a refusal of three records, and lines that look like one.
#[test]
fn a_refusal_is_one_line_and_names_a_record_that_was_read() {
    let made = Made::new("refusals").built();
    for (program, words) in [
        ("replay", &["replay"][..]),
        ("readback", &["readback", "--texts", "-", "-", "-", "-"]),
    ] {
        for good in [
            "refused 1\n",
            "refused 4\n",
            "refused 3 at 0\n",
            "refused 3 at 2\n",
        ] {
            made.program(program, &fakes::printing(good.as_bytes()));
            made.call(words)
                .input(THREE)
                .run()
                .is(1)
                .prints(good)
                .says(good);
        }
        for bad in BAD_REFUSALS {
            made.program(program, &fakes::printing(bad.as_bytes()));
            made.call(words)
                .input(THREE)
                .run()
                .is(4)
                .says(program)
                .says("is not whole");
        }
    }
}

const BAD_REFUSALS: &[&str] = &[
    "refused\n",
    "refused \n",
    "refused 0\n",
    "refused x\n",
    "refused 1",
    "refused 01\n",
    "refused 1 \n",
    "refused  1\n",
    "refused 1\n\n",
    "refused 1\r\n",
    "refused 1\n0 same\n1 same\n2 same\n3 same\n",
    "refused 1\nrefused 1\n",
    "refused 1 at 2\n",
    "refused 3\n",
    "refused 3 at\n",
    "refused 3 at 3\n",
    "refused 3 at 02\n",
    "refused 3 at 2 \n",
    "refused 3 at 2 at 2\n",
    "Refused 1\n",
    "engines differ at 7\n",
];

/// Answers that are a line for each head: the status, and the lines.
const FOUR_LINES: &[(i32, &str)] = &[
    (0, "0 same\n1 same\n2 same\n3 same\n"),
    (4, "0 same\n1 same\n2 same\n"),
    (4, "1 same\n2 same\n3 same\n"),
    (4, "0 same\n1 same\n2 same\n3 same\n4 same\n"),
    (4, "0 same\n1 same\n2 same\n3 same\n3 same\n"),
    (4, "0 same\n1 same\n2 same\n3 same\n\n"),
    (4, "\n0 same\n1 same\n2 same\n3 same\n"),
    (4, "0 same\n1 same\n\n2 same\n3 same\n"),
    (4, "0 same\n1 same\n2 same\n3 same"),
    (4, "0 same\n1 same\n2 same\n4 same\n"),
    (4, "0 same\n2 same\n1 same\n3 same\n"),
    (4, "0 same\n0 same\n0 same\n0 same\n"),
    (4, "1 same\n2 same\n3 same\n4 same\n"),
    (4, "same\nsame\nsame\nsame\n"),
    (4, "0 same\n1 same\n2 same\n3 Same\n"),
    (4, "0 same\n1 same\n2 same\n3 sam\n"),
    (4, "0 same\n1 same \n2 same\n3 same\n"),
    (4, " 0 same\n1 same\n2 same\n3 same\n"),
    (4, "0  same\n1 same\n2 same\n3 same\n"),
    (4, "0 same\r\n1 same\r\n2 same\r\n3 same\r\n"),
    (4, "0 same\n1 same\n2 same\n3 same\0\n"),
    (4, "0 same\n1 same\n2 same\n3 same\u{ff}\n"),
    (4, "0 same 1 same 2 same 3 same\n"),
    (4, "0 same/1 same/2 same/3 same/"),
    (4, "0 same\n1 same\n2 same\n3 same\nrefused 25\n"),
    (4, "0 same\n1 1\n2 same\n3 same\n"),
    (4, "0 same\n1 322E35\n2 same\n3 same\n"),
    (4, "0 same\n1 1 \n2 same\n3 same\n"),
    (4, "0 same\n1 1 322e35\n2 same\n3 same\n"),
    (4, "0 same\n1 1 322E3\n2 same\n3 same\n"),
    (4, "0 same\n1 1 32 2E 35\n2 same\n3 same\n"),
    (4, "0 same\n1 1 2.5\n2 same\n3 same\n"),
    (4, "0 same\n1 1 322E35 \n2 same\n3 same\n"),
    (4, "0 same\n1 1  322E35\n2 same\n3 same\n"),
    (4, "0 same\n1 01 322E35\n2 same\n3 same\n"),
    (4, "0 same\n1 -1 322E35\n2 same\n3 same\n"),
    (4, "0 same\n1 A 322E35\n2 same\n3 same\n"),
    (4, "0 same\n1 same 1 322E35\n2 same\n3 same\n"),
    (4, "cycle ack h0 h1 h2 h3\n"),
    (4, ""),
    (4, "\n"),
];

#[test]
fn a_read_back_is_four_lines_to_the_letter() {
    let made = Made::new("four lines").built();
    for (status, lines) in FOUR_LINES {
        made.program("readback", &fakes::printing(lines.as_bytes()));
        let ended = made
            .call(&["readback", "--texts", "-", "-", "-", "-"])
            .input(THREE)
            .run();
        ended.is(*status);
        match status {
            4 => ended.says("readback").says("is not whole"),
            _ => ended.prints(lines),
        };
    }
}

const TWO_FRAMES: &str = "frame 1 11 1\n\nframe 1 9 1\n";

/// What the program does in place of writing a hundred bytes, and what is said.
const NO_CAPTURE: &[(&str, &str)] = &[
    ("head -c 99 /dev/zero", "is not whole"),
    ("head -c 101 /dev/zero", "is not whole"),
    ("head -c 55 /dev/zero", "is not whole"),
    ("", "is not whole"),
    (
        "head -c 100 /dev/zero; echo 'cannot write' >&2",
        "cannot write",
    ),
    (
        "head -c 100 /dev/zero; echo 'all is well' >&2",
        "said something that it never says",
    ),
    (
        "head -c 100 /dev/zero; echo 'on its way to head 1' >&2",
        "said something that it never says",
    ),
    (
        "head -c 55 /dev/zero; echo 'refused 20' >&2",
        "said something that it never says",
    ),
    ("head -c 55 /dev/zero; echo 'refused 20 at 2' >&2", ""),
    (
        "head -c 55 /dev/zero; printf 'refused 20 at 1' >&2",
        "said something that it never says",
    ),
    ("head -c 50 /dev/zero; exit 1", "ended with status 1"),
    ("head -c 100 /dev/zero; exit 7", "ended with status 7"),
    ("head -c 50 /dev/zero; kill -9 $$", "was ended by signal 9"),
    ("head -c 100 /dev/zero; kill -9 $$", "was ended by signal 9"),
];

#[test]
fn half_a_capture_is_never_handed_on() {
    let made = Made::new("captures").built();
    made.file("two.frames", TWO_FRAMES);
    for (lines, said) in NO_CAPTURE {
        made.program("write_frame", &fakes::after_reading(lines));
        made.call(&["write", "two.frames"])
            .run()
            .is(4)
            .says("write_frame")
            .says(said);
    }
    made.program(
        "write_frame",
        &fakes::after_reading("head -c 100 /dev/zero"),
    );
    made.call(&["write", "two.frames"])
        .run()
        .is(0)
        .silent()
        .prints([0; 100]);
}

/// A frame that is refused: what is written of the frames before it goes no further.
#[test]
fn a_refused_frame_writes_nothing() {
    let made = Made::new("refused frames").built();
    made.file("two.frames", TWO_FRAMES);
    for (lines, frame, line) in [
        ("echo 'refused 20 at 0' >&2", 0, 1),
        ("head -c 55 /dev/zero; echo 'refused 20 at 1' >&2", 1, 3),
        ("head -c 55 /dev/zero; echo 'refused 22 at 1' >&2", 1, 3),
        ("head -c 55 /dev/zero; echo 'refused 23 at 1' >&2", 1, 3),
    ] {
        made.program("write_frame", &fakes::after_reading(lines));
        let ended = made.call(&["write", "two.frames"]).run();
        ended.is(1).prints("");
        ended.says(&format!("frame {frame}, counted from 0, begins at line {line} of two.frames; nothing is written"));
    }
    for lines in [
        // more than the frames before it: so it was taken after all, or something else is wrong
        "head -c 60 /dev/zero; echo 'refused 20 at 1' >&2",
        "head -c 100 /dev/zero; echo 'refused 20 at 1' >&2",
        "head -c 5 /dev/zero; echo 'refused 20 at 0' >&2",
        // every order is handed over whole
        "head -c 55 /dev/zero; echo 'cut short at 1' >&2",
    ] {
        made.program("write_frame", &fakes::after_reading(lines));
        made.call(&["write", "two.frames"])
            .run()
            .is(4)
            .says("write_frame");
    }
}
