//! The exit status is 0 only where something may be signed as far as a machine can tell; and the words say why it may not be.
use crate::common::{fakes, Made};

const HEADING: &str = "cycle ack h0 h1 h2 h3\n";

#[test]
fn a_listing_is_0_and_says_nothing() {
    let made = Made::new("status 0").built();
    let ended = made.call(&["replay"]).input([0; 10]).run();
    ended
        .is(0)
        .silent()
        .prints(format!("{HEADING}0 00 00 00 00 00\n1 00 00 00 00 00\n"));
}

#[test]
fn an_empty_capture_is_1() {
    let made = Made::new("empty").built();
    made.file("empty", "");
    made.file("empty.hex", "# nothing\n");
    for words in [
        &["replay"][..],
        &["replay", "empty"],
        &["replay", "empty.hex"],
    ] {
        made.call(words)
            .run()
            .is(1)
            .prints(HEADING)
            .says("the capture is empty");
    }
    for capture in ["-", "empty", "empty.hex"] {
        let ended = made
            .call(&["readback", "--texts", "-", "-", "-", "-", capture])
            .run();
        ended
            .is(1)
            .prints("0 same\n1 same\n2 same\n3 same\n")
            .says("the capture is empty");
    }
    made.call(&["readback"])
        .input([0; 4])
        .run()
        .is(1)
        .says("the capture is empty");
}

/// Refusals of five records, and words that belong to each number.
#[test]
fn a_refusal_is_1_and_says_what_its_number_means() {
    let made = Made::new("refused").built();
    for (line, words) in [
        ("refused 1", "refused 1:"),
        (
            "refused 3 at 4",
            "refused 3 at 4: record 4 has a bit set that is always zero",
        ),
        ("refused 4", "refused 4:"),
    ] {
        made.program("replay", &fakes::after_reading(&format!("echo '{line}'")));
        made.call(&["replay"])
            .input([0; 25])
            .run()
            .is(1)
            .prints(format!("{line}\n"))
            .says(words);
        made.program("readback", &fakes::after_reading(&format!("echo '{line}'")));
        let ended = made
            .call(&["readback", "--texts", "-", "-", "-", "-"])
            .input([0; 25])
            .run();
        ended.is(1).prints(format!("{line}\n")).says(words);
    }
    made.program("readback", &fakes::after_reading("echo 'refused 25'"));
    made.call(&["readback"])
        .input([9; 5])
        .run()
        .is(1)
        .prints("refused 25\n")
        .says("refused 25:")
        .says("text");
}

#[test]
fn engines_that_differ_are_3() {
    let made = Made::new("engines").built();
    let says = "echo 'engines differ at 7' >&2";
    let prints = [("replay", fakes::SHOWS), ("readback", fakes::COMPARES)];
    for ((program, answers), words) in prints.into_iter().zip([
        &["replay"][..],
        &["readback", "--texts", "-", "-", "-", "-"],
    ]) {
        made.program(program, &fakes::after_reading(says));
        made.call(words)
            .input([0; 5])
            .run()
            .is(3)
            .says("engines differ at 7");
        // the real program prints nothing then; one that does is no less at fault
        made.program(program, &format!("{answers}\n{says}"));
        let ended = made.call(words).input([0; 5]).run();
        ended
            .hold(matches!(ended.status, 3 | 4), "3 or 4")
            .prints("")
            .says("engines differ at 7");
        made.program(program, answers);
    }
}

const WAYS: [(&[u32], &[u32]); 3] = [(&[1], &[0, 2, 3]), (&[0, 3], &[1, 2]), (&[0, 1, 2, 3], &[])];

fn on_its_way(heads: &[u32]) -> String {
    heads
        .iter()
        .map(|h| format!("echo 'on its way to head {h}' >&2\n"))
        .collect()
}

#[test]
fn what_is_on_its_way_is_1_for_a_listing() {
    let made = Made::new("on its way, listed").built();
    for (heads, others) in WAYS {
        made.program("replay", &format!("{}{}", fakes::SHOWS, on_its_way(heads)));
        let ended = made.call(&["replay"]).input([0; 5]).run();
        ended.is(1).prints(format!("{HEADING}0 00 00 00 00 00\n"));
        for h in heads {
            ended.says(&format!("on its way to head {h}"));
        }
        for h in others {
            ended.says_not(&format!("on its way to head {h}"));
        }
    }
}

#[test]
fn what_is_on_its_way_is_1_for_a_read_back() {
    let made = Made::new("on its way, read back").built();
    for (heads, others) in WAYS {
        made.program("replay", &format!("{}{}", fakes::SHOWS, on_its_way(heads)));
        made.program(
            "readback",
            &format!("{}{}", fakes::COMPARES, on_its_way(heads)),
        );
        let ended = made
            .call(&["readback", "--texts", "-", "-", "-", "-"])
            .input([0; 5])
            .run();
        ended.is(1).prints("0 same\n1 same\n2 same\n3 same\n");
        for h in heads {
            ended.says(&format!("on its way to head {h}"));
        }
        for h in others {
            ended.says_not(&format!("on its way to head {h}"));
        }
    }
}

/// The two programs must say the same of a capture, and the read-back alone is enough for a 1.
#[test]
fn what_the_read_back_alone_says_is_on_its_way_is_no_0() {
    let made = Made::new("on its way, by one").built();
    made.program(
        "readback",
        &format!("{}{}", fakes::COMPARES, on_its_way(&[2])),
    );
    let ended = made
        .call(&["readback", "--texts", "-", "-", "-", "-"])
        .input([0; 5])
        .run();
    ended.hold(ended.status == 1 || ended.status == 4, "1 or 4");
}

/// Words of refused frames: the number, what it means, where the frame is.
#[test]
fn a_refused_frame_is_1_and_says_what_its_number_means() {
    let made = Made::new("refused frame").built();
    made.file("two.frames", "# one\nframe 1 11 1\n\nframe 1 9 1\n");
    for number in [20, 22, 23] {
        made.program(
            "write_frame",
            &fakes::after_reading(&format!(
                "head -c 55 /dev/zero; echo 'refused {number} at 1' >&2"
            )),
        );
        let ended = made.call(&["write", "two.frames"]).run();
        ended
            .is(1)
            .prints("")
            .says(&format!("refused {number} at 1"));
        ended.says("frame 1, counted from 0, begins at line 4 of two.frames; nothing is written");
    }
}

/// Inputs that are refused and look like something else.
#[test]
fn a_refusal_hints_at_what_the_input_looks_like() {
    let made = Made::new("hints").built();
    let frames = b"# a remark\nframe 1 11 1\ncell 0 1 low 299\n";
    let packed = b"\0\x032.5\0\x03104\x82\0\0\0\0\x02\0\0\0\0";
    let noise = [0x91, 3, 200, 7, 0, 0x91, 1, 9];
    for (input, hint) in [
        (
            &b"82 00 00 00 00\n02 00 00 00 00\n"[..],
            "looks like hex text",
        ),
        (frames, "looks like frames typed as text"),
        (packed, "looks like the input of a read-back"),
        (&noise, ""),
    ] {
        made.program("replay", &fakes::after_reading("echo 'refused 1'"));
        let ended = made.call(&["replay"]).input(input).run();
        ended.is(1).prints("refused 1\n");
        match hint {
            "" => ended.says_not("looks like"),
            _ => ended.says(hint),
        };
    }
    // a listing is not signed while there is a doubt: no words, or no 0
    made.program("replay", fakes::SHOWS);
    let ended = made.call(&["replay"]).input(packed).run();
    ended.hold(
        ended.status == 1 || ended.err.is_empty(),
        "1, or nothing on standard error",
    );
}
