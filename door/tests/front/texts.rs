//! Hex text, frames typed as text, and the texts that are due: what they mean, and what is said where they are wrong.
use crate::common::{fakes, shown, Made};
use std::fs;

#[test]
fn hex_text_becomes_bytes() {
    let made = Made::new("hex");
    let cases: [(&[u8], &[u8]); 6] = [
        (
            b"# five bytes\r\n82 02\t0A # two, and\n\r\n00fF\r\n",
            &[0x82, 2, 0x0A, 0, 0xFF],
        ),
        (b"", b""),
        (b"\n", b""),
        (b"# nothing", b""),
        (b"8202#82\n 03", &[0x82, 2, 3]),
        (b"00 # \x00\xFF\n01", &[0, 1]),
    ];
    for (text, bytes) in cases {
        made.file("x.hex", text);
        made.call(&["bytes", "x.hex"])
            .run()
            .is(0)
            .silent()
            .prints(bytes);
        made.file("x", text);
        made.call(&["bytes", "x"])
            .run()
            .is(0)
            .silent()
            .prints(bytes);
        for words in [&["bytes"][..], &["bytes", "-"], &["bytes", "--"]] {
            made.call(words)
                .input(text)
                .run()
                .is(0)
                .silent()
                .prints(bytes);
        }
    }
    assert_eq!(made.log(), "", "no program is asked, and none is built");
}

#[test]
fn wrong_hex_text_is_told_with_its_line() {
    let made = Made::new("wrong hex");
    for bad in [
        "82 0", "82 0G", "8 2", "0x82", "82,02", "82 002", "82\u{b5}", "82\0", "\0",
    ] {
        made.file("bad.hex", format!("82 02\n\n{bad} # bad\n"));
        for command in ["bytes", "replay", "readback"] {
            made.call(&[command, "bad.hex"])
                .run()
                .is(2)
                .says("bad.hex, line 3:")
                .says("pairs of hex digits");
        }
        made.call(&["bytes"])
            .input(format!("{bad}\n"))
            .run()
            .is(2)
            .says("standard input, line 1:");
        for head in 0..4 {
            let mut words = vec!["readback", "--texts", "-", "-", "-", "-"];
            words[2 + head] = "bad.hex";
            made.call(&words).run().is(2).says("bad.hex, line 3:");
        }
    }
}

/// The text, and the line that is told.
const RETURNS_IN_HEX: [(&str, u32); 7] = [
    ("82 02\r03\n", 1),
    ("82\n\n# one\r05\n", 3),
    ("82 # one\r02\n", 1),
    ("82\r", 1),
    ("82\r\r\n", 1),
    ("82\r 02\n", 1),
    ("82 02\r\n# \r", 2),
];

#[test]
fn a_carriage_return_that_ends_no_line_is_an_error_in_hex_text() {
    let made = Made::new("returns in hex");
    for (text, line) in RETURNS_IN_HEX {
        made.file("bad.hex", text);
        for command in ["bytes", "replay", "readback"] {
            let ended = made.call(&[command, "bad.hex"]).run();
            ended
                .is(2)
                .says(&format!("bad.hex, line {line}:"))
                .says("a carriage return that ends no line");
        }
        let ended = made
            .call(&["readback", "--texts", "-", "bad.hex", "-", "-"])
            .run();
        ended.is(2).says(&format!("bad.hex, line {line}:"));
    }
}

/// Text, and the orders that are made of it.
const GOOD_FRAMES: &[(&[u8], &[u8])] = &[
    (b"frame 255 65535 all\n", b"\xFF\xFF\xFF\x0F\0\0\0\0"),
    (b"frame 1 11 1", b"\x01\0\x0B\x02\0\0\0\0"),
    (b"frame 0 1 none", b"\0\0\x01\0\0\0\0\0"),
    (b"frame 007 0300 3,0\n", b"\x07\x01\x2C\x09\0\0\0\0"),
    (
        b" # one\n\n \t\n  frame\t1  11   0,1,3\t \n#\n\t# two\n frame 2 12 2\n",
        b"\x01\0\x0B\x0B\0\0\0\0\x02\0\x0C\x04\0\0\0\0",
    ),
    (
        b"frame 1 11 1\r\n\r\n# one\r\ncell 0 0 low 2.5\r\ncell 1 0 low 5\r\n",
        b"\x01\0\x0B\x02\x03\x012.5\x01\x015\0\0",
    ),
    (
        b"frame 1 11 1\ncell 3 1 high c\ncell 0 3 low a\nframe 1 9 2\ncell 2 2 high b\n",
        b"\x01\0\x0B\x02\x01\x0Da\0\0\x01\x07c\x01\0\x09\x04\0\0\x01\x0Bb\0",
    ),
    (
        b"frame 1 11 1\n cell  1\t0   low  a  #  b \n",
        b"\x01\0\x0B\x02\0\x09\x01 a  #  b \0\0",
    ),
    (
        b"frame 1 11 1\ncell 1 0 low\t\ta\n",
        b"\x01\0\x0B\x02\0\x02\x01\ta\0\0",
    ),
    (
        b"frame 1 11 1\ncell 1 0 low  ",
        b"\x01\0\x0B\x02\0\x01\x01 \0\0",
    ),
    (
        b"frame 1 11 1\ncell 0 0 low frame\ncell 1 0 low \\\\x41\\x41\\xfF\\x00\\\\",
        b"\x01\0\x0B\x02\x05\x01frame\x08\x01\\x41A\xFF\0\\\0\0",
    ),
    (
        b"frame 1 11 1\ncell 1 0 low \xC2\xB5g \x01\x7F\x80\xFF%s\n",
        b"\x01\0\x0B\x02\0\x0A\x01\xC2\xB5g \x01\x7F\x80\xFF%s\0\0",
    ),
];

/// A repository whose program keeps what it is given in the file `given`.
fn keeping(name: &str, program: &str, then: &str) -> Made {
    let made = Made::new(name);
    let given = made.folder.join("given");
    let given = given.to_string_lossy();
    made.program(program, &format!("cat >'{given}'\nexec <'{given}'\n{then}"));
    made.built()
}

#[track_caller]
fn was_given(made: &Made, bytes: &[u8]) {
    let given = made.folder.join("given");
    let found = fs::read(&given).expect("the program was asked");
    assert!(
        found == bytes,
        "the program was given {}, and not {}",
        shown(&found),
        shown(bytes)
    );
    fs::remove_file(given).expect("what was given");
}

#[test]
fn frames_become_orders() {
    let made = keeping("frames", "write_frame", fakes::WRITES);
    for (text, orders) in GOOD_FRAMES {
        made.file("x.frames", text);
        made.call(&["write", "x.frames"]).run().is(0).silent();
        was_given(&made, orders);
        made.call(&["write", "-"]).input(text).run().is(0).silent();
        was_given(&made, orders);
    }
    let longest = [b"frame 1 300 1\ncell 0 0 low ".to_vec(), vec![b'7'; 255]].concat();
    made.call(&["write"]).input(longest).run().is(0).silent();
    was_given(
        &made,
        &[
            b"\x01\x01\x2C\x02\xFF\x01".to_vec(),
            vec![b'7'; 255],
            vec![0; 3],
        ]
        .concat(),
    );
}

/// The line that is told, the text, and what is said.
const WRONG_FRAMES: &[(u32, &[u8], &str)] = &[
    (1, b"Frame 1 20 1\n", "\"Frame\" is neither frame nor cell, nor a remark that begins with #"),
    (3, b"frame 1 20 1\n\n82 02\n", "\"82\" is neither frame nor cell, nor a remark that begins with #"),
    (2, b"# one\n\xEF\xBB\xBFframe 1 20 1\n", "\"???frame\" is neither frame nor cell, nor a remark that begins with #"),
    (1, b"aaaaaaaaaaaaaaaaaaaaaaaaaaaaaaaaaaaaa", "\"aaaaaaaaaaaaaaaaaaaa\" is neither frame nor cell, nor a remark that begins with #"),
    (2, b"frame 1 20 1\n#\0\n", "a zero byte is in it, so it was not typed"),
    (2, b"frame 1 20 1\ncell 0 1 low 2\05\n", "a zero byte is in it, so it was not typed"),
    (1, b"frame", "GAP is missing; a frame is written: frame GAP LENGTH ACKS"),
    (1, b"frame 1\n20 1\n", "LENGTH is missing; a frame is written: frame GAP LENGTH ACKS"),
    (2, b"\nframe 1 20 \t\r\n", "ACKS is missing; a frame is written: frame GAP LENGTH ACKS"),
    (1, b"frame 1 20 1 2\n", "\"2\" is too much; a frame is written: frame GAP LENGTH ACKS, and a remark has a line of its own"),
    (1, b"frame 1 20 1 # one\n", "\"#\" is too much; a frame is written: frame GAP LENGTH ACKS, and a remark has a line of its own"),
    (1, b"frame x 20 1\n", "GAP is \"x\", and must be a number from 1 to 16"),
    (1, b"frame -1 20 1\n", "GAP is \"-1\", and must be a number from 1 to 16"),
    (1, b"frame 0x1 20 1\n", "GAP is \"0x1\", and must be a number from 1 to 16"),
    (1, b"frame 1.0 20 1\n", "GAP is \"1.0\", and must be a number from 1 to 16"),
    (1, b"frame +1 20 1\n", "GAP is \"+1\", and must be a number from 1 to 16"),
    (1, b"frame 256 20 1\n", "GAP is \"256\", and must be a number from 1 to 16"),
    (1, b"frame 0000000000000000000000001 20 1\n", "GAP is \"00000000000000000000\", and must be a number from 1 to 16"),
    (1, b"frame 1 65536 1\n", "LENGTH is \"65536\", and must be a number from GAP+2 to 4,096"),
    (1, b"frame 1 4,096 1\n", "LENGTH is \"4,096\", and must be a number from GAP+2 to 4,096"),
    (1, b"frame 1 9999999999999999999999 1\n", "LENGTH is \"99999999999999999999\", and must be a number from GAP+2 to 4,096"),
    (1, b"frame 1 20 0010\n", "ACKS is \"0010\", and must be head numbers 0 to 3 with commas between, such as 0,1,3, or all, or none"),
    (1, b"frame 1 20 4\n", "ACKS is \"4\", and must be head numbers 0 to 3 with commas between, such as 0,1,3, or all, or none"),
    (1, b"frame 1 20 0, 1\n", "ACKS is \"0,\", and must be head numbers 0 to 3 with commas between, such as 0,1,3, or all, or none"),
    (1, b"frame 1 20 All\n", "ACKS is \"All\", and must be head numbers 0 to 3 with commas between, such as 0,1,3, or all, or none"),
    (1, b"frame 1 20 3,1,3\n", "ACKS names head 3 twice"),
    (2, b"# one\ncell 0 1 low 2.5\nframe 1 20 1\n", "a cell stands before the first frame"),
    (2, b"frame 1 20 1\ncell\n", "INPUT is missing; a cell is written: cell INPUT OUTPUT low|high TEXT"),
    (2, b"frame 1 20 1\ncell 4 1 low 2.5\n", "INPUT is \"4\", and must be 0, 1, 2 or 3"),
    (2, b"frame 1 20 1\ncell 0 01 low 2.5\n", "OUTPUT is \"01\", and must be 0, 1, 2 or 3"),
    (2, b"frame 1 20 1\ncell 0 1 2.5\n", "the class is \"2.5\", and must be low or high"),
    (2, b"frame 1 20 1\ncell 0 1 lower 2.5\n", "the class is \"lower\", and must be low or high"),
    (2, b"frame 1 20 1\ncell 0 1\nlow 2.5\n", "the class is missing; a cell is written: cell INPUT OUTPUT low|high TEXT"),
    (2, b"frame 1 20 1\ncell 0 1 low\n", "TEXT is missing: a cell needs a text of 1 to 64 bytes"),
    (2, b"frame 1 20 1\ncell 0 1 low \r\n2.5\n", "TEXT is missing: a cell needs a text of 1 to 64 bytes"),
    (4, b"frame 1 20 1\ncell 0 1 low 2.5\ncell 1 1 low 2.5\ncell 0 2 low 5\n", "input 0 has a cell in this frame already"),
    (2, b"frame 1 20 1\ncell 0 1 low 5\\n\n", ESCAPES),
    (3, b"frame 1 20 1\ncell 0 1 low 2.5\ncell 1 1 low 5\\\n", ESCAPES),
    (3, b"frame 1 20 1\ncell 0 1 low 5555\ncell 1 1 low \\x\n", ESCAPES),
    (3, b"frame 1 20 1\ncell 0 1 low 5555\ncell 1 1 low \\x5", ESCAPES),
    (2, b"frame 1 20 1\ncell 0 1 low \\x5G\n", ESCAPES),
    (2, b"frame 1 20 1\ncell 0 1 low \\X55\n", ESCAPES),
];
const ESCAPES: &str =
    "a backslash in TEXT is written \\\\, and a byte \\x with two hex digits behind it";

#[test]
fn wrong_frames_are_told_with_their_line() {
    let made = Made::new("wrong frames");
    for (line, text, words) in WRONG_FRAMES {
        made.file("bad.frames", text);
        made.call(&["write", "bad.frames"])
            .run()
            .is(2)
            .says_only(&format!("mirvashek: bad.frames, line {line}: {words}"));
    }
    made.call(&["write"])
        .input("cell 0")
        .run()
        .is(2)
        .says("standard input, line 1: a cell stands");
    let longer = [b"\nframe 1 300 1\ncell 0 0 low ".to_vec(), vec![b'7'; 256]].concat();
    made.call(&["write"])
        .input(longer)
        .run()
        .is(2)
        .says("line 3: TEXT has 256 bytes, and must have 1 to 64");
    for text in ["", "\n", "# frame 1 20 1"] {
        made.call(&["write"])
            .input(text)
            .run()
            .is(2)
            .says("there is no frame in standard input");
    }
    assert_eq!(made.log(), "", "no program is asked, and none is built");
}

/// The text, and the line that is told.
const RETURNS_IN_FRAMES: [(&str, u32); 6] = [
    ("frame 1 11 1\n# a remark\rcell 0 0 low 5\n", 2),
    ("frame 1 11 1\ncell 0 0 low 2\r.5\n", 2),
    ("frame 1 11 1\ncell 0 0 low 2.5\r\r\n", 2),
    ("frame 1 11 1\ncell 0 0 low 2.5\r", 2),
    ("frame 1 11\r 1\n", 1),
    ("\r\n\r\r\nframe 1 11 1\n", 2),
];

#[test]
fn a_carriage_return_that_ends_no_line_is_an_error_in_frames() {
    let made = Made::new("returns in frames");
    for (text, line) in RETURNS_IN_FRAMES {
        made.file("bad.frames", text);
        let ended = made.call(&["write", "bad.frames"]).run();
        ended
            .is(2)
            .says(&format!("bad.frames, line {line}:"))
            .says("a carriage return that ends no line");
    }
}

/// Texts as they stand in a file, and the bytes that are due.
const DUE: &[(&[u8], &[u8])] = &[
    (b"2.5", b"2.5"),
    (b"2.5\n", b"2.5"),
    (b"2.5\r\n", b"2.5"),
    (b"2.5\n\n", b"2.5\n"),
    (b"2.5\r\n\r\n", b"2.5\r\n"),
    (b"2.5\r\n\n", b"2.5\r\n"),
    (b"2.5\n\r", b"2.5\n\r"),
    (b"2.5\r", b"2.5\r"),
    (b"2.5\r\r\n", b"2.5\r"),
    (b"2.5\0", b"2.5\0"),
    (b"2.5\0\n", b"2.5\0"),
    (b"2\05\n", b"2\05"),
    (b"\0\0\0", b"\0\0\0"),
    (b"", b""),
    (b"\n", b""),
    (b"\r\n", b""),
    (b"\r", b"\r"),
    (b"\n\n", b"\n"),
    (b"\n2.5", b"\n2.5"),
    (b" 2.5 \n", b" 2.5 "),
    (b"\r\n.\r\n", b"\r\n."),
    (b"-\n", b"-"),
    (b"32 2E 35\n", b"32 2E 35"),
    (b"\\x41 %s $HOME * # 5\n", b"\\x41 %s $HOME * # 5"),
    (
        b"\xEF\xBB\xBF\xC2\xB5g \x01\x7F\x80\xFF\n",
        b"\xEF\xBB\xBF\xC2\xB5g \x01\x7F\x80\xFF",
    ),
];

const CAPTURE: &[u8] = b"\x80\0\0\0\0\0\0\0\0\0";

/// As the program takes it: the texts due, each behind its length, and the capture.
fn packed(texts: [&[u8]; 4], capture: &[u8]) -> Vec<u8> {
    let texts: Vec<u8> = texts
        .iter()
        .flat_map(|t| [&[t.len() as u8][..], t].concat())
        .collect();
    [&texts, capture].concat()
}

#[test]
fn texts_due_are_handed_on_to_the_byte() {
    let made = keeping("due", "readback", fakes::COMPARES);
    made.file("capture", CAPTURE);
    let mut cases: Vec<(Vec<u8>, Vec<u8>)> = DUE
        .iter()
        .map(|(text, due)| (text.to_vec(), due.to_vec()))
        .collect();
    for end in ["", "\n", "\r\n"] {
        cases.push(([vec![b'7'; 255], end.into()].concat(), vec![b'7'; 255]));
    }
    for (text, due) in cases {
        made.file("text", &text);
        // no head shows anything, so only where nothing is due is it the same
        let status = if due.is_empty() { 0 } else { 1 };
        made.call(&["readback", "--texts", "-", "text", "-", "-", "capture"])
            .run()
            .is(status);
        was_given(&made, &packed([b"", &due, b"", b""], CAPTURE));
        let ended = made
            .call(&[
                "readback",
                "--texts",
                "-",
                "-",
                "-",
                "/dev/stdin",
                "capture",
            ])
            .input(&text)
            .run();
        ended.is(status);
        was_given(&made, &packed([b"", b"", b"", &due], CAPTURE));
    }
}

/// Four texts, each another one; the last byte of the hex text is a line end and is due all the same.
#[test]
fn four_texts_and_a_capture_from_anywhere() {
    let made = keeping("four texts", "readback", fakes::COMPARES);
    made.file("t0", "2.5\n");
    made.file("t1.hex", "31 2E # 1.\n0A\n");
    made.file("two words", "7,5\r\n");
    made.file("capture", CAPTURE);
    made.file("capture.hex", "80 00 00 00 00 # one\r\n00000000\n00");
    let call = || made.call(&["readback", "--texts", "t0", "t1.hex", "-", "two words"]);
    let whole = packed([b"2.5", b"1.\n", b"", b"7,5"], CAPTURE);
    for words in [&["capture"][..], &["capture.hex"], &["--", "capture"]] {
        call().words(words).run().is(1);
        was_given(&made, &whole);
    }
    for words in [&[][..], &["-"], &["--"], &["/dev/stdin"]] {
        call().words(words).input(CAPTURE).run().is(1);
        was_given(&made, &whole);
    }
    let long = vec![0; 60_000];
    made.call(&["readback", "--texts", "-", "-", "-", "-"])
        .input(&long)
        .run()
        .is(0);
    was_given(&made, &packed([b"", b"", b"", b""], &long));
}

/// A file whose texts and capture stand behind one another goes to the program as it is.
#[test]
fn texts_and_capture_in_one_file() {
    let made = keeping("one file", "readback", fakes::COMPARES);
    let whole = packed([b"2.5", b"", b"104", b""], CAPTURE);
    made.file("whole", &whole);
    let hex: String = whole.iter().map(|b| format!("{b:02X} ")).collect();
    made.file("whole.hex", hex);
    for name in ["whole", "whole.hex"] {
        made.call(&["readback", name]).run().is(1);
        was_given(&made, &whole);
    }
    made.call(&["readback"]).input(&whole).run().is(1);
    was_given(&made, &whole);
}

#[test]
fn a_text_has_255_bytes_at_most() {
    let made = Made::new("long texts");
    let sevens = |n: usize, end: &str| [vec![b'7'; n], end.into()].concat();
    for (name, text) in [
        ("text", sevens(256, "")),
        ("text", sevens(256, "\n")),
        ("text", sevens(256, "\r\n")),
        ("text", sevens(255, "\n\n")),
        ("text.hex", sevens(512, "\n")),
    ] {
        made.file(name, text);
        let ended = made
            .call(&["readback", "--texts", "-", "-", name, "-"])
            .input(CAPTURE)
            .run();
        ended
            .is(2)
            .says(&format!("'{name}' has 256 bytes"))
            .says("255");
    }
    made.call(&["readback", "--texts", "/dev/zero", "-", "-", "-"])
        .run()
        .is(2)
        .says("'/dev/zero'")
        .says("255");
}
