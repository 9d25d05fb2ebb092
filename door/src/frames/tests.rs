use super::*;

fn reads(text: &[u8]) -> Result<Orders, String> {
    let mut reader = Reader::default();
    reader.take(text)?;
    let whole = reader.end();
    for piece in 1..4 {
        let mut reader = Reader::default();
        for part in text.chunks(piece) {
            reader.take(part)?;
        }
        assert_eq!(reader.end(), whole);
    }
    whole
}

#[test]
fn orders_of_good_texts() {
    let good: [(&str, &[u8]); 10] = [
        ("frame 0 0 none", b"\x00\x00\x00\x00\x00\x00\x00\x00"),
        ("frame 255 65535 all\n", b"\xff\xff\xff\x0f\x00\x00\x00\x00"),
        ("frame 007 0300 3,0\n", b"\x07\x01\x2c\x09\x00\x00\x00\x00"),
        (
            " # one\n\n \t\n  frame\t1  11   0,1,3\t \n#\n\t# two\n frame 2 12 2\n",
            b"\x01\x00\x0b\x0b\x00\x00\x00\x00\x02\x00\x0c\x04\x00\x00\x00\x00",
        ),
        (
            "frame 1 11 1\r\n\r\n# one\r\ncell 0 0 low 2.5\r\ncell 1 0 low 5\\x0D\r\n",
            b"\x01\x00\x0b\x02\x03\x012.5\x02\x015\r\x00\x00",
        ),
        (
            "frame 1 11 1\ncell 3 1 high c\ncell 0 3 low a\nframe 1 9 2\ncell 2 2 high b\n",
            b"\x01\x00\x0b\x02\x01\x0da\x00\x00\x01\x07c\x01\x00\x09\x04\x00\x00\x01\x0bb\x00",
        ),
        (
            "frame 1 11 1\n cell  1\t0   low  a  #  b \n",
            b"\x01\x00\x0b\x02\x00\x09\x01 a  #  b \x00\x00",
        ),
        (
            "frame 1 11 1\ncell 1 0 low\t\ta\n",
            b"\x01\x00\x0b\x02\x00\x02\x01\ta\x00\x00",
        ),
        (
            "frame 1 11 1\ncell 1 0 low  ",
            b"\x01\x00\x0b\x02\x00\x01\x01 \x00\x00",
        ),
        (
            "frame 1 11 1\ncell 0 0 low frame\ncell 1 0 low \\\\x41\\x41\\xfF\\x00\\\\",
            b"\x01\x00\x0b\x02\x05\x01frame\x08\x01\\x41A\xff\x00\\\x00\x00",
        ),
    ];
    for (text, bytes) in good {
        assert_eq!(reads(text.as_bytes()).unwrap().bytes, bytes, "{text}");
    }
}

#[test]
fn lengths_and_lines_are_kept() {
    let orders = reads(b"# one\nframe 1 11 1\n\nframe 2 4096 all\n").unwrap();
    assert_eq!(orders.begins, [2, 4]);
    assert_eq!(orders.cycles, [11, 4096]);
    assert!(reads(b"# frame 1 11 1").unwrap().begins.is_empty());
}

#[test]
fn wrong_texts_are_told_with_their_line() {
    let bad: [(&str, &str); 12] = [
        (
            "Frame 1 20 1\n",
            "line 1: \"Frame\" is neither frame nor cell",
        ),
        ("frame 1 20 1\n#\0\n", "line 2: a zero byte is in it"),
        ("frame", "line 1: GAP is missing; a frame is written"),
        ("frame 1 20 1 # one\n", "line 1: \"#\" is too much"),
        (
            "frame 0000000001 20 1\n",
            "line 1: GAP is \"0000000001\", and must be",
        ),
        (
            "frame 1 65536 1\n",
            "line 1: LENGTH is \"65536\", and must be",
        ),
        ("frame 1 20 0, 1\n", "line 1: ACKS is \"0,\", and must be"),
        ("frame 1 20 3,1,3\n", "line 1: ACKS names head 3 twice"),
        (
            "# one\ncell 0 1 low 2.5\n",
            "line 2: a cell stands before the first frame",
        ),
        ("frame 1 20 1\ncell 0 1 low\n", "line 2: TEXT is missing"),
        (
            "frame 1 20 1\ncell 0 1 low 5\\x5\n",
            "line 2: a backslash in TEXT",
        ),
        (
            "frame 1 20 1\ncell 0 1 low 5\ncell 0 2 low 5\n",
            "line 3: input 0 has a cell",
        ),
    ];
    for (text, told) in bad {
        let words = reads(text.as_bytes()).unwrap_err();
        assert!(words.starts_with(told), "{text}: {words}");
    }
}

#[test]
fn a_carriage_return_ends_a_line_or_is_an_error() {
    for bad in [
        "# a remark\rcell 0 1 low 2.5\n",
        "frame 1 20 1\r",
        "frame 1 20 1\r\r\n",
        "# one\r",
    ] {
        let words = reads(bad.as_bytes()).unwrap_err();
        assert!(words.contains(STRAY_RETURN), "{words}");
    }
    let words = reads(b"frame 1 20 1\r\ncell 0 1 low 2\r5\r\n").unwrap_err();
    assert!(words.starts_with("line 2: ") && words.contains(STRAY_RETURN));
}

#[test]
fn a_text_has_255_bytes_at_most() {
    let text = |size| format!("frame 1 20 1\ncell 0 1 low {}", "7".repeat(size));
    assert!(reads(text(255).as_bytes()).is_ok());
    let words = reads(text(256).as_bytes()).unwrap_err();
    assert_eq!(words, "line 2: TEXT has 256 bytes, and must have 1 to 64");
}
