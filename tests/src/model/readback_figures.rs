//! The rules of the read-back in figures, worked out by hand, so that the
//! model is known to agree with them before it judges anything.

use super::replay::LIMIT;
use super::RIGHT;
use crate::make::captures::document_capture;
use crate::make::readbacks::input;

#[test]
fn places_and_pieces() {
    let cases: [(&[u8], &[u8], &str); 25] = [
        (b"", b"", "same"),
        (b"2.5", b"2.5", "same"),
        (b"", b"2.5", "0 322E35"),
        (b"2.5", b"", "0 322E35"),
        (b"2.5", b"25", "1 322E35"),
        (b"25", b"2.5", "1 3235"),
        (b"2.5", b"2,5", "1 322E35"),
        (b"2,5", b"2.5", "1 322C35"),
        (b"2.5", b"2.", "2 322E35"),
        (b"2.", b"2.5", "2 322E35"),
        (b"2.5", b"2.5 mg", "3 20"),
        (b"2.5 mg", b"2.5", "3 20"),
        (b"take 2", b"take 25!", "6 3235"),
        (b"take 25!", b"take 2", "6 3235"),
        (b"a0,1.9b", b"a0,1.8b", "5 302C312E39"),
        (b"a0,1.9b", b"a9,1.9b", "1 302C312E39"),
        (b"1a2", b"112", "1 61"),
        (b"112", b"1a2", "1 313132"),
        (b"+1-", b"+2-", "1 31"),
        (b"/1:", b"/2:", "1 31"),
        (b"1/2", b"1:2", "1 2F"),
        (b"\xB91\xAC", b"\xB92\xAC", "1 31"),
        (b"1\x002", b"12", "1 00"),
        (b"01234567890", b"0123456789", "10 3031323334353637383930"),
        (b"ten before 1", b"ten before 2", "11 31"),
    ];
    for (due, shown, told) in cases {
        assert_eq!(RIGHT.told(due, shown), told);
    }
}

#[test]
fn bytes_of_a_head() {
    let mut answers = vec![0x0F, 0x00, 0x31, 0x00, 0x41, 0x03, 0x32, 0x00, 0x00, 0x42];
    answers.extend([0x01, 0x00, 0x2E, 0x00, 0x00, 0x02, 0x33, 0x35]);
    let put = |head, room| {
        let mut buffer = vec![0xA5; room];
        let count = RIGHT.head_text(&answers, head, &mut buffer);
        (count, buffer)
    };
    assert_eq!(put(0, 2), (1, vec![0x32, 0xA5]));
    assert_eq!(put(1, 3), (2, vec![0x31, 0x2E, 0xA5]));
    assert_eq!(put(1, 2), (2, vec![0x31, 0x2E]));
    assert_eq!(put(1, 1), (1, vec![0x31]));
    assert_eq!(put(1, 0), (0, vec![]));
    assert_eq!(put(3, 2), (2, vec![0x41, 0x42]));
    for head in [2, 4, 5, 0x100] {
        assert_eq!(put(head, 1), (0, vec![0xA5]));
    }
}

fn output(texts: [&[u8]; 4], capture: &[u8]) -> String {
    RIGHT.readback(&input(&texts, capture)).output
}

const ALL_SAME: &str = "0 same\n1 same\n2 same\n3 same\n";

/// Heads 1 and 3 show `2.5` and `104`.
#[test]
fn capture_of_the_document() {
    let capture = document_capture();
    let output = |texts| output(texts, &capture);
    assert_eq!(output([b"", b"2.5", b"", b"104"]), ALL_SAME);
    let told = "0 same\n1 1 3235\n2 0 78\n3 2 313034\n";
    assert_eq!(output([b"", b"25", b"x", b"10"]), told);
    let told = "0 0 312C\n1 3 00\n2 0 20\n3 0 00\n";
    assert_eq!(output([b"1,", b"2.5\x00", b" ", b"\x00104"]), told);
}

#[test]
fn ends_inside_the_texts() {
    let output = |input: &[u8]| RIGHT.readback(input).output;
    let cut: [&[u8]; 8] = [
        &[],
        &[0],
        &[0; 3],
        &[1],
        &[0, 0, 0, 1],
        &[2, 9, 0, 0],
        &[5, 0x10, 0, 0, 0],
        &[255; 1_023],
    ];
    for input in cut {
        assert_eq!(output(input), "refused 25\n");
    }
    assert_eq!(output(&[0; 4]), ALL_SAME);
    assert_eq!(
        output(&[0, 0, 0, 1, 0x39]),
        "0 same\n1 same\n2 same\n3 0 39\n"
    );
}

#[test]
fn captures_refused() {
    let texts: [&[u8]; 2] = [&[], &[0x37; 255]];
    for text in texts {
        let output = |capture: &[u8]| output([text; 4], capture);
        let bad = [0, 0, 0, 0, 0, 0x10, 0, 0, 0, 0, 0x40, 0, 0, 0, 0];
        assert_eq!(output(&[0; 4]), "refused 1\n");
        assert_eq!(output(&bad), "refused 3 at 1\n");
        assert_eq!(output(&bad[..14]), "refused 1\n");
        assert_eq!(output(&vec![0x70; LIMIT * 5]), "refused 3 at 0\n");
        assert_eq!(output(&vec![0x70; LIMIT * 5 + 5]), "refused 4\n");
        assert_eq!(output(&vec![0x70; LIMIT * 5 + 6]), "refused 1\n");
        assert_eq!(output(&vec![0; 65_536]), "refused 1\n");
        assert_eq!(output(&vec![0; 70_000]), "refused 4\n");
        let done = output(&vec![0; LIMIT * 5]);
        assert_eq!(done == ALL_SAME, text.is_empty());
        assert_eq!(done.lines().count(), 4);
    }
}

#[test]
fn requests_of_the_probe() {
    let line = |letter: u8, number: u32, rest: &[u8]| {
        let length = (4 + rest.len() as u32).to_be_bytes();
        let payload = [&number.to_be_bytes(), rest].concat();
        let replies = RIGHT.replies(&[&[letter], &length[..], &payload].concat());
        replies[0].line.clone()
    };
    assert_eq!(line(b'N', 3, b"2.525"), "1 322E35");
    assert_eq!(line(b'N', 0, b"2.525"), "0 322E353235");
    assert_eq!(line(b'N', 3, b"mgmmgm"), "same -");
    assert_eq!(line(b'N', 0, b""), "same -");
    assert_eq!(line(b'N', 1, b""), "malformed");
    assert_eq!(line(b'N', 0xFFFF_FFFF, b"2.525"), "malformed");
    let answers = [1, 0x0F, 0, 0x31, 0, 0x41, 3, 0x32, 0xAE];
    assert_eq!(line(b'H', 2, &answers), "1 31A5");
    assert_eq!(line(b'H', 0, &answers), "0 -");
    assert_eq!(line(b'H', 1, &[7]), "0 A5");
    assert_eq!(line(b'H', 0, &[]), "malformed");
    assert_eq!(line(b'H', 65_537, &[]), "malformed");
    assert_eq!(line(b'H', 65_537, &answers), "too long");
    let replies = RIGHT.replies(&[b'N', 0, 0, 0, 3, 0, 0, 0, b'H', 0, 0, 0, 0]);
    let lines: Vec<&str> = replies.iter().map(|reply| &reply.line[..]).collect();
    assert_eq!(lines, ["malformed", "malformed"]);
}
