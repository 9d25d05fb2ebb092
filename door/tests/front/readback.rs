//! The words beside a read-back: for each head what is due, what is shown, and where they differ.
use crate::common::{fakes, Ended, Made};

/// A capture that the made-up replay shows as it stands: a record for each byte of the longest text.
fn showing(heads: [&[u8]; 4]) -> Vec<u8> {
    let cycles = heads.iter().map(|h| h.len()).max().unwrap_or(0).max(1);
    let byte = |head: &[u8], k: usize| head.get(k).copied().unwrap_or(0);
    (0..cycles)
        .flat_map(|k| {
            [
                0,
                byte(heads[0], k),
                byte(heads[1], k),
                byte(heads[2], k),
                byte(heads[3], k),
            ]
        })
        .collect()
}

/// Asks for a read-back of what the heads show, where these lines come of it.
fn read_back(made: &Made, due: [&[u8]; 4], shown: [&[u8]; 4], lines: &str) -> Ended {
    for (h, text) in due.iter().enumerate() {
        made.file(format!("t{h}"), text);
    }
    made.program("replay", fakes::SHOWS);
    made.program("readback", &fakes::printing(lines.as_bytes()));
    let ended = made
        .call(&["readback", "--texts", "t0", "t1", "t2", "t3"])
        .input(showing(shown))
        .run();
    ended.prints(lines);
    ended
}

#[test]
fn each_head_is_named_in_order() {
    let made = Made::new("same").built();
    let texts: [&[u8]; 4] = [b"", b"2.5", b"", b"104"];
    let ended = read_back(&made, texts, texts, "0 same\n1 same\n2 same\n3 same\n");
    ended.is(0);
    let lines: Vec<&str> = ended
        .err
        .lines()
        .filter(|l| l.starts_with("mirvashek: head "))
        .collect();
    let wanted = [
        "mirvashek: head 0: the same: nothing is due and nothing shown",
        "mirvashek: head 1: the same: \"2.5\"",
        "mirvashek: head 2: the same: nothing is due and nothing shown",
        "mirvashek: head 3: the same: \"104\"",
    ];
    ended.hold(lines == wanted, &format!("{wanted:#?}"));
}

#[test]
fn a_head_that_differs_is_shown_with_its_place() {
    let made = Made::new("differs").built();
    let due: [&[u8]; 4] = [b"", b"2.5", b"", b"104"];
    let ended = read_back(
        &made,
        due,
        [b"", b"25", b".", b"104"],
        "0 same\n1 1 322E35\n2 0 2E\n3 same\n",
    );
    ended.is(1);
    let lines: Vec<&str> = ended.err.lines().collect();
    let at = lines
        .iter()
        .position(|l| l.starts_with("mirvashek: head 1: differs at place 1"));
    let at = at.unwrap_or_else(|| panic!("no words on head 1 in:\n{}", ended.err));
    ended.hold(lines[at + 1] == "  due   \"2.5\"", "what is due at head 1");
    ended.hold(lines[at + 2] == "  shows \"25\"", "what head 1 shows");
    // the place is the character behind "2
    let place = "  shows \"2".len();
    ended.hold(
        lines[at + 3].trim_end() == format!("{}^", " ".repeat(place)),
        "a sign under the place of head 1",
    );
    ended
        .says("head 2: differs at place 0")
        .says_line("  shows \".\"");
    ended.says_line("mirvashek: head 0: the same: nothing is due and nothing shown");
    ended.says_line("mirvashek: head 3: the same: \"104\"");
}

#[test]
fn bytes_that_cannot_be_printed_are_written_out() {
    let made = Made::new("bytes shown").built();
    let due: [&[u8]; 4] = [b"5\n", b"", b"", b"\x1B[0m"];
    let ended = read_back(
        &made,
        due,
        [b"5", b"\xFF", b"\x7F", b"\x1B[0m"],
        "0 same\n1 0 FF\n2 0 7F\n3 same\n",
    );
    ended.is(1).says("\\xFF").says("\\x7F").says("\\x1B[0m");
    let plain = ended
        .err
        .bytes()
        .all(|b| b == b'\n' || (b' '..=b'~').contains(&b));
    ended.hold(plain, "no byte that speaks to a terminal");
}

/// Long texts are cut around the place, and the sign stands under it in both.
#[test]
fn long_texts_are_cut_around_the_place() {
    let made = Made::new("long").built();
    let due = [vec![b'a'; 200], b"2".to_vec(), vec![b'b'; 50]].concat();
    let shown = [vec![b'a'; 200], b"3".to_vec(), vec![b'b'; 50]].concat();
    let ended = read_back(
        &made,
        [&due, b"", b"", b""],
        [&shown, b"", b"", b""],
        "0 200 32\n1 same\n2 same\n3 same\n",
    );
    ended.is(1).says("head 0: differs at place 200").says("...");
    let lines: Vec<&str> = ended.err.lines().collect();
    let at = lines
        .iter()
        .position(|l| l.starts_with("  due "))
        .expect("what is due");
    let sign = lines[at + 2].find('^').expect("a sign");
    ended.hold(
        lines[at].as_bytes()[sign] == b'2',
        "the sign under the 2 that is due",
    );
    ended.hold(
        lines[at + 1].as_bytes()[sign] == b'3',
        "the sign under the 3 that is shown",
    );
}

/// What is said of a head that shows something else is 1, whatever the others are.
#[test]
fn one_head_that_differs_is_1() {
    let made = Made::new("one of four").built();
    for h in 0..4 {
        let lines: String = (0..4)
            .map(|k| {
                if k == h {
                    format!("{k} 0 35\n")
                } else {
                    format!("{k} same\n")
                }
            })
            .collect();
        let mut shown: [&[u8]; 4] = [b"", b"", b"", b""];
        shown[h] = b"5";
        let ended = read_back(&made, [b"", b"", b"", b""], shown, &lines);
        ended.is(1).says(&format!("head {h}: differs at place 0"));
    }
}

/// What the heads show is taken from a listing: where there is none, nothing is handed on.
#[test]
fn a_replay_that_fails_beside_a_read_back_is_4() {
    let made = Made::new("no listing").built();
    for (lines, status) in [
        ("exit 3", 4),
        ("kill -9 $$", 4),
        ("echo 'cycle ack h0 h1 h2 h3'", 4),
        ("echo 'refused 1'", 4),
        ("echo 'engines differ at 0' >&2", 3),
    ] {
        made.program("replay", &fakes::after_reading(lines));
        for shown in [b"5", b"\0"] {
            let ended = made
                .call(&["readback", "--texts", "-", "-", "-", "-"])
                .input(showing([b"", shown, b"", b""]))
                .run();
            ended.is(status);
        }
    }
}

/// Lines that do not fit the listing, each for two heads that show 2.5 and 104.
#[test]
fn a_read_back_that_does_not_fit_the_listing_is_4() {
    let made = Made::new("no fit").built();
    let shown: [&[u8]; 4] = [b"", b"2.5", b"", b"104"];
    for (due, lines) in [
        ("2.5", "0 same\n1 0 322E35\n2 same\n3 same\n"),
        ("2.5", "0 same\n1 3 00\n2 same\n3 same\n"),
        ("25", "0 same\n1 0 3235\n2 same\n3 same\n"),
        ("25", "0 same\n1 2 3235\n2 same\n3 same\n"),
        ("25", "0 same\n1 1 3235\n2 0 2E\n3 same\n"),
        ("25", "0 same\n1 1 3235\n2 same\n3 1 3134\n"),
    ] {
        made.file("t1", due);
        made.file("t3", "104");
        made.program("readback", &fakes::printing(lines.as_bytes()));
        made.call(&["readback", "--texts", "-", "t1", "-", "t3"])
            .input(showing(shown))
            .run()
            .is(4);
    }
}

/// Four times the same is what is signed, so it must fit the listing too.
#[test]
fn a_false_same_is_4() {
    let made = Made::with(
        "false same",
        "readback",
        &fakes::printing(b"0 same\n1 same\n2 same\n3 same\n"),
    )
    .built();
    made.file("t1", "2.5");
    for shown in [&b"25"[..], b"2.50", b"2.", b"", b"3.5"] {
        let ended = made
            .call(&["readback", "--texts", "-", "t1", "-", "-"])
            .input(showing([b"", shown, b"", b""]))
            .run();
        ended.is(4);
    }
}
