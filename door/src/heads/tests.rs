use super::*;

fn at(place: u64) -> Compared {
    Compared::At(place)
}

#[test]
fn the_place_is_marked_under_both() {
    let text = head(1, b"2.5", b"25", &at(1));
    assert_eq!(
        text,
        "mirvashek: head 1: differs at place 1, counted from 0\n  due   \"2.5\"\n  shows \"25\"\n          ^\n"
    );
    let text = head(2, b"", b".", &at(0));
    assert!(
        text.ends_with("  due   \"\"\n  shows \".\"\n         ^\n"),
        "{text}"
    );
    let text = head(3, b"2.50", b"2.5", &at(3));
    assert!(
        text.ends_with("  due   \"2.50\"\n  shows \"2.5\"\n            ^\n"),
        "{text}"
    );
}

#[test]
fn letters_and_bytes() {
    let text = head(1, "5 \u{b5}g\n".as_bytes(), b"5 mg", &at(2));
    assert!(
        text.contains("\"5 \u{b5}g\\x0A\"") && text.contains("\"5 mg\""),
        "{text}"
    );
    assert!(text.ends_with("\n           ^\n"), "{text}");
    // the difference is inside a letter of two bytes
    let text = head(1, "\u{b5}".as_bytes(), "\u{b0}".as_bytes(), &at(1));
    assert!(
        text.contains("\"\\xC2\\xB5\"") && text.contains("\"\\xC2\\xB0\""),
        "{text}"
    );
    let text = head(1, b"a\\b", b"a\x1b[0m", &at(1));
    assert!(
        text.contains("\"a\\\\b\"") && text.contains("\"a\\x1B[0m\""),
        "{text}"
    );
}

#[test]
fn equal_texts_are_one_line() {
    assert_eq!(
        head(1, b"2.5", b"2.5", &Compared::Same),
        "mirvashek: head 1: the same: \"2.5\"\n"
    );
    assert!(head(0, b"", b"", &Compared::Same).contains("nothing is due and nothing shown"));
}

#[test]
fn long_texts_are_cut_around_the_place() {
    let due: Vec<u8> = (0..255).map(|k| b'0' + (k % 10) as u8).collect();
    for place in [0, 1, 30, 36, 37, 70, 100, 254] {
        let mut shows = due.clone();
        shows[place] = b'x';
        for shows in [&shows[..], &due[..place], &[&shows[..], &due[..]].concat()] {
            let text = head(3, &due, shows, &at(place as u64));
            let lines: Vec<&str> = text.lines().collect();
            assert!(
                lines.iter().all(|line| line.chars().count() <= COLUMNS),
                "{text}"
            );
            let mark = lines[3].len() - 1;
            assert_eq!(lines[1].as_bytes()[mark], due[place], "{text}");
            let under = lines[2].as_bytes()[mark];
            assert!(under == b'x' || under == b'"', "{text}");
        }
    }
    let raw = vec![0xff; 255];
    for text in [
        head(0, &raw, b"", &at(0)),
        head(0, b"", &raw, &at(0)),
        head(0, &raw, &raw, &Compared::Same),
    ] {
        assert!(
            text.lines().all(|line| line.chars().count() <= COLUMNS),
            "{text}"
        );
    }
}

#[test]
fn what_a_head_shows() {
    let cycles = [[0, 1, 0, 2], [0, 0, 0, 3], [0, 4, 0, 0]];
    assert_eq!(shown_by(1, &cycles), [1, 4]);
    assert_eq!(shown_by(3, &cycles), [2, 3]);
    assert!(shown_by(0, &cycles).is_empty());
    assert!(differ_at(b"2.5", b"25", 1) && differ_at(b"", b".", 0) && differ_at(b"2", b"25", 1));
    assert!(!differ_at(b"2.5", b"25", 0) && !differ_at(b"2.5", b"2.5", 3));
}
