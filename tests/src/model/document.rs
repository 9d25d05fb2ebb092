//! What document 01 gives in figures, so that the model is known to agree
//! with it before it judges anything.

use super::cycle::{Inputs, Win};
use super::gates::Gate;
use super::saved::SAVED;
use super::state::{State, SECOND};
use super::{Verdict, DONE, RIGHT};
use crate::make::captures::document_capture;

const LISTING: &str = "cycle ack h0 h1 h2 h3
0 00 00 00 00 00
1 00 00 00 00 00
2 00 00 00 00 00
3 00 00 00 00 00
4 00 00 00 00 00
5 02 00 00 00 00
6 02 00 00 00 00
7 02 00 32 00 31
8 02 00 2E 00 30
9 02 00 35 00 34
10 02 00 00 00 00
";

#[test]
fn replay_given_whole() {
    let capture = document_capture();
    assert_eq!(RIGHT.listing(&capture), (DONE, LISTING.to_string()));
    let mut buffer = vec![0xA5; capture.len() + 1];
    let (verdict, end) = RIGHT.replay(&State::reset(), &capture, &mut buffer);
    assert_eq!(verdict, DONE);
    assert_eq!(buffer[capture.len()], 0xA5);
    let mut saved = vec![0; SAVED];
    saved[..2].copy_from_slice(&[0x2C, 0x20]);
    assert_eq!(RIGHT.saved(&end), saved);
    assert_eq!(RIGHT.take(&saved), (0, end));
}

#[test]
fn reset_saved() {
    let mut saved = vec![0; SAVED];
    saved[0] = 0x78;
    assert_eq!(RIGHT.saved(&State::reset()), saved);
    assert_eq!(RIGHT.take(&saved), (0, State::reset()));
}

#[test]
fn sizes() {
    let number = |length: usize| RIGHT.listing(&vec![0; length]).0.number;
    assert_eq!(number(0), 0);
    assert_eq!(number(4), 1);
    assert_eq!(number(12_288 * 5), 0);
    assert_eq!(number(12_289 * 5), 4);
    assert_eq!(number(12_289 * 5 + 1), 1);
    assert_eq!(RIGHT.listing(&[]).1, "cycle ack h0 h1 h2 h3\n");
}

#[test]
fn refusals_are_one_line() {
    assert_eq!(RIGHT.listing(&[0; 4]).1, "refused 1\n");
    let bad = [0, 0, 0, 0, 0, 0x10, 0, 0, 0, 0, 0x40, 0, 0, 0, 0];
    assert_eq!(RIGHT.listing(&bad).1, "refused 3 at 1\n");
}

#[test]
fn waiting_states_taken_up() {
    let mut saved = vec![0; SAVED];
    saved[0] = 0xF8;
    let (number, state) = RIGHT.take(&saved);
    assert_eq!((number, state.waiting, state.shut), (0, true, [true; 4]));
    saved[0] = 0xF0;
    assert_eq!(RIGHT.take(&saved), (7, State::reset()));
}

/// A waiting board whose output 0 has a holder, with headers to route.
fn waiting(holder: u8, headers: [u8; 4]) -> State {
    let mut state = State::reset();
    state.waiting = true;
    state.holder[0] = holder;
    state.rows[SECOND] = headers;
    state
}

fn quiet_inputs(start: bool) -> Inputs {
    Inputs {
        start,
        acks: [false; 4],
        bytes: [0; 4],
    }
}

#[test]
fn turn_edges() {
    let cases = [
        (3, [0, 0, 0, 1], 3, 0),
        (0, [1, 1, 0, 0], 1, 1),
        (3, [1, 0, 0, 1], 0, 1),
        (1, [0, 3, 1, 0], 1, 1),
    ];
    for (holder, headers, winner, turned_away) in cases {
        let cycle = RIGHT.cycle(&waiting(holder, headers), &quiet_inputs(false));
        let win = Win {
            winner,
            turned_away,
        };
        assert_eq!(cycle.report, Some([Some(win), None, None, None]));
        assert_eq!(cycle.next.holder[0], winner);
        assert_eq!(cycle.next.shut, [false, true, true, true]);
    }
}

#[test]
fn turn_without_askers() {
    // Input 0 asks output 1, so that there is a routing at all.
    let cycle = RIGHT.cycle(&waiting(2, [5, 0, 0, 0]), &quiet_inputs(false));
    assert_eq!(cycle.report.map(|routing| routing[0]), Some(None));
    assert_eq!((cycle.next.holder[0], cycle.next.shut[0]), (2, true));
}

#[test]
fn headers_read() {
    // Input 0 alone asks: 05 output 1, 07 output 1, 0D output 3, 02 none.
    for (header, asked) in [(0x05, 1), (0x07, 1), (0x0D, 3)] {
        let cycle = RIGHT.cycle(&waiting(0, [header, 0, 0, 0]), &quiet_inputs(false));
        let routing = cycle.report.expect("an active header");
        let outputs: Vec<usize> = (0..4).filter(|&o| routing[o].is_some()).collect();
        assert_eq!(outputs, [asked]);
    }
    let cycle = RIGHT.cycle(&waiting(0, [2, 0, 0, 0]), &quiet_inputs(false));
    assert_eq!(cycle.report, None);
    assert!(cycle.next.waiting);
    // 07 is in the high class and 05 is not, whatever the turn says.
    let cycle = RIGHT.cycle(&waiting(0, [7, 5, 0, 0]), &quiet_inputs(false));
    assert_eq!(cycle.next.holder[1], 0);
}

#[test]
fn routing_meets_start() {
    let cycle = RIGHT.cycle(&waiting(0, [1, 1, 0, 0]), &quiet_inputs(true));
    assert!(cycle.report.is_some());
    assert_eq!(cycle.next.shut, [true; 4]);
    assert_eq!(cycle.next.holder[0], 1);
    assert!(cycle.next.waiting);
}

#[test]
fn gate_words() {
    let cases = [
        (2, [1, 2, 0, 0], 2, 0x2042_0002),
        (1, [5, 0, 0, 0], 1, 0x1140_0001),
        (8, [0, 1, 2, 3], 4, 0x8001_0834),
    ];
    for (kind, nets, count, word) in cases {
        assert_eq!(Gate { kind, nets, count }.to_word(), word);
        let gate = Gate::from_word(word);
        assert_eq!((gate.kind, gate.nets, gate.count), (kind, nets, count));
    }
}

#[test]
fn gate_words_evaluated() {
    let words = [0x2042_0002, 0x1140_0001, 0x8001_0834];
    // Nets 1 and 2 are 1, net 5 is 0; then AND 1, NOT 1, and 0&1 | 1&0 = 0.
    assert_eq!(RIGHT.evaluate(6, 0b000110, &words), (DONE, 0b011_000110));
    let at = |number, index| (Verdict { number, index }, 0);
    assert_eq!(RIGHT.evaluate(4, 0, &words), at(12, 1));
    assert_eq!(RIGHT.evaluate(9, u64::MAX, &words), at(10, 0));
    assert_eq!(RIGHT.evaluate(6, 64, &[0x9000_0000]), at(13, 0));
    assert_eq!(RIGHT.evaluate(6, 0, &[words[0], 0x2FC0_0001]), at(11, 1));
}
