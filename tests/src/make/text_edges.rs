//! Requests for two texts and for the bytes of a head that every run sends.

use super::heads::head_edges;
use super::requests::Request;
use super::rng::Rng;
use super::texts::of_byte;
use crate::model::probe::{LENGTH, LONGEST};
use crate::model::text_calls::{HeadCall, Pair};

/// What is due, and what is shown.
const PAIRS: &[(&[u8], &[u8])] = &[
    // Nothing at all, in both or in one.
    (b"", b""),
    (b"", b"2.5"),
    (b"2.5", b""),
    (b"", b" mg"),
    (b" mg", b""),
    (b"2.5", b"2.5"),
    // A point, a comma, a digit.
    (b"2.5", b"25"),
    (b"25", b"2.5"),
    (b"2,5", b"25"),
    (b"25", b"2,5"),
    (b"2.5", b"2,5"),
    (b"2,5", b"2.5"),
    (b"2.5", b"2.6"),
    (b".5", b",5"),
    (b"5.", b"5,"),
    // Tails.
    (b"2.5", b"2."),
    (b"2.", b"2.5"),
    (b"2.5", b"2"),
    (b"2", b"2.5"),
    (b"2.5 mg", b"2.5"),
    (b"2.5", b"2.5 mg"),
    (b"take 2", b"take "),
    (b"take ", b"take 2"),
    (b"take 25 now", b"take 2"),
    (b"take 2", b"take 25 now"),
    // At the first, an inner and the last byte of a run.
    (b"1234", b"9234"),
    (b"1234", b"1294"),
    (b"1234", b"1239"),
    (b"a1234b", b"a9234b"),
    (b"a1234b", b"a1294b"),
    (b"a1234b", b"a1239b"),
    (b"a1b", b"a2b"),
    // At a byte that is no numeral, with and without numerals beside it.
    (b"abc", b"axc"),
    (b"1a2", b"1b2"),
    (b"1a2", b"112"),
    (b"112", b"1a2"),
    (b"a1234b", b"x1234b"),
    (b"a1234b", b"a1234x"),
    (b"a1234", b"a1234b"),
    (b"2.5 mg", b"2.5mg"),
    // Zeros and bytes above 7F.
    (b"1\x002", b"12"),
    (b"12", b"1\x002"),
    (b"\x0012\x00", b"\x0013\x00"),
    (b"\x00", b""),
    (b"\xFF12\xFF", b"\xFF13\xFF"),
    (b"1\xB52", b"1\xB62"),
    // Places of two digits.
    (b"0123456789", b"012345678"),
    (b"01234567890", b"01234567891"),
    (b"ten before 1", b"ten before 2"),
];

/// On both sides of each edge of the numerals, and the same with bit 7.
const EDGES: [u8; 18] = [
    0x00, 0x2B, 0x2C, 0x2D, 0x2E, 0x2F, 0x30, 0x39, 0x3A, 0x7F, 0x80, 0xAC, 0xAD, 0xAE, 0xAF, 0xB0,
    0xB9, 0xFF,
];

pub fn text_edges(rng: &mut Rng) -> Vec<Request> {
    let mut pairs: Vec<Pair> = PAIRS
        .iter()
        .map(|(due, shown)| Pair::new(due, shown))
        .collect();
    for byte in EDGES.map(usize::from) {
        pairs.extend([2 * byte, 2 * byte + 1].map(|number| of_byte(rng, number)));
    }
    pairs.extend(long_ones());
    let mut requests: Vec<Request> = pairs.iter().map(compare).collect();
    requests.extend(misfits());
    requests.extend(head_edges().iter().map(show));
    requests
}

pub fn compare(pair: &Pair) -> Request {
    Request::new(b'N', pair.payload())
}

pub fn show(call: &HeadCall) -> Request {
    Request::new(b'H', call.payload())
}

/// Places around those at which a byte is full, and the longest payloads.
fn long_ones() -> Vec<Pair> {
    let most = LONGEST - LENGTH;
    let mut pairs = vec![
        Pair::new(&vec![b'7'; most], &[]),
        Pair::new(&[], &vec![b'7'; most]),
        Pair::new(&vec![b'7'; most / 2], &vec![b'7'; most / 2]),
        Pair::new(&vec![b'7'; most / 2 - 1], &vec![b'7'; most / 2 + 1]),
        Pair::new(&vec![b'a'; most / 2], &vec![b'a'; most / 2 - 1]),
    ];
    for place in [254, 255, 256, 257, 1_000] {
        for byte in *b"a7" {
            let before = vec![byte; place];
            let one = [&before[..], b"1"].concat();
            pairs.push(Pair::new(&one, &[&before[..], b"2"].concat()));
            pairs.push(Pair::new(&before, &one));
        }
    }
    pairs
}

/// Payloads that end inside their front or inside the text due; and for both
/// letters some lengths of zeros.
fn misfits() -> Vec<Request> {
    let texts: [&[u8]; 9] = [
        &[0, 0, 0],
        &[0, 0, 0, 1],
        &[0, 0, 0, 2, b'1'],
        &[0, 0, 1, 0, b'1', b'1'],
        &[1, 0, 0, 0, b'1', b'1'],
        &[0x80, 0, 0, 0, b'1'],
        &[0x80, 0, 0, 1, b'1'],
        &[0xFF; 4],
        &[0xFF; 8],
    ];
    let zeros = [1, 3, 4, 5, 6, 9, 10, LONGEST].map(|length| vec![0; length]);
    let both = zeros
        .iter()
        .flat_map(|zeros| [(b'N', zeros), (b'H', zeros)]);
    let mut requests: Vec<Request> = both
        .map(|(letter, zeros)| Request::new(letter, zeros.clone()))
        .collect();
    requests.extend(texts.map(|payload| Request::new(b'N', payload.to_vec())));
    requests.push(Request::new(b'H', vec![0xFF; 4]));
    requests
}
