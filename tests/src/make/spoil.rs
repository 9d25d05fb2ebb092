//! Mistakes put into a good capture.

use super::rng::Rng;
use crate::model::cycle::RECORD;

/// Sets some of the bits 6..4 in one record.
pub fn bad_bits(rng: &mut Rng, capture: &mut [u8], record: usize) {
    capture[record * RECORD] |= rng.pick(&[0x10, 0x20, 0x40, 0x10, 0x20, 0x40, 0x30, 0x50, 0x70]);
}

/// Bad bits in the first, the last, or one or more other records.
pub fn some_bad_bits(rng: &mut Rng, capture: &mut [u8]) {
    let records = (capture.len() + RECORD - 1) / RECORD;
    if records == 0 {
        return;
    }
    match rng.below(4) {
        0 => bad_bits(rng, capture, 0),
        1 => bad_bits(rng, capture, records - 1),
        _ => {
            for _ in 0..rng.from_to(1, 3) {
                let record = rng.below(records);
                bad_bits(rng, capture, record);
            }
        }
    }
}

/// Cuts 1 to 4 bytes off.
pub fn cut(rng: &mut Rng, capture: &mut Vec<u8>) {
    let lost = rng.from_to(1, 4);
    capture.truncate(capture.len().saturating_sub(lost));
}
