//! What the numbers mean here, in words, and what to do next.

use crate::judge::Refusal;

/// The refusal as its line has it.
fn named(refused: Refusal) -> String {
    match refused.at {
        Some(at) => format!("refused {} at {at}", refused.number),
        None => format!("refused {}", refused.number),
    }
}

/// A refusal of a capture of so many bytes, or of the texts before it.
pub fn of_capture(refused: Refusal, size: u64) -> String {
    let records = size / 5;
    let means = match (refused.number, refused.at) {
        (1, _) => format!(
            "the capture has {size} bytes, which is no multiple of 5; its last record is cut off. Record it again"
        ),
        (3, Some(at)) => format!(
            "record {at} has a bit set that is always zero; the recording is damaged there. Record it again"
        ),
        (4, _) => format!(
            "the capture has {records} records, and 12,288 are the most. Record fewer frames at a time, and replay each capture by itself"
        ),
        (25, _) => String::from(
            "the input ends inside the texts due, so no capture was looked at. Give the texts by --texts, or look at the length byte before each",
        ),
        _ => String::from("README.md says under Refusals what this number means"),
    };
    format!("{}: {means}. Nothing may be signed", named(refused))
}

/// A refusal of a frame that is to be written.
pub fn of_frame(number: u32) -> &'static str {
    match number {
        20 => "the gap must be 1 to 16, and the length gap + 2 to 4,096 cycles",
        22 => "a TEXT must have 1 to 64 bytes, and its last byte must not be zero",
        23 => "the frame is too short for its longest TEXT: its length must be gap + the bytes of the TEXT + 3 or more",
        _ => "README.md says under Refusals what this number means",
    }
}

pub const EMPTY: &str =
    "the capture is empty: nothing was recorded, or what should have sent it failed. Nothing may be signed";

pub fn on_its_way(head: u8) -> String {
    format!(
        "something is still on its way to head {head} at the end of the capture, which ends too early. Record until the frame is over, and replay that"
    )
}

pub fn engines_differ(at: u64) -> [String; 2] {
    [
        format!("engines differ at {at}"),
        String::from(
            "the two engines are proved to agree, so this program or this machine is at fault. Keep the capture, and sign nothing from this machine until the cause is known",
        ),
    ]
}

#[cfg(test)]
mod tests {
    use super::*;

    #[test]
    fn every_number_has_its_words() {
        for number in [1, 4, 25] {
            let words = of_capture(Refusal { number, at: None }, 7);
            assert!(words.starts_with(&format!("refused {number}: ")) && !words.contains("README"));
        }
        let words = of_capture(
            Refusal {
                number: 3,
                at: Some(17),
            },
            100,
        );
        assert!(words.starts_with("refused 3 at 17: record 17 has a bit set that is always zero"));
        for number in [20, 22, 23] {
            assert!(!of_frame(number).contains("README"));
        }
    }
}
