//! Shows that the claims about texts, heads and the read-back can fail.

use super::claims::failures;
use super::claims_catch::listed_break;
use super::wrong::{Wrong, KINDS};
use super::{head_claims, readback_claims, text_claims, Model};

/// Enough for every fault to come up.
const TRIES: usize = 600;
const READBACKS: usize = 60;

/// Each fault with claims that it breaks; it may break more. All others break
/// none: the claims say nothing of requests, of how a piece is written down,
/// or of inputs and texts longer than theirs.
const BROKEN: &[(Wrong, &[&str])] = &[
    (Wrong::PlaceLate, &["place", "piece holds place"]),
    (Wrong::PlaceEarly, &["place", "readback places"]),
    (Wrong::PlaceFromOne, &["readback places"]),
    (Wrong::PlaceHex, &["readback places"]),
    (
        Wrong::BeginningShown,
        &["texts same", "readback same", "readback numerals"],
    ),
    (
        Wrong::BeginningDue,
        &["texts same", "readback same", "readback numerals"],
    ),
    (Wrong::OtherText, &["piece's text"]),
    (Wrong::Comma, &["piece whole"]),
    (Wrong::Point, &["piece whole"]),
    (Wrong::Nought, &["piece whole"]),
    (Wrong::Nine, &["piece whole"]),
    (Wrong::Plus, &["piece of numerals"]),
    (Wrong::Minus, &["piece of numerals"]),
    (Wrong::Slash, &["piece of numerals"]),
    (Wrong::Colon, &["piece of numerals"]),
    (Wrong::HighBit, &["piece of numerals"]),
    (Wrong::NotLeft, &["piece whole"]),
    (Wrong::NotRight, &["piece whole"]),
    (Wrong::OtherExtended, &["piece of numerals"]),
    (Wrong::ZerosKept, &["readback same", "head's count"]),
    (Wrong::ZerosAtEnd, &["readback same", "head's bytes"]),
    (Wrong::ColumnBefore, &["readback same", "head's bytes"]),
    (Wrong::LastRecordLost, &["readback same", "head's count"]),
    (Wrong::FullWraps, &["head's bytes"]),
    (Wrong::FullMovesOn, &["head's bytes"]),
    (Wrong::HeadPartUnput, &["head's count", "head's bytes"]),
    (Wrong::HeadCountsAll, &["head's count"]),
    (Wrong::HeadByteBeyond, &["head's buffer"]),
    (Wrong::HeadRestCleared, &["head's buffer"]),
    (Wrong::HeadPartRead, &["head's buffer"]),
    (Wrong::HeadModulo, &["head's count", "head's buffer"]),
    (Wrong::CutLate, &["readback cuts"]),
    (Wrong::EndRefused, &["readback cuts"]),
    (Wrong::EmptyTaken, &["readback cuts"]),
    (Wrong::MissingTaken, &["readback cuts"]),
    (Wrong::CutTaken, &["readback cuts"]),
    (Wrong::LengthInText, &["readback same"]),
    (Wrong::LengthOfAll, &["readback same", "readback cuts"]),
    (Wrong::DueZeros, &["readback same"]),
    (Wrong::LinesExchanged, &["readback lines"]),
    (Wrong::LinesFirst, &["readback lines"]),
    (Wrong::SameDash, &["readback same"]),
];

fn broken(wrong: Wrong) -> Vec<&'static str> {
    let model = Model::with(Some(wrong));
    let failed = [
        failures(&text_claims::CLAIMS, TRIES, |claim, number| {
            text_claims::tried(model, claim, number)
        }),
        failures(&head_claims::CLAIMS, TRIES, |claim, number| {
            head_claims::tried(model, claim, number)
        }),
        failures(&readback_claims::CLAIMS, READBACKS, |claim, number| {
            readback_claims::tried(model, claim, number)
        }),
    ];
    failed.concat().iter().map(|(name, _)| *name).collect()
}

#[test]
fn faults_of_texts_break_claims() {
    let kinds = KINDS.iter().map(|kind| kind.wrong);
    let texts = kinds.skip_while(|&wrong| wrong != Wrong::PlaceLate);
    listed_break(texts, BROKEN, broken);
}

#[test]
fn no_claim_of_texts_is_left_out() {
    let texts = text_claims::CLAIMS.map(|(name, _)| name);
    let heads = head_claims::CLAIMS.map(|(name, _)| name);
    let readbacks = readback_claims::CLAIMS.map(|(name, _)| name);
    for name in texts.iter().chain(&heads).chain(&readbacks) {
        assert!(BROKEN.iter().any(|row| row.1.contains(name)), "{name}");
    }
}
