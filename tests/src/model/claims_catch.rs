//! Shows that the claims can fail: each fault in the cycle rules breaks some,
//! faults in writing and reading frames do, and each claim is broken by some.

use super::claims::failures;
use super::wrong::{Wrong, KINDS};
use super::{demand_claims, demand_runs, frame_claims, written_claims, Model};

/// Enough for every fault to come up.
const TRIES: usize = 60;

/// Each fault with claims that it breaks; it may break more. The demand says
/// nothing of acknowledgements. Frames say nothing of the turn, of how many
/// are turned away, or of holders and report in a routing that meets a start.
const BROKEN: &[(Wrong, &[&str])] = &[
    (Wrong::Head2E, &["frame heads", "showing", "written bodies"]),
    (
        Wrong::EarlyHead,
        &["frame heads", "showing", "written bodies"],
    ),
    (Wrong::AckLate, &["frame acks"]),
    (Wrong::StaleAck, &["frame acks"]),
    (Wrong::TurnAtHolder, &["winner", "four routings"]),
    (
        Wrong::BoardPriority,
        &["frame routing", "opening", "winner"],
    ),
    (Wrong::NoPriority, &["frame routing", "winner"]),
    (Wrong::IdlePriority, &["frame routing", "opening", "winner"]),
    (Wrong::SpareBits, &["frame routing", "opening", "winner"]),
    (
        Wrong::HeaderWhileRunning,
        &["frame routing", "winner", "holding", "apart"],
    ),
    (Wrong::RoutingWins, &["opening", "holding", "apart"]),
    (Wrong::StartHoldsHolder, &["winner", "four routings"]),
    (Wrong::PhaseAtStart, &["frame routing", "opening", "winner"]),
    (Wrong::UnaskedHolder, &["frame holders", "winner"]),
    (Wrong::ShutPasses, &["frame heads", "showing"]),
    (Wrong::LowNotCounted, &["winner"]),
    (Wrong::NoReportAtStart, &["winner"]),
    // Only the probe's calls by gates have it, and they are not run here, so
    // it breaks none; there it is the same as a turn at the holder.
    (Wrong::GatesTurn, &[]),
];

/// The same for frames. All other faults in writing and reading them break
/// none: the claims speak of what is written, and not of what is refused, of
/// what a buffer holds beside, or of frames that no writer writes.
const WRITTEN: &[(Wrong, &[&str])] = &[
    (Wrong::HeadersEarly, &["written frames", "written bodies"]),
    (Wrong::AcksNotAtStart, &["written acks"]),
    (Wrong::AcksReversed, &["written acks"]),
    // Replay refuses such records, so that nothing at all can be claimed.
    (Wrong::AckBitsKept, &["written frames", "written acks"]),
    (Wrong::SpareDropped, &["written cells"]),
    (Wrong::BodyStops, &["written cells", "written bodies"]),
    (Wrong::NotCleared, &["written cells", "written bodies"]),
    (Wrong::EndingZero, &["written cells", "written bodies"]),
    (Wrong::LastLate, &["written frames", "written bodies"]),
    (Wrong::ReadFlags, &["written cells"]),
    (Wrong::ReadKeeps, &["written cells"]),
    (Wrong::ReadStops, &["written cells"]),
    (Wrong::ReadTight, &["written cells"]),
];

/// The names of the claims that a fault breaks.
fn broken(wrong: Wrong) -> Vec<&'static str> {
    let model = Model::with(Some(wrong));
    let failed = [
        failures(&frame_claims::CLAIMS, TRIES, |claim, number| {
            frame_claims::tried(model, claim, number)
        }),
        failures(&demand_claims::CLAIMS, TRIES, |claim, number| {
            demand_runs::tried(model, claim, number)
        }),
        failures(&written_claims::CLAIMS, TRIES, |claim, number| {
            written_claims::tried(model, claim, number)
        }),
    ];
    failed.concat().iter().map(|(name, _)| *name).collect()
}

/// Holds the claims that a fault has broken to those it should break.
fn breaks(wrong: Wrong, claims: &[&str], broken: &[&str]) {
    let caught = claims.iter().all(|name| broken.contains(name));
    assert!(caught, "{wrong:?} breaks only {broken:?}");
    assert_eq!(claims.is_empty(), broken.is_empty(), "{wrong:?}");
}

/// Of these faults the listed ones break their claims, and the others none.
pub fn listed_break(
    faults: impl Iterator<Item = Wrong>,
    rows: &[(Wrong, &[&str])],
    broken: fn(Wrong) -> Vec<&'static str>,
) {
    let mut listed = 0;
    for wrong in faults {
        let row = rows.iter().find(|row| row.0 == wrong);
        listed += usize::from(row.is_some());
        breaks(wrong, row.map_or(&[], |row| row.1), &broken(wrong));
    }
    assert_eq!(listed, rows.len());
}

#[test]
fn faults_break_claims() {
    for (wrong, claims) in BROKEN {
        breaks(*wrong, claims, &broken(*wrong));
    }
}

#[test]
fn faults_of_frames_break_claims() {
    let kinds = KINDS.iter().map(|kind| kind.wrong);
    let frames = kinds
        .skip_while(|&wrong| wrong != Wrong::HeadersEarly)
        .take_while(|&wrong| wrong != Wrong::LowFirst);
    listed_break(frames, WRITTEN, broken);
}

/// The kinds list the faults of the cycle rules first.
#[test]
fn no_fault_is_left_out() {
    let listed = BROKEN.iter().map(|row| row.0);
    let kinds = KINDS.iter().map(|kind| kind.wrong);
    assert!(listed.eq(kinds.take_while(|&wrong| wrong != Wrong::FourBeforeOne)));
}

#[test]
fn no_claim_is_left_out() {
    let frame = frame_claims::CLAIMS.map(|(name, _)| name);
    let demand = demand_claims::CLAIMS.map(|(name, _)| name);
    for name in frame.iter().chain(&demand) {
        assert!(BROKEN.iter().any(|row| row.1.contains(name)), "{name}");
    }
    for (name, _) in written_claims::CLAIMS {
        assert!(WRITTEN.iter().any(|row| row.1.contains(&name)), "{name}");
    }
}
