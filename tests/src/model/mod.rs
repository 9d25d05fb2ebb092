//! The model: document 01, the rules of written frames and those of the
//! read-back, in ordinary code.

mod answers;
#[cfg(test)]
mod claims;
#[cfg(test)]
mod claims_catch;
pub mod cycle;
#[cfg(test)]
mod demand_claims;
#[cfg(test)]
mod demand_runs;
#[cfg(test)]
mod document;
pub mod frame_calls;
#[cfg(test)]
mod frame_claims;
#[cfg(test)]
mod frame_tapes;
pub mod gates;
#[cfg(test)]
mod head_claims;
mod heads;
pub mod listing;
pub mod numerals;
pub mod orders;
pub mod probe;
pub mod readback;
#[cfg(test)]
mod readback_claims;
#[cfg(test)]
mod readback_figures;
mod reader;
pub mod replay;
pub mod saved;
pub mod shows;
pub mod state;
pub mod text_calls;
#[cfg(test)]
mod text_catch;
#[cfg(test)]
mod text_claims;
pub mod writer;
pub mod written;
#[cfg(test)]
mod written_claims;
#[cfg(test)]
mod written_figures;
pub mod wrong;

use wrong::Wrong;

/// The rules, with at most one of them broken on purpose. The judge uses
/// `RIGHT` only; the fakes break a rule so that the judge can be judged.
#[derive(Clone, Copy)]
pub struct Model {
    wrong: Option<Wrong>,
}

pub const RIGHT: Model = Model { wrong: None };

impl Model {
    pub fn with(wrong: Option<Wrong>) -> Model {
        Model { wrong }
    }

    pub fn has(&self, wrong: Wrong) -> bool {
        self.wrong == Some(wrong)
    }
}

/// A refusal number and its index; 0 is done, and the index is 0 where none
/// is given.
#[derive(Clone, Copy, Debug, PartialEq, Eq)]
pub struct Verdict {
    pub number: u32,
    pub index: usize,
}

pub const DONE: Verdict = Verdict {
    number: 0,
    index: 0,
};

/// The first number whose test holds: the order of the list is the order of
/// the refusals.
pub fn first_refusal(tests: &[(u32, bool)]) -> u32 {
    tests.iter().find(|test| test.1).map_or(0, |test| test.0)
}
