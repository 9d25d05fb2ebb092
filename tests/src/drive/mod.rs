//! Running the programs and comparing what they print with the model.

mod case_tally;
mod cases;
mod cell_cases;
mod compare;
pub mod difference;
pub mod examples;
mod head_cases;
mod judge;
pub mod options;
pub mod program;
mod readback_cases;
pub mod run;
pub mod selftest;
pub mod tally;
mod text_cases;
mod wanted;
