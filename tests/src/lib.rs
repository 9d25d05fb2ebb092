//! Judges the programs `replay`, `probe`, `write_frame` and `readback` from
//! outside.
//!
//! `model` says what is asked of them, `make` thinks up inputs, and `drive`
//! runs the programs and compares. The model shares no code with the programs,
//! so that one mistake can't hide in both.

pub mod drive;
pub mod make;
pub mod model;
