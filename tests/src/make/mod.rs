//! Inputs for the programs, all settled by a seed.

pub mod batches;
pub mod captures;
mod cells;
mod edges;
mod frame_edges;
pub mod frames;
pub mod heads;
pub mod inputs;
mod order_edges;
pub mod orders;
mod readback_edges;
mod readback_hands;
pub mod readbacks;
mod requests;
pub mod rng;
mod spoil;
mod states;
mod text_edges;
pub mod texts;
mod turns;
mod words;
