//! Tests of the front door from outside: what it prints, where it prints it, and its exit status. The real programs never fail, so most
//! tests put others in their place, in a made-up repository with a made-up toolchain; `real` has the real ones.

mod building;
mod common;
mod interrupted;
mod limits;
mod old;
mod programs;
mod readback;
mod reading;
mod real;
mod statuses;
mod streams;
mod testing;
mod texts;
mod whole;
mod words;
mod writing;
