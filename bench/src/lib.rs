//! The call files of the benchmark and the plain Rust peer; no kernel.

pub mod calls;
pub mod peer;
pub mod stations;

use calls::{Calls, Mix};

/// The frames of the benchmark's unit.
pub const FAST: u8 = 127;
pub const SLOW: u8 = 127;

pub const MIX: Mix = Mix {
    reads: 100,
    writes: 50,
    looks_and_grants: 8,
    wrong: 8,
};

/// A shift of 40,000 moves from fresh tables, which it fills first.
pub fn shift() -> Calls {
    let mut calls = Calls::new(FAST, SLOW);
    calls.fill();
    calls.shift(40_000, 246, &MIX);
    calls
}
