#![allow(dead_code)] // a test program may use only some of this
//! What the tests share: images built from rows, random ones, damaged ones, and calls made on the
//! library, on the twin and on the yardstick.
//!
//! Everything random starts from a seed. The seeds are the same in every run, and a failure message
//! prints its seed.

pub mod answers;
pub mod boundary;
pub mod call;
pub mod choose;
pub mod compare;
pub mod coverage;
pub mod damage;
pub mod editors;
pub mod examples;
pub mod explanation;
pub mod holders;
pub mod libraries;
pub mod program;
pub mod random;
pub mod sample;
pub mod tables;

/// How many rounds a test does: its own number, times the environment variable DACM_ROUNDS if set.
pub fn rounds(rounds: u64) -> u64 {
    let times = std::env::var("DACM_ROUNDS").map_or(1, |times| {
        times.parse().expect("DACM_ROUNDS is a whole number")
    });
    rounds * times
}
