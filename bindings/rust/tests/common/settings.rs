//! What the environment sets for a run: the seed, how much is run, and for how long.

// Not every test uses all of it.
#![allow(dead_code)]

use std::env;
use std::time::{Duration, Instant};

/// The seed where `AJP13_SEED` sets no other.
const SEED: u64 = 13;

/// The seed that every random choice follows from.
pub fn seed() -> u64 {
    number("AJP13_SEED").unwrap_or(SEED)
}

/// How many cases are compared in all.
pub fn cases(default: u64) -> u64 {
    number("AJP13_CASES").unwrap_or(default)
}

/// How many events happen in all.
pub fn events(default: u64) -> u64 {
    number("AJP13_EVENTS").unwrap_or(default)
}

/// The time at which a test stops that began now and has a share, in percent, of `AJP13_SECONDS`.
/// There is none where the variable is not set.
pub fn deadline(percent: u32) -> Option<Instant> {
    let seconds = number("AJP13_SECONDS")?;
    Some(Instant::now() + Duration::from_secs(seconds) * percent / 100)
}

/// The number that a variable of the environment is set to.
fn number(name: &str) -> Option<u64> {
    let value = env::var(name).ok()?;
    match value.replace('_', "").parse() {
        Ok(number) => Some(number),
        Err(_) => panic!("{name} is to be a number, and is {value:?}"),
    }
}
