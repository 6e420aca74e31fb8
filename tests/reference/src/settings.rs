//! Numbers that a run takes from its arguments or from the environment.

use std::time::{SystemTime, UNIX_EPOCH};

/// The number at this place of the arguments, or else of this variable.
pub fn number(argument: usize, variable: &str, otherwise: u64) -> u64 {
    match std::env::args().nth(argument).or_else(|| std::env::var(variable).ok()) {
        Some(text) => text.parse().unwrap_or_else(|_| panic!("{variable}: {text} is no number")),
        None => otherwise,
    }
}

/// The seed, the first argument; a new one from the clock if none is given.
pub fn seed(variable: &str) -> u64 {
    let clock = SystemTime::now().duration_since(UNIX_EPOCH).map_or(0, |time| time.as_nanos() as u64);
    number(1, variable, clock)
}
