//! Whether what the proved library lists is true: random histories by its calls, presses, asks and commits mixed, every listed line
//! checked against each state by the reference (truth.rs).
//!
//!     truth [SEED [HISTORIES]]      or TRUTH_SEED, TRUTH_HISTORIES in the environment
//!
//! Ends at the first false line with the card, its listing and the calls, and with status 1. A run of 5,000 histories or more
//! fails too if a kind of space, of line or of answer never came up, or if less than one history in twenty has a rescued space with members.

use reference::histories::Histories;
use reference::proved::Proved;
use reference::settings::{number, seed};
use std::process::ExitCode;

const HISTORIES: u64 = 5_000;

fn main() -> ExitCode {
    let seed = seed("TRUTH_SEED");
    let wanted = number(2, "TRUTH_HISTORIES", HISTORIES);
    println!("seed {seed}, {wanted} histories");

    let mut histories = Histories::new(&Proved, seed);
    for passed in 0..wanted {
        if let Err(untrue) = histories.random_history() {
            println!("seed {seed}\n{untrue}\n{passed} passed, 1 failed");
            return ExitCode::FAILURE;
        }
    }

    println!("{} histories of cards with a rescued space that has members", histories.rescued);
    println!("{} states; spaces and lines, once for each state that they were checked against\n{}", histories.states, histories.met);
    let missing = histories.missing();
    missing.iter().for_each(|what| println!("never met: {what}"));
    let failed = if wanted >= HISTORIES { missing.len() } else { 0 };
    println!("{wanted} passed, {failed} failed");
    if failed == 0 {
        ExitCode::SUCCESS
    } else {
        ExitCode::FAILURE
    }
}
