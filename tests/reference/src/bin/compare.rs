//! The live comparison of the proved library with the reference: random cards, random histories, the open presses of random states, and
//! asking and committing in random states, then the stored ones.
//!
//!     compare [SEED [CARDS [HISTORIES [STATES [PREVIEWS]]]]]
//!
//! or COMPARE_SEED, COMPARE_CARDS, COMPARE_HISTORIES, COMPARE_STATES, COMPARE_PREVIEWS in the environment.
//! Ends at the first difference with the card and the call, and with status 1. A run of 20,000 cards, 5,000 histories, 3,000 states and
//! 5,000 previews or more fails too if a refusal, a kind of space or another case never came up.

use reference::comparison::{missing_of_cards, missing_of_histories, missing_of_open, missing_of_previews, Comparison, Difference};
use reference::proved::{Proved, Reference};
use reference::settings::{number, seed};
use reference::vectors::{asks, extremes, histories, listings, open_presses, K1};
use std::process::ExitCode;

const CARDS: u64 = 20_000;
const HISTORIES: u64 = 5_000;
const STATES: u64 = 3_000;
const PREVIEWS: u64 = 5_000;

fn main() -> ExitCode {
    let seed = seed("COMPARE_SEED");
    let cards = number(2, "COMPARE_CARDS", CARDS);
    let histories = number(3, "COMPARE_HISTORIES", HISTORIES);
    let states = number(4, "COMPARE_STATES", STATES);
    let previews = number(5, "COMPARE_PREVIEWS", PREVIEWS);
    println!("seed {seed}, {cards} cards, {histories} histories, {states} states, {previews} previews");

    let mut run = Run::new(seed);
    let random = run.random([cards, histories, states, previews]);
    let missing = run.missing();
    if let Err(difference) = random.and_then(|()| run.stored()) {
        println!(
            "seed {seed}, after {} random cards, {} random histories, {} random states, {} random previews, {} stored ones",
            run.cards, run.histories, run.states, run.previews, run.stored
        );
        println!("{difference}");
        println!("{} passed, 1 failed", run.passed());
        return ExitCode::FAILURE;
    }

    missing.iter().for_each(|what| println!("never met: {what}"));
    let whole = cards >= CARDS && histories >= HISTORIES && states >= STATES && previews >= PREVIEWS;
    let failed = if whole { missing.len() } else { 0 };
    println!("{} passed, {failed} failed", run.passed());
    if failed == 0 {
        ExitCode::SUCCESS
    } else {
        ExitCode::FAILURE
    }
}

/// How far a run has come. Cards, histories, states and previews have a comparison each, so that each has its own record of what it met.
struct Run {
    by_cards: Comparison<'static>,
    by_histories: Comparison<'static>,
    by_states: Comparison<'static>,
    by_previews: Comparison<'static>,
    cards: u64,
    histories: u64,
    states: u64,
    previews: u64,
    stored: u64,
}

impl Run {
    fn new(seed: u64) -> Run {
        let comparison = |number| Comparison::new(&Proved, &Reference, seed.wrapping_add(number));
        let (by_cards, by_histories, by_states, by_previews) = (comparison(0), comparison(1), comparison(2), comparison(3));
        Run { by_cards, by_histories, by_states, by_previews, cards: 0, histories: 0, states: 0, previews: 0, stored: 0 }
    }

    fn passed(&self) -> u64 {
        self.cards + self.histories + self.states + self.previews + self.stored
    }

    /// The histories, the states and the previews come among the cards, as evenly as may be.
    fn random(&mut self, [cards, histories, states, previews]: [u64; 4]) -> Result<(), Difference> {
        loop {
            let shares = [(self.cards, cards), (self.histories, histories), (self.states, states), (self.previews, previews)];
            let unfinished = shares.into_iter().enumerate().filter(|(_, (done, of))| done < of);
            // The one of which the smallest share is done.
            match unfinished.min_by(|(_, one), (_, other)| (one.0 * other.1).cmp(&(other.0 * one.1))) {
                Some((0, _)) => {
                    self.by_cards.random_card()?;
                    self.cards += 1;
                }
                Some((1, _)) => {
                    self.by_histories.random_history()?;
                    self.histories += 1;
                }
                Some((2, _)) => {
                    self.by_states.random_open()?;
                    self.states += 1;
                }
                Some(_) => {
                    self.by_previews.random_preview()?;
                    self.previews += 1;
                }
                None => break,
            }
        }
        for (number, name, comparison) in [
            (self.cards, "cards", &self.by_cards),
            (self.histories, "histories", &self.by_histories),
            (self.states, "states", &self.by_states),
            (self.previews, "previews", &self.by_previews),
        ] {
            println!("{number} {name}, {} calls\n{}", comparison.met.calls(), comparison.met);
        }
        Ok(())
    }

    /// What the random cards, histories, states and previews have to meet and did not.
    fn missing(&self) -> Vec<String> {
        let [cards, histories] = [missing_of_cards(&self.by_cards.met), missing_of_histories(&self.by_histories.met)];
        let [open, previews] = [missing_of_open(&self.by_states.met), missing_of_previews(&self.by_previews.met)];
        [cards, histories, open, previews].concat()
    }

    /// K1, and the cards, histories, states and asks of tests/vectors.
    fn stored(&mut self) -> Result<(), Difference> {
        let cards = listings().into_iter().chain(extremes()).map(|listing| listing.card);
        for card in [K1.to_vec()].into_iter().chain(cards) {
            self.by_cards.card(&card)?;
            self.stored += 1;
        }
        for history in histories() {
            let presses = history.presses.into_iter().map(|call| call.press);
            self.by_histories.history(&history.card, presses)?;
            self.stored += 1;
        }
        for state in open_presses() {
            self.by_states.stored_open(state)?;
            self.stored += 1;
        }
        for state in asks() {
            self.by_previews.stored_asks(state)?;
            self.stored += 1;
        }
        Ok(())
    }
}
