//! Random histories by one implementation's calls, presses, asks and commits mixed: the `E` lines of its listing checked against the `T`
//! lines, and every other line against the state after each call.

use crate::card::Task;
use crate::met::{Call, Case, Met, LINES, NESTINGS, SPACES};
use crate::preview::{ChangesBytes, CHANGES_LEN};
use crate::proved::Calls;
use crate::random::{write_unchecked, Damaged, Random};
use crate::strips::{Press, FACT_LEN, STATE_LEN};
use crate::truth::{check, check_nestings, check_rescues, Listing};
use crate::vectors::to_hex;
use std::fmt;

/// A history after which something listed is false.
#[derive(Debug)]
pub struct Untrue {
    card: Vec<u8>,
    listing: String,
    steps: Vec<Step>,
    fault: String,
}

impl fmt::Display for Untrue {
    fn fmt(&self, f: &mut fmt::Formatter) -> fmt::Result {
        write!(f, "card {}\n{}", to_hex(&self.card), self.listing)?;
        for step in &self.steps {
            match step {
                Step::Press(Press { schema, objects }) => writeln!(f, "press schema {schema}, objects {objects:?}")?,
                Step::Preview(Press { schema, objects }) => writeln!(f, "preview of schema {schema}, objects {objects:?}")?,
                Step::Commit(changes) => writeln!(f, "commit of {}", to_hex(changes))?,
            }
        }
        write!(f, "{}", self.fault)
    }
}

/// A call of a history, with what is handed in beside card and state.
#[derive(Debug)]
enum Step {
    Press(Press),
    Preview(Press),
    Commit(ChangesBytes),
}

/// A history as far as it has come.
struct History {
    state: Vec<u8>,
    count: usize,
    /// What was asked so far, and whether the state is still the one that was asked about last.
    asked: Vec<ChangesBytes>,
    unchanged: bool,
    steps: Vec<Step>,
}

impl History {
    fn facts(&self) -> &[u8] {
        &self.state[..self.count * FACT_LEN]
    }

    /// The count after a call that may change the state. A refused one answers none.
    fn answered(&mut self, answer: Result<usize, u8>) {
        if let Ok(count) = answer {
            self.count = count;
            self.unchanged = false;
        }
    }
}

pub struct Histories<'a> {
    calls: &'a dyn Calls,
    random: Random,
    /// The answers of presses, asks and commits; the spaces and the lines, each as often as it was checked.
    pub met: Met,
    pub states: usize,
    pub histories: usize,
    /// The histories of cards with a rescued space that has members.
    pub rescued: usize,
}

/// One history in so many, at the least, has a rescued space with members.
const RESCUED: usize = 20;

/// The most calls of one history, and of one that is to fill the state up, which comes once in so many.
const MOST_CALLS: usize = 40;
const FILLING_CALLS: usize = 300;
const FILLING: usize = 200;

const AS_ASKED: Case = ("committed", "in the state that was asked about");
const OUTDATED: Case = ("committed", "in another state");
const DAMAGED: Case = ("committed", "damaged");

impl<'a> Histories<'a> {
    pub fn new(calls: &'a dyn Calls, seed: u64) -> Histories<'a> {
        Histories { calls, random: Random::new(seed), met: Met::default(), states: 0, histories: 0, rescued: 0 }
    }

    /// The opening call on a random card, then presses, asks and commits, accepted and refused ones.
    pub fn random_history(&mut self) -> Result<(), Untrue> {
        let filling = self.random.once_in(FILLING);
        let task = match self.random.below(8) {
            _ if filling => self.random.filling_task(),
            0 => self.random.roomy_task(),
            1 => self.random.hiding_task(),
            _ => self.random.task(),
        };
        let most = if filling { FILLING_CALLS } else { self.random.below(MOST_CALLS + 1) };
        let card = write_unchecked(&task);
        let listing = String::from_utf8_lossy(&self.calls.listing(&card)).into_owned();
        let mut history = History { state: vec![0; STATE_LEN], count: 0, asked: Vec::new(), unchanged: false, steps: Vec::new() };
        let checked = self.call_and_check(&task, &card, &listing, most, &mut history);
        checked.map_err(|fault| Untrue { card, listing, steps: history.steps, fault })
    }

    /// Says what is false; the history has the calls that led there.
    fn call_and_check(&mut self, task: &Task, card: &[u8], text: &str, most: usize, history: &mut History) -> Result<(), String> {
        let listing = Listing::parse(text).ok_or("what was listed is no listing")?;
        check_nestings(&listing)?;
        check_rescues(&listing)?;
        self.histories += 1;
        self.rescued += listing.spaces.iter().any(|space| space.kind == "H" && !space.members.is_empty()) as usize;
        let opened = self.calls.initial(card, &mut history.state);
        history.count = opened.map_err(|refusal| format!("the opening call answers {refusal}"))?;
        self.check(task, &listing, text, history.facts())?;
        for _ in 0..most {
            match self.random.below(8) {
                0 | 1 => self.preview(task, card, history),
                2 | 3 => self.commit(task, card, history),
                _ => self.press(task, card, history),
            }
            self.check(task, &listing, text, history.facts())?;
        }
        Ok(())
    }

    fn press(&mut self, task: &Task, card: &[u8], history: &mut History) {
        let press = self.random.press(task, history.facts());
        let answer = self.calls.press(card, &mut history.state, history.count, press.schema, &press.objects);
        self.met.answer(Call::Press, answer);
        history.answered(answer);
        history.steps.push(Step::Press(press));
    }

    /// Asks about a press. The count stays as it is.
    fn preview(&mut self, task: &Task, card: &[u8], history: &mut History) {
        let press = self.random.press(task, history.facts());
        let mut changes = [0; CHANGES_LEN];
        let answer = self.calls.preview(card, &history.state, history.count, press.schema, &press.objects, &mut changes);
        self.met.answer(Call::Preview, answer);
        if answer.is_ok() {
            history.asked.push(changes);
            history.unchanged = true;
        }
        history.steps.push(Step::Preview(press));
    }

    /// Commits what was asked last, or before, or something else; nothing where nothing was asked yet.
    fn commit(&mut self, task: &Task, card: &[u8], history: &mut History) {
        let Some(&last) = history.asked.last() else { return };
        let (changes, case) = match self.random.below(4) {
            0 => (*self.random.pick(&history.asked).unwrap_or(&last), OUTDATED),
            1 => {
                let Damaged { changes, .. } = self.random.damaged(task, history.facts(), &last);
                (changes, DAMAGED)
            }
            _ => (last, if history.unchanged { AS_ASKED } else { OUTDATED }),
        };
        let answer = self.calls.commit(card, &mut history.state, history.count, &changes);
        self.met.answer(Call::Commit, answer);
        self.met.case(case);
        history.answered(answer);
        history.steps.push(Step::Commit(changes));
    }

    fn check(&mut self, task: &Task, listing: &Listing, text: &str, facts: &[u8]) -> Result<(), String> {
        self.states += 1;
        self.met.lines(text);
        check(task, listing, facts)
    }

    /// What never came up: a press, an ask or a commit that is accepted or refused by 16 to 20, a commit that is refused by 23, one in the
    /// state that was asked about, in another one, or of something damaged; a kind of space, of line or of nesting. Or what came up too
    /// seldom: a rescued space with members.
    pub fn missing(&self) -> Vec<String> {
        let calls = [Call::Press, Call::Preview, Call::Commit];
        let answers = calls.into_iter().flat_map(|call| [0, 16, 17, 18, 19, 20].map(|answer| (call, answer)));
        let answers: Vec<(Call, u8)> = answers.chain([(Call::Commit, 23)]).collect();
        let mut missing = self.met.missing(&answers, &[&SPACES[..], &LINES, &NESTINGS, &[AS_ASKED, OUTDATED, DAMAGED]].concat());
        if self.rescued * RESCUED < self.histories {
            missing.push(format!("a rescued space with members in one history of {RESCUED}"));
        }
        missing
    }
}
