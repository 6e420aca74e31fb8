//! Asking and committing side by side. Both sides' press calls say what has to come of each: what a press would answer and change is what
//! it does answer and change on a copy.

use super::open::LONG_READ;
use super::*;
use crate::card::{Atoms, MAX_ATOMS};
use crate::preview::CHANGES_LEN;
use crate::random::{Damaged, DAMAGED_LISTS, DAMAGED_PRESS, UNUSED};
use crate::refusal::{CHANGES_DIFFER, FULL, PRECONDITION};
use crate::strips::{facts_in, ground, Fact};
use crate::vectors::{Answered, Asks};
use std::collections::BTreeSet;

const NOTHING: Case = ("a press changes", "nothing");
const GOING_ALONE: Case = ("a press changes", "going facts alone");
const COMING_ALONE: Case = ("a press changes", "coming facts alone");
const BOTH: Case = ("a press changes", "going and coming facts");
const EIGHT_GO: Case = ("a press changes", "8 going facts");
const EIGHT_COME: Case = ("a press changes", "8 coming facts");
const ADD_STANDS: Case = ("asked about", "an add that stands");
const DELETES_TURNED: Case = ("asked about", "deletes in another order than their facts");
const ADDS_TURNED: Case = ("asked about", "adds in another order than their facts");
const OUTDATED_ACCEPTED: Case = ("outdated", "accepted");
const OUTDATED_19: Case = ("outdated", "19");
const OUTDATED_20: Case = ("outdated", "20");
const OUTDATED_23: Case = ("outdated", "23");
const DAMAGED_19: Case = ("damaged lists", "19");
const DAMAGED_20: Case = ("damaged lists", "20");

/// What random states have to bring up and did not: every answer of asking and of committing, every part of 15 and of 17, lists of every
/// length and order, what was asked committed in another state, and damage to each of its parts.
pub fn missing_of_previews(met: &Met) -> Vec<String> {
    let objects = [TOO_FEW, TOO_MANY, UNKNOWN_OBJECT];
    let lists = [NOTHING, GOING_ALONE, COMING_ALONE, BOTH, EIGHT_GO, EIGHT_COME, ADD_STANDS, DELETES_TURNED, ADDS_TURNED];
    let states = [LONG_READ, LONG_COMMIT, FULL_BEFORE_COMMIT, FULL_AFTER_COMMIT];
    let outdated = [OUTDATED_ACCEPTED, OUTDATED_19, OUTDATED_20, OUTDATED_23];
    let damaged = [&DAMAGED_PRESS[..], &DAMAGED_LISTS, &[UNUSED, DAMAGED_19, DAMAGED_20]].concat();
    let cases = [&MALFORMED_PARTS[..], &objects, &lists, &states, &outdated, &damaged].concat();
    met.missing(&every_answer(&[Call::Preview, Call::Commit]), &cases)
}

impl Comparison<'_> {
    /// A random card's opening state, or one that is full or nearly so, and then calls of both kinds: what is asked is committed as it is
    /// and damaged, in the same state, in others and after more presses. In between come malformed states and damaged cards.
    pub fn random_preview(&mut self) -> Result<(), Difference> {
        let full = self.random.once_in(3);
        let task = match self.random.below(8) {
            _ if full => self.random.roomy_task(),
            0 => self.random.full_lists_task(),
            _ => self.random.task(),
        };
        let card = write_unchecked(&task);
        let mut history = if full { self.nearly_full(&task) } else { self.opening_of_some_length(&card)? };
        // What was asked so far; at first nothing at all, of the first schema and no objects.
        let mut asked = vec![[0; CHANGES_LEN]];
        for _ in 0..self.random.within(1, 8) {
            match self.random.below(12) {
                0 => self.preview_malformed(&card, &task, &history)?,
                1 => self.preview_damaged_card(&task, &history)?,
                2 => self.commit_malformed(&card, &task, &history, &asked)?,
                3 => self.commit_damaged_card(&task, &history, &asked)?,
                4 => {
                    let earlier = *self.random.pick(&asked).unwrap_or(&asked[0]);
                    self.commit_outdated(&card, &task, &mut history, &earlier)?;
                }
                _ => {
                    let press = self.random.press(&task, history.facts());
                    if let Ok(changes) = self.preview(&card, &task, &history, &press)? {
                        self.commit_in_many_ways(&card, &task, &mut history, &changes)?;
                        asked.push(changes);
                    }
                }
            }
        }
        Ok(())
    }

    /// The stored asks, each committed straight after.
    pub fn stored_asks(&mut self, stored: Asks) -> Result<(), Difference> {
        let Asks { card, facts, asks } = stored;
        let Ok(task) = decode(&card) else {
            return Err(Difference { card, call: "none".into(), fault: "the card of stored asks is refused".into() });
        };
        let tail = &self.pattern[facts.len()..STATE_LEN];
        let history = History { count: facts.len() / FACT_LEN, state: [&facts, tail].concat() };
        for Answered { press, answer } in asks {
            let changes = self.preview(&card, &task, &history, &press)?;
            let both = changes.map(|changes| Changes::from_bytes(&changes));
            if both != answer {
                let request = Request::Preview { state: &history.state, count: history.count, press: &press };
                return Err(fault(&card, request, &history.state, format!("both answer {both:?}, and stored is {answer:?}")));
            }
            if let Ok(changes) = changes {
                self.commit(&card, &history, &changes)?;
            }
        }
        Ok(())
    }

    /// Asks on both sides. The answer is the one that the press has on a copy, and what is given is the difference between the two states.
    fn preview(&mut self, card: &[u8], task: &Task, history: &History, press: &Press) -> Result<Result<ChangesBytes, u8>, Difference> {
        let before = self.pattern[..CHANGES_LEN].to_vec();
        let request = Request::Preview { state: &history.state, count: history.count, press };
        let Outcome { answer, bytes } = self.call(card, request, &before)?;
        for calls in [self.left, self.right] {
            let pressed = Pressed::new(calls, card, history, press);
            if answer != pressed.answer {
                return Err(fault(card, request, &before, format!("both answer {answer:?}, and the press {:?}", pressed.answer)));
            }
            if let (Ok(_), [going, coming]) = (answer, pressed.changes) {
                let changes = Changes { press: press.clone(), going, coming };
                if changes.to_bytes() != *bytes {
                    return Err(fault(card, request, &before, format!("both give {}, and the press does {changes:?}", to_hex(&bytes))));
                }
            }
        }
        let given = answer.and_then(|_| ChangesBytes::try_from(bytes).map_err(|_| 0));
        if let Ok(changes) = &given {
            self.meet_lists(task, history, &Changes::from_bytes(changes));
        }
        Ok(given)
    }

    /// Commits on both sides. What comes of it is what the carried press does on a copy, if it takes out and puts in what is listed.
    fn commit(&mut self, card: &[u8], history: &History, changes: &ChangesBytes) -> Result<Outcome, Difference> {
        let request = Request::Commit { count: history.count, changes };
        let outcome = self.call(card, request, &history.state)?;
        let Changes { press, going, coming } = Changes::from_bytes(changes);
        let lists = [going, coming];
        for calls in [self.left, self.right] {
            let pressed = Pressed::new(calls, card, history, &press);
            let wanted = match pressed.answer {
                Ok(_) if pressed.changes != lists => Outcome { answer: Err(CHANGES_DIFFER), bytes: history.state.clone() },
                answer => Outcome { answer, bytes: pressed.state },
            };
            if outcome.answer != wanted.answer {
                let both = format!("both answer {:?}, and by the press it is {:?}", outcome.answer, wanted.answer);
                return Err(fault(card, request, &history.state, both));
            }
            if outcome.bytes != wanted.bytes {
                return Err(fault(card, request, &history.state, "the state is another than after the press".into()));
            }
        }
        Ok(outcome)
    }

    /// Commits what was just asked: with damage, in other states, and then as it is, which is the next call of the history.
    fn commit_in_many_ways(&mut self, card: &[u8], task: &Task, history: &mut History, changes: &ChangesBytes) -> Result<(), Difference> {
        for _ in 0..self.random.within(1, 4) {
            let Damaged { changes, part } = self.random.damaged(task, history.facts(), changes);
            self.commit(card, history, &changes)?;
            self.met.case(part);
        }
        for _ in 0..self.random.within(0, 2) {
            let mut other = self.other_state(task, history, changes);
            self.commit_outdated(card, task, &mut other, changes)?;
        }
        for _ in 0..2 {
            if let Some(mut filled) = self.filled(task, history) {
                self.commit_outdated(card, task, &mut filled, changes)?;
            }
        }
        let Outcome { answer, bytes } = self.commit(card, history, changes)?;
        *history = History { state: bytes, count: answer.unwrap_or(history.count) };
        Ok(())
    }

    /// Commits in this state what was asked in another one, now and then with damage.
    fn commit_outdated(&mut self, card: &[u8], task: &Task, history: &mut History, asked: &ChangesBytes) -> Result<(), Difference> {
        if self.random.once_in(2) {
            let Damaged { changes, part } = self.random.damaged(task, history.facts(), asked);
            let outcome = self.commit(card, history, &changes)?;
            match outcome.answer {
                Err(PRECONDITION) if DAMAGED_LISTS.contains(&part) => self.met.case(DAMAGED_19),
                Err(FULL) if DAMAGED_LISTS.contains(&part) => self.met.case(DAMAGED_20),
                _ => {}
            }
            return Ok(());
        }
        let Outcome { answer, bytes } = self.commit(card, history, asked)?;
        match answer {
            Ok(_) => self.met.case(OUTDATED_ACCEPTED),
            Err(PRECONDITION) => self.met.case(OUTDATED_19),
            Err(FULL) => self.met.case(OUTDATED_20),
            Err(CHANGES_DIFFER) => self.met.case(OUTDATED_23),
            Err(_) => {}
        }
        *history = History { state: bytes, count: answer.unwrap_or(history.count) };
        Ok(())
    }

    /// The state with a few facts more or less: one of those that would go, one of those that would come, or others.
    fn other_state(&mut self, task: &Task, history: &History, changes: &ChangesBytes) -> History {
        let mut facts: BTreeSet<Fact> = facts_in(history.facts()).iter().copied().collect();
        let Changes { going, coming, .. } = Changes::from_bytes(changes);
        let standing: Vec<Fact> = facts.iter().copied().collect();
        match self.random.below(4) {
            0 => facts.extend(self.random.pick(&coming)),
            1 => {
                let gone = self.random.pick(&going).or(self.random.pick(&standing));
                gone.map(|fact| facts.remove(fact));
            }
            2 => facts.extend([self.random.fact(task), self.random.fact(task)]),
            _ => {
                self.random.pick(&standing).map(|fact| facts.remove(fact));
                facts.insert(self.random.fact(task));
            }
        }
        with_facts(history, facts)
    }

    /// The state filled up with other facts, if it is nearly full.
    fn filled(&mut self, task: &Task, history: &History) -> Option<History> {
        if history.count + 10 < MAX_STATE_FACTS {
            return None;
        }
        let mut facts: BTreeSet<Fact> = facts_in(history.facts()).iter().copied().collect();
        // The card may have no more facts than these.
        for _ in 0..100 {
            facts.insert(self.random.fact(task));
        }
        Some(with_facts(history, facts)).filter(|filled| filled.count == MAX_STATE_FACTS)
    }

    fn preview_malformed(&mut self, card: &[u8], task: &Task, history: &History) -> Result<(), Difference> {
        let press = self.random.press(task, history.facts());
        let Malformed { state, count, part } = self.random.malformed_state(task, &history.state[..STATE_LEN], history.count);
        if self.preview(card, task, &History { state, count }, &press)? == Err(STATE) {
            self.met.case(part);
        }
        Ok(())
    }

    fn preview_damaged_card(&mut self, task: &Task, history: &History) -> Result<(), Difference> {
        let press = self.random.press(task, history.facts());
        let (card, history) = self.refused_card_beside(history);
        let _refused = self.preview(&card, task, &history, &press)?;
        Ok(())
    }

    fn commit_malformed(&mut self, card: &[u8], task: &Task, history: &History, asked: &[ChangesBytes]) -> Result<(), Difference> {
        let changes = *self.random.pick(asked).unwrap_or(&asked[0]);
        let Malformed { state, count, .. } = self.random.malformed_state(task, &history.state[..STATE_LEN], history.count);
        self.commit(card, &History { state, count }, &changes)?;
        Ok(())
    }

    fn commit_damaged_card(&mut self, task: &Task, history: &History, asked: &[ChangesBytes]) -> Result<(), Difference> {
        let changes = *self.random.pick(asked).unwrap_or(&asked[0]);
        let Damaged { changes, .. } = self.random.damaged(task, history.facts(), &changes);
        let (card, history) = self.refused_card_beside(history);
        self.commit(&card, &history, &changes)?;
        Ok(())
    }

    /// A card that is refused. Its refusal comes before the state's, also where the state is short.
    fn refused_card_beside(&mut self, history: &History) -> (Vec<u8>, History) {
        let refusal = self.random.within(1, 14) as u8;
        let card = self.random.refused_card(refusal);
        let length = if self.random.once_in(2) { STATE_LEN } else { self.random.below(STATE_LEN) };
        (card, History { state: history.state[..length].to_vec(), count: history.count })
    }

    /// What is particular about a press that was accepted.
    fn meet_lists(&mut self, task: &Task, history: &History, changes: &Changes) {
        let Changes { press, going, coming } = changes;
        self.met.case(match (going.len(), coming.len()) {
            (0, 0) => NOTHING,
            (_, 0) => GOING_ALONE,
            (0, _) => COMING_ALONE,
            _ => BOTH,
        });
        let Schema { deletes, adds, .. } = &task.schemas()[press.schema];
        // The listed facts in the order of the schema's atoms.
        let as_atoms = |atoms: &Atoms, list: &[Fact]| -> Vec<Fact> {
            let bind = |atom| ground(task, atom, |parameter| press.objects[parameter as usize]);
            atoms.as_slice().iter().map(bind).filter(|fact| list.contains(fact)).collect()
        };
        for (case, met) in [
            (EIGHT_GO, going.len() == MAX_ATOMS),
            (EIGHT_COME, coming.len() == MAX_ATOMS),
            (ADD_STANDS, adds.as_slice().len() > coming.len()),
            (DELETES_TURNED, as_atoms(deletes, going) != *going),
            (ADDS_TURNED, as_atoms(adds, coming) != *coming),
            (LONG_READ, history.state.len() > STATE_LEN),
        ] {
            if met {
                self.met.case(case);
            }
        }
    }
}

/// What one side's press call makes of a copy of a state: its answer, the state then, and the facts that went and that came.
struct Pressed {
    answer: Result<usize, u8>,
    state: Vec<u8>,
    changes: [Vec<Fact>; 2],
}

impl Pressed {
    fn new(calls: &dyn Calls, card: &[u8], history: &History, press: &Press) -> Pressed {
        let mut state = history.state.clone();
        let answer = calls.press(card, &mut state, history.count, press.schema, &press.objects);
        let changes = match answer {
            Ok(count) => {
                let (before, after) = (facts_in(history.facts()), facts_in(&state[..count * FACT_LEN]));
                [(before, after), (after, before)].map(|(some, others)| only_in(some, others))
            }
            Err(_) => [Vec::new(), Vec::new()],
        };
        Pressed { answer, state, changes }
    }
}

/// Those of some ascending facts that are not among others, in their order.
fn only_in(some: &[Fact], others: &[Fact]) -> Vec<Fact> {
    some.iter().filter(|fact| others.binary_search(fact).is_err()).copied().collect()
}

/// A buffer with these facts in the place of its own, as many as it holds.
fn with_facts(history: &History, facts: BTreeSet<Fact>) -> History {
    let facts: Vec<Fact> = facts.into_iter().take(MAX_STATE_FACTS).collect();
    let mut state = history.state.clone();
    state[..facts.len() * FACT_LEN].copy_from_slice(facts.as_flattened());
    History { state, count: facts.len() }
}

fn fault(card: &[u8], request: Request, before: &[u8], fault: String) -> Difference {
    Difference { card: card.to_vec(), call: request.describe(before), fault }
}
