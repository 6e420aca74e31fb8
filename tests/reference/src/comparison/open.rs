//! The open presses side by side: whole lists from none until the end, held to the press call on every press of a card, and the next
//! one after presses of every kind.

use super::*;
use crate::proved::found_press;
use crate::refusal::{FULL, PRECONDITION};
use crate::vectors::{self, Answered};

const NONE_OPEN: Case = ("open presses", "none");
const FEW_OPEN: Case = ("open presses", "1 to 10");
const MANY_OPEN: Case = ("open presses", "over 10");
const CLOSED: Case = ("open presses", "one closed by 20");
const NONE_GIVEN: Case = ("given press", "none");
const OPEN_GIVEN: Case = ("given press", "open");
const REFUSED_GIVEN: Case = ("given press", "refused by 19");
const CLOSED_GIVEN: Case = ("given press", "refused by 20");
const END: Case = ("given press", "the last or past it");
pub(super) const LONG_READ: Case = ("state", "in a long buffer");

/// What random states have to bring up and did not: every answer of the next open press, every part of 15 and of 17, lists of every
/// length, presses that 20 alone closes, given presses of every kind.
pub fn missing_of_open(met: &Met) -> Vec<String> {
    let objects = [TOO_FEW, TOO_MANY, UNKNOWN_OBJECT];
    let lists = [NONE_OPEN, FEW_OPEN, MANY_OPEN, CLOSED, LONG_READ];
    let given = [NONE_GIVEN, OPEN_GIVEN, REFUSED_GIVEN, CLOSED_GIVEN, END];
    met.missing(&every_answer(&[Call::NextOpen]), &[&MALFORMED_PARTS[..], &objects, &lists, &given].concat())
}

/// Every press of known objects, as many as roles, in the order of the open ones.
pub fn every_press(task: &Task) -> impl Iterator<Item = Press> + '_ {
    let objects = task.object_count as usize;
    task.schemas().iter().enumerate().flat_map(move |(schema, Schema { parameters, .. })| {
        let roles = u32::from(*parameters);
        (0..objects.pow(roles)).map(move |number| {
            let object = |place| (number / objects.pow(place) % objects) as u8;
            Press { schema, objects: (0..roles).rev().map(object).collect() }
        })
    })
}

/// How many they are.
fn press_count(task: &Task) -> usize {
    task.schemas().iter().map(|schema| (task.object_count as usize).pow(schema.parameters.into())).sum()
}

/// How many bindings a plain search over the roles in order tries at most. A role whose binding decides a precondition goes on with no
/// more objects than there are facts of that predicate.
fn search_size(task: &Task, facts: &[u8]) -> usize {
    let objects = task.object_count as usize;
    let facts_of = |predicate: u8| facts.chunks_exact(FACT_LEN).filter(|fact| fact[0] == predicate).count();
    let size = |schema: &Schema| {
        let (mut size, mut prefixes) = (0, 1usize);
        for role in 0..schema.parameters {
            size += prefixes * objects;
            let decided = schema.preconditions.as_slice().iter().filter(|atom| task.arguments(atom).iter().max() == Some(&role));
            prefixes *= decided.map(|atom| facts_of(atom.predicate)).min().unwrap_or(objects).min(objects);
        }
        size
    };
    task.schemas().iter().map(size).sum()
}

/// The largest plain search on a random card.
const MOST_SEARCHED: usize = 300_000;
/// The most presses of a card on which each of them is tried.
const MOST_TRIED: usize = 5_000;
/// The most open presses that are asked for on a card with more presses than are tried.
const MOST_SHOWN: usize = 100;

/// The open presses of a state, and whether these are all.
struct OpenPresses {
    presses: Vec<Press>,
    whole: bool,
}

impl Comparison<'_> {
    /// A random card's opening state, or one that is full or nearly so; its open presses, the next one after presses of every kind, and
    /// then one of the open ones pressed, and all this again. In between come malformed states and damaged cards.
    pub fn random_open(&mut self) -> Result<(), Difference> {
        let full = self.random.once_in(4);
        let (task, card, mut history) = loop {
            let task = if full { self.random.roomy_task() } else { self.random.task() };
            let card = write_unchecked(&task);
            let history = if full { self.nearly_full(&task) } else { self.opening_of_some_length(&card)? };
            if search_size(&task, history.facts()) <= MOST_SEARCHED {
                break (task, card, history);
            }
        };
        for _ in 0..self.random.within(1, 3) {
            let open = self.open_presses(&card, &task, &history)?;
            for _ in 0..self.random.within(1, 8) {
                match self.random.below(10) {
                    0 => self.open_malformed(&card, &task, &history)?,
                    1 => self.open_damaged_card(&task, &history)?,
                    _ => self.open_after(&card, &task, &history, &open)?,
                }
            }
            let Some(press) = self.random.pick(&open.presses).cloned() else { break };
            self.press(&card, &mut history, &press)?;
        }
        Ok(())
    }

    /// The stored open presses: the list, and the next one after each of the presses.
    pub fn stored_open(&mut self, stored: vectors::OpenPresses) -> Result<(), Difference> {
        let vectors::OpenPresses { card, facts, open, after } = stored;
        let tail = &self.pattern[facts.len()..STATE_LEN];
        let history = History { count: facts.len() / FACT_LEN, state: [&facts, tail].concat() };
        let shown = self.shown(&card, &history, open.len() + 1)?;
        if shown != open {
            return Err(differ(&card, &history, &shown, "the stored ones", &open));
        }
        for Answered { press, answer } in after {
            let next = self.next_open(&card, &history, Some(&press))?;
            if next != answer {
                return Err(differ_after(&card, &history, &press, &format!("both answer {next:?}, and stored is {answer:?}")));
            }
        }
        Ok(())
    }

    pub(super) fn nearly_full(&mut self, task: &Task) -> History {
        let wanted = self.random.within(MAX_STATE_FACTS - 3, MAX_STATE_FACTS);
        let (mut state, count) = self.random.allowing_state(task, wanted);
        state[count * FACT_LEN..].copy_from_slice(&self.pattern[count * FACT_LEN..STATE_LEN]);
        History { state, count }
    }

    /// Makes the call on both sides.
    fn ask_next(&mut self, card: &[u8], state: &[u8], count: usize, given: Option<&Press>) -> Result<Outcome, Difference> {
        let before = self.pattern[..Found::default().len()].to_vec();
        let outcome = self.call(card, Request::NextOpen { state, count, given }, &before)?;
        match (given, outcome.answer) {
            (None, Ok(_)) => self.met.case(NONE_GIVEN),
            (Some(_), Ok(0)) => self.met.case(END),
            _ => {}
        }
        if outcome.answer.is_ok() && state.len() > STATE_LEN {
            self.met.case(LONG_READ);
        }
        Ok(outcome)
    }

    /// The press that both sides find, or none at the end; or the refusal.
    fn next_open(&mut self, card: &[u8], history: &History, given: Option<&Press>) -> Result<Result<Option<Press>, u8>, Difference> {
        let Outcome { answer, bytes } = self.ask_next(card, &history.state, history.count, given)?;
        let found = Found::try_from(bytes.as_slice()).unwrap_or_default();
        Ok(answer.map(|objects| found_press(&found, objects)))
    }

    /// The first open presses, from none on, each time after the one answered before.
    fn shown(&mut self, card: &[u8], history: &History, most: usize) -> Result<Vec<Press>, Difference> {
        let mut shown: Vec<Press> = Vec::new();
        while shown.len() < most {
            let Ok(Some(press)) = self.next_open(card, history, shown.last())? else { break };
            shown.push(press);
        }
        Ok(shown)
    }

    /// The open presses; all of them where the card has few presses, and then these are the ones that the press call accepts.
    fn open_presses(&mut self, card: &[u8], task: &Task, history: &History) -> Result<OpenPresses, Difference> {
        let count = press_count(task);
        if count > MOST_TRIED {
            let presses = self.shown(card, history, MOST_SHOWN)?;
            return Ok(OpenPresses { whole: presses.len() < MOST_SHOWN, presses });
        }
        let presses = self.shown(card, history, count + 1)?;
        for calls in [self.left, self.right] {
            let accepted = self.accepted(calls, card, task, history);
            if presses != accepted {
                return Err(differ(card, history, &presses, "those that the press call accepts", &accepted));
            }
        }
        self.met.case(match presses.len() {
            0 => NONE_OPEN,
            1..=10 => FEW_OPEN,
            _ => MANY_OPEN,
        });
        Ok(OpenPresses { presses, whole: true })
    }

    /// The presses that one side's press call accepts, of all that there are.
    fn accepted(&mut self, calls: &dyn Calls, card: &[u8], task: &Task, history: &History) -> Vec<Press> {
        let mut state = history.state.clone();
        let accepts = |press: &Press| {
            state.copy_from_slice(&history.state);
            let answer = calls.press(card, &mut state, history.count, press.schema, &press.objects);
            if answer == Err(FULL) {
                self.met.case(CLOSED);
            }
            answer.is_ok()
        };
        every_press(task).filter(accepts).collect()
    }

    /// The next open press after a random one, which may be refused. If all open presses are known, it is the first of them past it.
    fn open_after(&mut self, card: &[u8], task: &Task, history: &History, open: &OpenPresses) -> Result<(), Difference> {
        let given = self.random.press(task, history.facts());
        let Ok(next) = self.next_open(card, history, Some(&given))? else { return Ok(()) };
        match self.right.press(card, &mut history.state.clone(), history.count, given.schema, &given.objects) {
            Ok(_) => self.met.case(OPEN_GIVEN),
            Err(PRECONDITION) => self.met.case(REFUSED_GIVEN),
            Err(FULL) => self.met.case(CLOSED_GIVEN),
            Err(_) => {}
        }
        let first = open.presses.iter().find(|&press| *press > given);
        if open.whole && next.as_ref() != first {
            return Err(differ_after(card, history, &given, &format!("both answer {next:?}, and from none on {first:?} is shown")));
        }
        Ok(())
    }

    fn open_malformed(&mut self, card: &[u8], task: &Task, history: &History) -> Result<(), Difference> {
        let given = self.some_press(task, history);
        let Malformed { state, count, part } = self.random.malformed_state(task, &history.state[..STATE_LEN], history.count);
        if self.ask_next(card, &state, count, given.as_ref())?.answer == Err(STATE) {
            self.met.case(part);
        }
        Ok(())
    }

    fn open_damaged_card(&mut self, task: &Task, history: &History) -> Result<(), Difference> {
        let refusal = self.random.within(1, 14) as u8;
        let card = self.random.refused_card(refusal);
        let given = self.some_press(task, history);
        // The card's refusal comes before the state's, also where the state is short.
        let length = if self.random.once_in(2) { STATE_LEN } else { self.random.below(STATE_LEN) };
        self.ask_next(&card, &history.state[..length], history.count, given.as_ref())?;
        Ok(())
    }

    /// A random press, or none.
    fn some_press(&mut self, task: &Task, history: &History) -> Option<Press> {
        let press = self.random.press(task, history.facts());
        (!self.random.once_in(3)).then_some(press)
    }
}

/// What was shown, and what should have been.
fn differ(card: &[u8], history: &History, shown: &[Press], others: &str, wanted: &[Press]) -> Difference {
    let call = format!("open presses from none on, {}", state_in_words(&history.state, history.count));
    let at = shown.iter().zip(wanted).take_while(|(one, other)| one == other).count();
    let fault = format!("number {at} is {:?}, and of {others} {:?}", shown.get(at), wanted.get(at));
    Difference { card: card.to_vec(), call, fault }
}

fn differ_after(card: &[u8], history: &History, given: &Press, fault: &str) -> Difference {
    let call = Request::NextOpen { state: &history.state, count: history.count, given: Some(given) }.describe(&[]);
    Difference { card: card.to_vec(), call, fault: fault.into() }
}
