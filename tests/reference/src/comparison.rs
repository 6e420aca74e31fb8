//! Two implementations side by side: the same calls on the same bytes, answers and every lent byte compared.

mod open;
mod preview;

pub use open::{every_press, missing_of_open};
pub use preview::missing_of_previews;

use crate::card::{decode, Schema, Task, OUTPUT_LEN};
use crate::crowded;
use crate::met::{every_answer, Call, Case, Met, LEFT_MEMBERS, LINES, NESTINGS, RESCUES, SPACES, TALLIES};
use crate::preview::{Changes, ChangesBytes};
use crate::proved::{Calls, Found};
use crate::random::{write_unchecked, Malformed, Random, MALFORMED_PARTS};
use crate::refusal::{BINDING, OUTPUT, SECTION, STATE};
use crate::rescue::rescues;
use crate::strips::{Press, FACT_LEN, MAX_STATE_FACTS, STATE_LEN};
use crate::vectors::to_hex;
use std::cmp::Ordering;
use std::fmt;
use std::hint::black_box;

/// The first call at which two implementations differ.
#[derive(Debug)]
pub struct Difference {
    pub card: Vec<u8>,
    pub call: String,
    pub fault: String,
}

impl fmt::Display for Difference {
    fn fmt(&self, f: &mut fmt::Formatter) -> fmt::Result {
        writeln!(f, "card {}", to_hex(&self.card))?;
        writeln!(f, "call {}", self.call)?;
        write!(f, "{}", self.fault)
    }
}

/// A call, with what it takes beside the card and the buffer.
#[derive(Clone, Copy)]
enum Request<'a> {
    Check,
    Initial,
    Rewrite,
    Section(usize),
    Press { count: usize, press: &'a Press },
    NextOpen { state: &'a [u8], count: usize, given: Option<&'a Press> },
    Preview { state: &'a [u8], count: usize, press: &'a Press },
    Commit { count: usize, changes: &'a ChangesBytes },
}

impl Request<'_> {
    fn call(&self) -> Call {
        match self {
            Request::Check => Call::Check,
            Request::Initial => Call::Initial,
            Request::Rewrite => Call::Rewrite,
            Request::Section(_) => Call::Section,
            Request::Press { .. } => Call::Press,
            Request::NextOpen { .. } => Call::NextOpen,
            Request::Preview { .. } => Call::Preview,
            Request::Commit { .. } => Call::Commit,
        }
    }

    /// The call in words, with the buffer that is lent to it.
    fn describe(&self, buffer: &[u8]) -> String {
        let length = buffer.len();
        match self {
            Request::Check => "check".into(),
            Request::Initial => format!("initial into {length} bytes"),
            Request::Rewrite => format!("rewrite into {length} bytes"),
            Request::Section(number) => format!("section {number} into {length} bytes"),
            Request::Press { count, press } => format!("press {}, {}", in_words(press), state_in_words(buffer, *count)),
            Request::NextOpen { state, count, given } => {
                let given = given.map_or("none".into(), in_words);
                format!("next open press after {given}, {}", state_in_words(state, *count))
            }
            Request::Preview { state, count, press } => format!("preview of {}, {}", in_words(press), state_in_words(state, *count)),
            Request::Commit { count, changes } => format!("commit of {}, {}", to_hex(&changes[..]), state_in_words(buffer, *count)),
        }
    }
}

fn in_words(Press { schema, objects }: &Press) -> String {
    format!("schema {schema}, objects {objects:?}")
}

fn state_in_words(state: &[u8], count: usize) -> String {
    let length = state.len();
    let facts = to_hex(&state[..length.min(count.min(MAX_STATE_FACTS) * FACT_LEN)]);
    format!("state of {length} bytes, count {count}, facts {facts}")
}

/// What stands before and behind each lent run of bytes, and has to be there afterwards.
const MARGIN: [u8; 64] = [0x5A; 64];

/// A run of bytes to lend, between its margins.
struct Lent {
    bytes: Vec<u8>,
}

impl Lent {
    fn new(bytes: &[u8]) -> Lent {
        Lent { bytes: [&MARGIN, bytes, &MARGIN].concat() }
    }

    fn lend(&mut self) -> &mut [u8] {
        let end = self.bytes.len() - MARGIN.len();
        &mut self.bytes[MARGIN.len()..end]
    }

    /// The bytes as they are now, if the margins are whole. Asked of memory: the compiler may not take a byte for unchanged.
    fn back(mut self) -> Option<Vec<u8>> {
        black_box(self.bytes.as_mut_slice());
        let whole = self.bytes.starts_with(&MARGIN) && self.bytes.ends_with(&MARGIN);
        whole.then(|| self.lend().to_vec())
    }
}

/// What one side made of a call: its answer and the buffer.
struct Outcome {
    answer: Result<usize, u8>,
    bytes: Vec<u8>,
}

/// Makes the call on copies. Says so where it altered what it may not: card, objects, a state that is only read, what is committed, bytes
/// that were not lent, anything on a refusal or at the end of the open presses.
fn outcome(calls: &dyn Calls, card: &[u8], request: Request, before: &[u8]) -> Result<Outcome, String> {
    // Beside the card: objects, and a state or what is committed.
    let (objects, read): (&[u8], &[u8]) = match request {
        Request::Press { press, .. } => (&press.objects, &[]),
        Request::NextOpen { state, given, .. } => (given.map_or(&[], |given| &given.objects), state),
        Request::Preview { state, press, .. } => (&press.objects, state),
        Request::Commit { changes, .. } => (&[], changes),
        _ => (&[], &[]),
    };
    let (mut lent_card, mut lent_objects, mut lent_read) = (Lent::new(card), Lent::new(objects), Lent::new(read));
    let mut buffer = Lent::new(before);
    let answer = match request {
        Request::Check => calls.check(lent_card.lend()).map(|()| 0),
        Request::Initial => calls.initial(lent_card.lend(), buffer.lend()),
        Request::Rewrite => calls.rewrite(lent_card.lend(), buffer.lend()),
        Request::Section(number) => calls.section(lent_card.lend(), number, buffer.lend()),
        Request::Press { count, press } => calls.press(lent_card.lend(), buffer.lend(), count, press.schema, lent_objects.lend()),
        Request::NextOpen { count, given, .. } => {
            let given = given.map(|given| (given.schema, &*lent_objects.lend()));
            let found: &mut Found = buffer.lend().try_into().map_err(|_| "needs room for a press".to_string())?;
            calls.next_open(lent_card.lend(), lent_read.lend(), count, given, found)
        }
        Request::Preview { count, press, .. } => {
            let changes: &mut ChangesBytes = buffer.lend().try_into().map_err(|_| "needs room for what a press changes".to_string())?;
            calls.preview(lent_card.lend(), lent_read.lend(), count, press.schema, lent_objects.lend(), changes)
        }
        Request::Commit { count, .. } => {
            let changes: &ChangesBytes = (&*lent_read.lend()).try_into().map_err(|_| "needs what a press changes".to_string())?;
            calls.commit(lent_card.lend(), buffer.lend(), count, changes)
        }
    };
    let read = [(lent_card, card), (lent_objects, objects), (lent_read, read)];
    if read.into_iter().any(|(lent, bytes)| lent.back().as_deref() != Some(bytes)) {
        return Err(format!("answers {answer:?} and bytes that are only read are altered"));
    }
    let bytes = buffer.back().ok_or(format!("answers {answer:?} and bytes around the buffer are altered"))?;
    let writes = answer.is_ok() && (request.call() != Call::NextOpen || answer != Ok(0));
    if !writes && bytes != before {
        return Err(format!("answers {answer:?} and the buffer is altered"));
    }
    if !request.call().answers().contains(&answer.err().unwrap_or(0)) {
        return Err(format!("answers {answer:?}, which is no answer of this call"));
    }
    Ok(Outcome { answer, bytes })
}

const SHORT_STATE: Case = ("initial", "into a short buffer");
const LONG_STATE: Case = ("initial", "into a long buffer");
const SHORT_OUTPUT: Case = ("output", "short");
const LONG_OUTPUT: Case = ("output", "long");
const NEAR_SECTION: Case = ("section number", "just past the last");
const FAR_SECTION: Case = ("section number", "far past the last");
const TOO_FEW: Case = ("objects", "too few");
const TOO_MANY: Case = ("objects", "too many");
const UNKNOWN_OBJECT: Case = ("objects", "unknown");
const LONG_PRESS: Case = ("accepted press", "in a long buffer");
const FULL_BEFORE: Case = ("accepted press", "on 1,024 facts");
const FULL_AFTER: Case = ("accepted press", "to 1,024 facts");
const LONG_COMMIT: Case = ("accepted commit", "in a long buffer");
const FULL_BEFORE_COMMIT: Case = ("accepted commit", "on 1,024 facts");
const FULL_AFTER_COMMIT: Case = ("accepted commit", "to 1,024 facts");

/// What random cards have to bring up and did not: every answer of the calls that take a card alone, every kind of space, of line and
/// of nesting, 64 conditions and a 65th from several starts, every way that a rescue goes, short and long buffers, section numbers past
/// the last.
pub fn missing_of_cards(met: &Met) -> Vec<String> {
    let calls = [Call::Check, Call::Initial, Call::Rewrite, Call::Section];
    let buffers = [SHORT_STATE, LONG_STATE, SHORT_OUTPUT, LONG_OUTPUT, NEAR_SECTION, FAR_SECTION];
    met.missing(&every_answer(&calls), &[&SPACES[..], &LINES, &NESTINGS, &TALLIES, &RESCUES, &LEFT_MEMBERS, &buffers].concat())
}

/// What random histories have to bring up and did not: every answer of a press, every part of 15 and of 17, full states, short and
/// long buffers, section numbers past the last.
pub fn missing_of_histories(met: &Met) -> Vec<String> {
    let buffers = [SHORT_STATE, LONG_STATE, SHORT_OUTPUT, LONG_OUTPUT, NEAR_SECTION, FAR_SECTION];
    let presses = [TOO_FEW, TOO_MANY, UNKNOWN_OBJECT, LONG_PRESS, FULL_BEFORE, FULL_AFTER];
    met.missing(&every_answer(&[Call::Press]), &[&MALFORMED_PARTS[..], &buffers, &presses].concat())
}

/// A card has at most 60 spaces, so that a section of a higher number is far past the last.
const MAX_SECTIONS: usize = 61;

/// The case that a call with this answer is one of.
fn case(card: &[u8], request: Request, length: usize, answer: Result<usize, u8>) -> Option<Case> {
    match (request, answer) {
        (Request::Initial, Ok(_)) if length > STATE_LEN => Some(LONG_STATE),
        (Request::Initial, Err(STATE)) => Some(SHORT_STATE),
        (Request::Rewrite | Request::Section(_), Ok(_)) if length > OUTPUT_LEN => Some(LONG_OUTPUT),
        (Request::Rewrite | Request::Section(_), Err(OUTPUT)) => Some(SHORT_OUTPUT),
        (Request::Section(number), Err(SECTION)) => Some(if number <= MAX_SECTIONS { NEAR_SECTION } else { FAR_SECTION }),
        (Request::Press { press, .. } | Request::NextOpen { given: Some(press), .. }, Err(BINDING)) => part_of_binding(card, press),
        (Request::Preview { press, .. }, Err(BINDING)) => part_of_binding(card, press),
        (Request::Commit { changes, .. }, Err(BINDING)) => part_of_binding(card, &Changes::from_bytes(changes).press),
        (Request::Press { .. }, Ok(MAX_STATE_FACTS)) => Some(FULL_AFTER),
        (Request::Press { count: MAX_STATE_FACTS, .. }, Ok(_)) => Some(FULL_BEFORE),
        (Request::Press { .. }, Ok(_)) if length > STATE_LEN => Some(LONG_PRESS),
        (Request::Commit { .. }, Ok(MAX_STATE_FACTS)) => Some(FULL_AFTER_COMMIT),
        (Request::Commit { count: MAX_STATE_FACTS, .. }, Ok(_)) => Some(FULL_BEFORE_COMMIT),
        (Request::Commit { .. }, Ok(_)) if length > STATE_LEN => Some(LONG_COMMIT),
        _ => None,
    }
}

/// Which part of 17 refuses a press.
fn part_of_binding(card: &[u8], press: &Press) -> Option<Case> {
    let roles = decode(card).ok()?.schemas().get(press.schema)?.parameters as usize;
    Some(match press.objects.len().cmp(&roles) {
        Ordering::Less => TOO_FEW,
        Ordering::Equal => UNKNOWN_OBJECT,
        Ordering::Greater => TOO_MANY,
    })
}

pub struct Comparison<'a> {
    left: &'a dyn Calls,
    right: &'a dyn Calls,
    random: Random,
    /// The bytes that stand in a buffer before it is lent.
    pattern: Vec<u8>,
    pub met: Met,
}

impl<'a> Comparison<'a> {
    pub fn new(left: &'a dyn Calls, right: &'a dyn Calls, seed: u64) -> Comparison<'a> {
        let mut random = Random::new(seed);
        let pattern = (0..OUTPUT_LEN + 100).map(|_| random.byte()).collect();
        Comparison { left, right, random, pattern, met: Met::default() }
    }

    /// Makes the call on both sides, with these bytes in the buffer that is lent to it.
    fn call(&mut self, card: &[u8], request: Request, before: &[u8]) -> Result<Outcome, Difference> {
        let differ = |fault: String| Difference { card: card.to_vec(), call: request.describe(before), fault };
        let left = outcome(self.left, card, request, before).map_err(|fault| differ(format!("the first {fault}")))?;
        let right = outcome(self.right, card, request, before).map_err(|fault| differ(format!("the second {fault}")))?;
        if left.answer != right.answer {
            return Err(differ(format!("answers {:?} and {:?}", left.answer, right.answer)));
        }
        if let Some(at) = left.bytes.iter().zip(&right.bytes).position(|(one, other)| one != other) {
            return Err(differ(format!("both answer {:?}, byte {at} is {} and {}", left.answer, left.bytes[at], right.bytes[at])));
        }
        self.met.answer(request.call(), left.answer);
        case(card, request, before.len(), left.answer).into_iter().for_each(|case| self.met.case(case));
        Ok(left)
    }

    /// The same, with the pattern in a buffer of this length.
    fn call_into(&mut self, card: &[u8], request: Request, length: usize) -> Result<Outcome, Difference> {
        let before = self.pattern[..length].to_vec();
        self.call(card, request, &before)
    }

    fn section(&mut self, card: &[u8], number: usize, length: usize) -> Result<Outcome, Difference> {
        let outcome = self.call_into(card, Request::Section(number), length)?;
        if let Ok(length) = outcome.answer {
            self.met.lines(&String::from_utf8_lossy(&outcome.bytes[..length]));
        }
        Ok(outcome)
    }

    /// The needed length, a longer one or a shorter one.
    fn buffer_length(&mut self, needed: usize) -> usize {
        match self.random.below(6) {
            0 => self.random.below(needed),
            1 => needed - 1,
            2 => needed + self.random.within(1, 100),
            _ => needed,
        }
    }

    /// A random card, whole, crowded, with hidden attributes or damaged, and all that is asked of a card alone.
    pub fn random_card(&mut self) -> Result<(), Difference> {
        let card = match self.random.below(100) {
            0 => return self.crowded_card(),
            1..=10 => write_unchecked(&self.random.hiding_task()),
            11..=69 => self.random.card(),
            70..=89 => {
                let refusal = self.random.within(1, 14) as u8;
                self.random.refused_card(refusal)
            }
            _ => self.random.wild_card(),
        };
        self.card(&card)
    }

    /// A crowded card. What both sides list of its spaces is held to the closed form too.
    fn crowded_card(&mut self) -> Result<(), Difference> {
        let starts = self.random.crowded_starts();
        let card = crowded::card(&starts);
        self.card(&card)?;
        let mut text = String::new();
        for (number, starts) in crowded::starts_of_spaces(&starts).iter().enumerate() {
            let Outcome { answer, bytes } = self.section(&card, number, OUTPUT_LEN)?;
            text += &String::from_utf8_lossy(&bytes[..answer.unwrap_or(0)]);
            self.met.tally(starts);
        }
        crowded::check(&starts, &text).map_err(|fault| Difference { card, call: "sections 0 and 1".into(), fault })
    }

    /// The calls that take a card alone, with sound, short and long buffers, and section numbers up to and past the last.
    pub fn card(&mut self, card: &[u8]) -> Result<(), Difference> {
        self.call_into(card, Request::Check, 0)?;
        let length = self.buffer_length(STATE_LEN);
        self.call_into(card, Request::Initial, length)?;
        let length = self.buffer_length(OUTPUT_LEN);
        self.call_into(card, Request::Rewrite, length)?;

        let mut number = 0;
        let mut any_mixed = false;
        while let Outcome { answer: Ok(length), bytes } = self.section(card, number, OUTPUT_LEN)? {
            any_mixed |= bytes[..length].starts_with(format!("S {number} M").as_bytes());
            number += 1;
        }
        if let (true, Ok(task)) = (any_mixed, decode(card)) {
            rescues(&task).iter().for_each(|(mixed, rescue)| self.met.rescue(mixed, rescue));
        }
        self.wild_section(card, number)
    }

    /// A section past the last, and any section with any buffer.
    fn wild_section(&mut self, card: &[u8], sections: usize) -> Result<(), Difference> {
        let past = *self.random.pick(&[sections, sections + 1, 255, 256, 65_536, usize::MAX]).unwrap_or(&sections);
        self.section(card, past, OUTPUT_LEN)?;
        let (any, length) = (self.random.below(sections + 2), self.buffer_length(OUTPUT_LEN));
        self.section(card, any, length)?;
        Ok(())
    }

    /// A random card's opening call and then presses, each on the state that the call before left. In between come calls that
    /// leave the history alone: presses on malformed and on full states and with damaged cards, the opening call, sections.
    pub fn random_history(&mut self) -> Result<(), Difference> {
        let task = if self.random.once_in(8) { self.random.roomy_task() } else { self.random.task() };
        let card = write_unchecked(&task);
        let mut history = self.opening_of_some_length(&card)?;
        for _ in 0..self.random.below(30) {
            let (state, count) = (&history.state, history.count);
            match self.random.below(20) {
                0 | 1 => self.press_malformed(&card, &task, state, count)?,
                2 | 3 => self.press_full()?,
                4 | 5 => self.press_damaged_card(&task, state, count)?,
                6 => {
                    let length = self.buffer_length(STATE_LEN);
                    self.call_into(&card, Request::Initial, length)?;
                }
                7 => {
                    let sections = self.random.below(MAX_SECTIONS);
                    self.wild_section(&card, sections)?;
                }
                _ => {
                    let press = self.random.press(&task, history.facts());
                    self.press(&card, &mut history, &press)?;
                }
            }
        }
        Ok(())
    }

    /// The opening state in a buffer that may be longer than it needs to be.
    fn opening_of_some_length(&mut self, card: &[u8]) -> Result<History, Difference> {
        let length = STATE_LEN + if self.random.once_in(4) { self.random.within(1, 100) } else { 0 };
        self.opening(card, length)
    }

    fn opening(&mut self, card: &[u8], length: usize) -> Result<History, Difference> {
        let Outcome { answer, bytes } = self.call_into(card, Request::Initial, length)?;
        let fault =
            |refusal| Difference { card: card.to_vec(), call: "initial".into(), fault: format!("an accepted card answers {refusal}") };
        Ok(History { state: bytes, count: answer.map_err(fault)? })
    }

    /// A press of the history. A refused one leaves state and count as they were.
    fn press(&mut self, card: &[u8], history: &mut History, press: &Press) -> Result<(), Difference> {
        let Outcome { answer, bytes } = self.call(card, Request::Press { count: history.count, press }, &history.state)?;
        history.state = bytes;
        history.count = answer.unwrap_or(history.count);
        Ok(())
    }

    fn press_malformed(&mut self, card: &[u8], task: &Task, state: &[u8], count: usize) -> Result<(), Difference> {
        let press = self.random.press(task, &state[..count * FACT_LEN]);
        let Malformed { state, count, part } = self.random.malformed_state(task, &state[..STATE_LEN], count);
        let outcome = self.call(card, Request::Press { count, press: &press }, &state)?;
        if outcome.answer == Err(STATE) {
            self.met.case(part);
        }
        Ok(())
    }

    /// A press on a state that is full or nearly so.
    fn press_full(&mut self) -> Result<(), Difference> {
        let task = self.random.roomy_task();
        let wanted = self.random.within(MAX_STATE_FACTS - 3, MAX_STATE_FACTS);
        let (mut state, count) = self.random.state(&task, wanted);
        // Bytes past the count are not looked at, and an accepted press leaves 0 there.
        state[count * FACT_LEN..].copy_from_slice(&self.pattern[count * FACT_LEN..STATE_LEN]);
        let press = self.random.press(&task, &state[..count * FACT_LEN]);
        self.call(&write_unchecked(&task), Request::Press { count, press: &press }, &state)?;
        Ok(())
    }

    fn press_damaged_card(&mut self, task: &Task, state: &[u8], count: usize) -> Result<(), Difference> {
        let refusal = self.random.within(1, 14) as u8;
        let card = self.random.refused_card(refusal);
        let press = self.random.press(task, &state[..count * FACT_LEN]);
        // The card's refusal comes before the state's, also where the state is short.
        let length = if self.random.once_in(2) { STATE_LEN } else { self.random.below(STATE_LEN) };
        self.call(&card, Request::Press { count, press: &press }, &state[..length])?;
        Ok(())
    }

    /// A stored history: its calls on both sides.
    pub fn history(&mut self, card: &[u8], presses: impl Iterator<Item = Press>) -> Result<(), Difference> {
        let mut history = self.opening(card, STATE_LEN)?;
        for press in presses {
            self.press(card, &mut history, &press)?;
        }
        Ok(())
    }
}

/// A state as the call before left it, and the count last answered.
#[derive(Clone)]
struct History {
    state: Vec<u8>,
    count: usize,
}

impl History {
    fn facts(&self) -> &[u8] {
        &self.state[..self.count * FACT_LEN]
    }
}
