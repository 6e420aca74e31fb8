//! What a run has met: how often each call gave each answer, and how often each named case came up,
//! so that a run which left something out is told from one that passed.

use crate::crowded::{conditions, start_of_65th, Condition, MOST_CONDITIONS};
use crate::rescue::{End, Rescue};
use crate::tim::Space;
use std::collections::{BTreeMap, BTreeSet};
use std::fmt;

/// The calls that both implementations have. `Encode` is the card writer on a table, which no call of the C interface is.
#[derive(Clone, Copy, Debug, PartialEq, Eq, PartialOrd, Ord)]
pub enum Call {
    Check,
    Initial,
    Rewrite,
    Section,
    Press,
    NextOpen,
    Preview,
    Commit,
    Encode,
}

impl Call {
    /// The answers that the documents give this call: 0 for an accepted call, and the numbers of its refusals.
    pub fn answers(self) -> Vec<u8> {
        let (last, more): (u8, &[u8]) = match self {
            Call::Encode => return [0].into_iter().chain(2..=13).chain([21]).collect(),
            Call::Check => (14, &[]),
            Call::Initial => (15, &[]),
            Call::Rewrite => (14, &[21]),
            Call::Section => (14, &[21, 22]),
            Call::Press => (20, &[]),
            Call::NextOpen => (18, &[]),
            Call::Preview => (20, &[]),
            Call::Commit => (20, &[23]),
        };
        (0..=last).chain(more.iter().copied()).collect()
    }

    fn name(self) -> &'static str {
        match self {
            Call::Check => "check",
            Call::Initial => "initial",
            Call::Rewrite => "rewrite",
            Call::Section => "section",
            Call::Press => "press",
            Call::NextOpen => "next open",
            Call::Preview => "preview",
            Call::Commit => "commit",
            Call::Encode => "encode",
        }
    }
}

/// Every answer of these calls.
pub fn every_answer(calls: &[Call]) -> Vec<(Call, u8)> {
    calls.iter().flat_map(|&call| call.answers().into_iter().map(move |answer| (call, answer))).collect()
}

/// A group of cases and the name of one of them.
pub type Case = (&'static str, &'static str);

pub const SPACES: [Case; 6] = [("space", "S"), ("space", "A"), ("space", "P"), ("space", "M"), ("space", "W"), ("space", "H")];

pub const LINES: [Case; 9] =
    [("line", "S"), ("line", "T"), ("line", "M"), ("line", "D"), ("line", "X"), ("line", "E"), ("line", "F"), ("line", "C"), ("line", "R")];

/// What the `E` lines of a space are like.
pub const NESTINGS: [Case; 5] = [ALONE, BESIDE_X, ABOVE, BELOW, CHAIN];

const ALONE: Case = ("nesting", "without X");
const BESIDE_X: Case = ("nesting", "beside X");
const ABOVE: Case = ("nesting", "i above j");
/// The two were first met from different starts: a result that contains an earlier condition of its own list makes the space mixed.
const BELOW: Case = ("nesting", "i below j");
const CHAIN: Case = ("nesting", "i in j in k");

/// The number of conditions that several starts of a crowded card's space come to.
pub const TALLIES: [Case; 2] = [FULL, OVER];

const FULL: Case = ("tally", "64 conditions from several starts");
/// The starts come to exactly 65 conditions, and the search that meets the last of them is not that of the first start.
const OVER: Case = ("tally", "a 65th condition from a later start");

/// How the rescue of a mixed space goes.
pub const RESCUES: [Case; 10] =
    [ONE_ROUND, TWO_ROUNDS, THREE_ROUNDS, ONE_SIDED, NO_PROPERTY, WIDE, LATER_ONE_SIDED, LATER_NO_PROPERTY, LATER_WIDE, FEWER_RULES];

const ONE_ROUND: Case = ("rescue", "listed after one round");
const TWO_ROUNDS: Case = ("rescue", "listed after two rounds");
const THREE_ROUNDS: Case = ("rescue", "listed after three rounds");
const MORE_ROUNDS: Case = ("rescue", "listed after more rounds");
const ONE_SIDED: Case = ("rescue", "given up for a rule with one side");
const NO_PROPERTY: Case = ("rescue", "given up for want of a property");
const WIDE: Case = ("rescue", "wide");
const LATER_ONE_SIDED: Case = ("rescue", "given up for a rule with one side in a later round");
const LATER_NO_PROPERTY: Case = ("rescue", "given up for want of a property in a later round");
const LATER_WIDE: Case = ("rescue", "wide in a later round");
const FEWER_RULES: Case = ("rescue", "listed with fewer rules");

/// The members that a rescue leaves.
pub const LEFT_MEMBERS: [Case; 3] = [ALL_MEMBERS, FEWER_MEMBERS, NO_MEMBER];

const ALL_MEMBERS: Case = ("members of a rescue", "all");
const FEWER_MEMBERS: Case = ("members of a rescue", "some");
const NO_MEMBER: Case = ("members of a rescue", "none");

#[derive(Clone, Debug, Default)]
pub struct Met {
    answers: BTreeMap<(Call, u8), usize>,
    cases: BTreeMap<Case, usize>,
}

impl Met {
    pub fn answer(&mut self, call: Call, answer: Result<usize, u8>) {
        *self.answers.entry((call, answer.err().unwrap_or(0))).or_default() += 1;
    }

    pub fn case(&mut self, case: Case) {
        *self.cases.entry(case).or_default() += 1;
    }

    /// The lines of a listing, or of one section, by their letters; its spaces by their kinds and by what is nested in them.
    pub fn lines(&mut self, text: &str) {
        let lines: Vec<&str> = text.lines().collect();
        for line in &lines {
            let mut words = line.split(' ');
            let (letter, kind) = (words.next(), words.nth(1));
            LINES.into_iter().filter(|line| Some(line.1) == letter).for_each(|line| self.case(line));
            if letter == Some("S") {
                SPACES.into_iter().filter(|space| Some(space.1) == kind).for_each(|space| self.case(space));
            }
        }
        for space in lines.chunk_by(|_, next| !next.starts_with("S ")) {
            nestings(space).for_each(|case| self.case(case));
        }
    }

    /// A space of a crowded card, by its starts.
    pub fn tally(&mut self, starts: &[Condition]) {
        let number = conditions(starts).len();
        if number == MOST_CONDITIONS && starts.len() > 1 {
            self.case(FULL);
        }
        if number == MOST_CONDITIONS + 1 && start_of_65th(starts) > Some(0) {
            self.case(OVER);
        }
    }

    /// The rescue of a mixed space.
    pub fn rescue(&mut self, mixed: &Space, Rescue { rounds, end }: &Rescue) {
        self.case(match (end, rounds) {
            (End::Listed(..), 1) => ONE_ROUND,
            (End::Listed(..), 2) => TWO_ROUNDS,
            (End::Listed(..), 3) => THREE_ROUNDS,
            (End::Listed(..), _) => MORE_ROUNDS,
            (End::OneSided, 1) => ONE_SIDED,
            (End::OneSided, _) => LATER_ONE_SIDED,
            (End::NoProperty, 1) => NO_PROPERTY,
            (End::NoProperty, _) => LATER_NO_PROPERTY,
            (End::Wide, 1) => WIDE,
            (End::Wide, _) => LATER_WIDE,
        });
        let End::Listed(left, _) = end else { return };
        if left.transitions.len() < mixed.transitions.len() {
            self.case(FEWER_RULES);
        }
        self.case(match left.members {
            0 => NO_MEMBER,
            members if members == mixed.members => ALL_MEMBERS,
            _ => FEWER_MEMBERS,
        });
    }

    pub fn calls(&self) -> usize {
        self.answers.values().sum()
    }

    /// What never came up of these answers and cases.
    pub fn missing(&self, answers: &[(Call, u8)], cases: &[Case]) -> Vec<String> {
        let answers =
            answers.iter().filter(|&key| !self.answers.contains_key(key)).map(|(call, answer)| format!("{} {answer}", call.name()));
        let cases = cases.iter().filter(|&case| !self.cases.contains_key(case)).map(|(group, name)| format!("{group} {name}"));
        answers.chain(cases).collect()
    }
}

/// The cases that the lines of one space are.
fn nestings(lines: &[&str]) -> impl Iterator<Item = Case> {
    let pair = |line: &&str| {
        let (inner, outer) = line.strip_prefix("E ")?.split_once(' ')?;
        Some((inner.parse().ok()?, outer.parse().ok()?))
    };
    let pairs: Vec<(usize, usize)> = lines.iter().filter_map(pair).collect();
    let inner: BTreeSet<usize> = pairs.iter().map(|pair| pair.0).collect();
    let excludes = lines.iter().any(|line| line.starts_with("X "));
    let met = [
        (ALONE, !pairs.is_empty() && !excludes),
        (BESIDE_X, !pairs.is_empty() && excludes),
        (ABOVE, pairs.iter().any(|(inner, outer)| inner > outer)),
        (BELOW, pairs.iter().any(|(inner, outer)| inner < outer)),
        (CHAIN, pairs.iter().any(|(_, outer)| inner.contains(outer))),
    ];
    met.into_iter().filter(|(_, met)| *met).map(|(case, _)| case)
}

/// A line for each call and for each group of cases.
impl fmt::Display for Met {
    fn fmt(&self, f: &mut fmt::Formatter) -> fmt::Result {
        let accepted = |answer: u8| if answer == 0 { "accepted".to_string() } else { answer.to_string() };
        let answers = self.answers.iter().map(|(&(call, answer), times)| (call.name(), accepted(answer), times));
        let cases = self.cases.iter().map(|(&(group, name), times)| (group, name.to_string(), times));
        let mut before = None;
        for (group, name, times) in answers.chain(cases) {
            match before {
                Some(same) if same == group => write!(f, ", ")?,
                Some(_) => write!(f, "\n  {group}: ")?,
                None => write!(f, "  {group}: ")?,
            }
            write!(f, "{name} {times}")?;
            before = Some(group);
        }
        Ok(())
    }
}
