//! The comparison passes two equal implementations and finds a fault in each part of a faulty one.

use reference::comparison::{missing_of_cards, missing_of_histories, missing_of_open, missing_of_previews, Comparison};
use reference::met::{Call, Met, NESTINGS, TALLIES};
use reference::open::Given;
use reference::preview::{Changes, ChangesBytes, CHANGES_LEN, COMING_AT, GOING_AT};
use reference::proved::{Calls, Found, Reference};
use reference::strips::{FACT_LEN, STATE_LEN};
use std::hint::black_box;
use std::mem::swap;

/// The reference with one fault put in.
#[derive(Clone, Copy, Debug)]
enum Fault {
    AcceptsTrailingBytes,
    RewritesOneByte,
    WritesPastTheCard,
    SkipsSameObject,
    LeavesTheTail,
    AltersOnRefusal,
    WrongBag,
    WrongMember,
    TurnsNestingsRound,
    SortsNestingsByOuter,
    IsWideAt64,
    LeavesOutTheRescue,
    RescuesAsP,
    WrongClosing,
    RefusesShortBufferFirst,
    AnswersAnothersRefusal,
    AnswersTheGivenAgain,
    LeavesOneOut,
    EndsWithTheSchema,
    RefusesAGivenOneThatIsNotOpen,
    ChecksTheGivenBeforeTheState,
    WritesAtTheEnd,
    LeavesPlacesPastTheObjects,
    AsksInAFullState,
    AskingAnswersTheCountBefore,
    AskingClearsTheTail,
    AskingWritesBesideARefusal,
    AskingLeavesUnusedPlaces,
    CommitsWhateverIsListed,
    ComparesWhatGoesAlone,
    ComparesUnusedPlaces,
    ComparesBeforeItIsFull,
    RefusesUnknownRowsBy15,
    TakesOver8RowsForNone,
    RefusesOver6ObjectsFirst,
    CommitWritesBeforeItCompares,
    CommitLeavesTheTail,
}

const FAULTS: [Fault; 37] = [
    Fault::AcceptsTrailingBytes,
    Fault::RewritesOneByte,
    Fault::WritesPastTheCard,
    Fault::SkipsSameObject,
    Fault::LeavesTheTail,
    Fault::AltersOnRefusal,
    Fault::WrongBag,
    Fault::WrongMember,
    Fault::TurnsNestingsRound,
    Fault::SortsNestingsByOuter,
    Fault::IsWideAt64,
    Fault::LeavesOutTheRescue,
    Fault::RescuesAsP,
    Fault::WrongClosing,
    Fault::RefusesShortBufferFirst,
    Fault::AnswersAnothersRefusal,
    Fault::AnswersTheGivenAgain,
    Fault::LeavesOneOut,
    Fault::EndsWithTheSchema,
    Fault::RefusesAGivenOneThatIsNotOpen,
    Fault::ChecksTheGivenBeforeTheState,
    Fault::WritesAtTheEnd,
    Fault::LeavesPlacesPastTheObjects,
    Fault::AsksInAFullState,
    Fault::AskingAnswersTheCountBefore,
    Fault::AskingClearsTheTail,
    Fault::AskingWritesBesideARefusal,
    Fault::AskingLeavesUnusedPlaces,
    Fault::CommitsWhateverIsListed,
    Fault::ComparesWhatGoesAlone,
    Fault::ComparesUnusedPlaces,
    Fault::ComparesBeforeItIsFull,
    Fault::RefusesUnknownRowsBy15,
    Fault::TakesOver8RowsForNone,
    Fault::RefusesOver6ObjectsFirst,
    Fault::CommitWritesBeforeItCompares,
    Fault::CommitLeavesTheTail,
];

/// Writes the `E` lines of a section anew, with their pairs changed; they are its last lines.
fn change_nestings(out: &mut [u8], text: &str, change: fn(&mut Vec<(usize, usize)>)) {
    let Some(at) = text.find("\nE ").map(|at| at + 1) else { return };
    let mut pairs = Vec::new();
    for line in text[at..].lines() {
        let (inner, outer) = line[2..].split_once(' ').unwrap();
        pairs.push((inner.parse().unwrap(), outer.parse().unwrap()));
    }
    change(&mut pairs);
    let changed: String = pairs.iter().map(|(inner, outer)| format!("E {inner} {outer}\n")).collect();
    out[at..text.len()].copy_from_slice(changed.as_bytes());
}

/// Clears bytes that were lent to be read, as code on the other side of the C interface could.
fn clear(bytes: &[u8]) {
    let start = black_box(bytes.as_ptr()).cast_mut();
    unsafe { start.write_bytes(0, bytes.len()) };
}

struct Faulty(Fault);

impl Calls for Faulty {
    fn check(&self, card: &[u8]) -> Result<(), u8> {
        match (self.0, Reference.check(card)) {
            (Fault::AcceptsTrailingBytes, Err(14)) => Ok(()),
            (_, answer) => answer,
        }
    }

    fn initial(&self, card: &[u8], state: &mut [u8]) -> Result<usize, u8> {
        Reference.initial(card, state)
    }

    fn press(&self, card: &[u8], state: &mut [u8], count: usize, schema: usize, objects: &[u8]) -> Result<usize, u8> {
        let before = state.to_vec();
        let answer = Reference.press(card, state, count, schema, objects);
        match (self.0, answer) {
            (Fault::SkipsSameObject, Err(18)) => return Err(19),
            (Fault::AnswersAnothersRefusal, Err(20)) => return Err(21),
            (Fault::LeavesTheTail, Ok(new)) if new < count => state[new * 4..count * 4].copy_from_slice(&before[new * 4..count * 4]),
            (Fault::AltersOnRefusal, Err(20)) => state[0] ^= 1,
            _ => {}
        }
        answer
    }

    fn next_open(&self, card: &[u8], state: &[u8], count: usize, given: Given, found: &mut Found) -> Result<usize, u8> {
        let before = *found;
        let answer = Reference.next_open(card, state, count, given, found);
        let is_open = |(schema, objects)| Reference.press(card, &mut state.to_vec(), count, schema, objects).is_ok();
        match (self.0, given, answer) {
            (Fault::AnswersTheGivenAgain, Some(press), Ok(next)) if next > 0 && press.1.len() == 3 && is_open(press) => {
                found[0] = press.0 as u8;
                found[1..4].copy_from_slice(press.1);
                return Ok(3);
            }
            (Fault::LeavesOneOut, Some(_), Ok(next)) if next > 2 => {
                let left_out = *found;
                return Reference.next_open(card, state, count, Some((left_out[0].into(), &left_out[1..=next])), found);
            }
            (Fault::EndsWithTheSchema, Some((schema, _)), Ok(_)) if usize::from(found[0]) != schema => {
                *found = before;
                return Ok(0);
            }
            (Fault::RefusesAGivenOneThatIsNotOpen, Some(press), Ok(_)) if !is_open(press) => {
                *found = before;
                return Err(19);
            }
            (Fault::ChecksTheGivenBeforeTheState, Some((schema, _)), Err(15)) if schema > 32 => return Err(16),
            (Fault::WritesAtTheEnd, _, Ok(0)) => *found = Found::default(),
            (Fault::LeavesPlacesPastTheObjects, _, Ok(next)) if next > 0 => found[1 + next..].copy_from_slice(&before[1 + next..]),
            _ => {}
        }
        answer
    }

    fn preview(
        &self,
        card: &[u8],
        state: &[u8],
        count: usize,
        schema: usize,
        objects: &[u8],
        changes: &mut ChangesBytes,
    ) -> Result<usize, u8> {
        let before = *changes;
        let answer = Reference.preview(card, state, count, schema, objects, changes);
        match (self.0, answer) {
            (Fault::AsksInAFullState, Err(20)) => {
                *changes = [0; CHANGES_LEN];
                return Ok(1_025);
            }
            (Fault::AskingAnswersTheCountBefore, Ok(_)) => return Ok(count),
            (Fault::AskingClearsTheTail, Ok(_)) => clear(&state[count * FACT_LEN..STATE_LEN]),
            (Fault::AskingWritesBesideARefusal, Err(19)) => *changes = [0; CHANGES_LEN],
            (Fault::AskingLeavesUnusedPlaces, Ok(_)) => {
                let used = COMING_AT + 1 + changes[COMING_AT] as usize * FACT_LEN;
                changes[used..].copy_from_slice(&before[used..]);
            }
            _ => {}
        }
        answer
    }

    fn commit(&self, card: &[u8], state: &mut [u8], count: usize, changes: &ChangesBytes) -> Result<usize, u8> {
        let before = state.to_vec();
        let handed_in = Changes::from_bytes(changes);
        let Changes { press, going, coming } = &handed_in;
        let answer = Reference.commit(card, state, count, changes);
        let press = |state: &mut [u8]| Reference.press(card, state, count, press.schema, &press.objects);
        match (self.0, answer) {
            (Fault::CommitsWhateverIsListed, Err(23)) => return press(state),
            (Fault::ComparesWhatGoesAlone, Err(23)) => {
                let (_, now) = reference::preview(card, state, count, handed_in.press.schema, &handed_in.press.objects)?;
                if now.going == *going {
                    return press(state);
                }
            }
            (Fault::ComparesUnusedPlaces, Ok(_)) if handed_in.to_bytes() != *changes => {
                state.copy_from_slice(&before);
                return Err(23);
            }
            (Fault::ComparesBeforeItIsFull, Err(20)) if going.is_empty() && coming.is_empty() => return Err(23),
            (Fault::RefusesUnknownRowsBy15, Err(23)) if going.iter().chain(coming).any(|fact| fact[0] > 20) => return Err(15),
            (Fault::TakesOver8RowsForNone, Err(23)) if going.len() > 8 => {
                let mut none = *changes;
                none[GOING_AT] = 0;
                return Reference.commit(card, state, count, &none);
            }
            (Fault::RefusesOver6ObjectsFirst, Err(_)) if changes[1] > 6 => return Err(17),
            (Fault::CommitWritesBeforeItCompares, Err(23)) => drop(press(state)),
            (Fault::CommitLeavesTheTail, Ok(new)) if new < count => state[new * 4..count * 4].copy_from_slice(&before[new * 4..count * 4]),
            _ => {}
        }
        answer
    }

    fn section(&self, card: &[u8], number: usize, out: &mut [u8]) -> Result<usize, u8> {
        if matches!(self.0, Fault::RefusesShortBufferFirst) && out.len() < 65_536 {
            return Err(21);
        }
        let length = Reference.section(card, number, out)?;
        let text = String::from_utf8_lossy(&out[..length]).into_owned();
        match self.0 {
            Fault::TurnsNestingsRound => change_nestings(out, &text, |pairs| pairs.iter_mut().for_each(|(one, other)| swap(one, other))),
            Fault::SortsNestingsByOuter => change_nestings(out, &text, |pairs| pairs.sort_by_key(|pair| pair.1)),
            Fault::IsWideAt64 if text.matches("\nT :").count() == 64 => {
                let end = text.find('\n').map_or(0, |at| at + 1);
                let wide = text[..end].replace(" P : ", " W : ");
                out[..end].copy_from_slice(wide.as_bytes());
                return Ok(end);
            }
            Fault::LeavesOutTheRescue => return Ok(text.find(&format!("S {number} H ")).unwrap_or(length)),
            _ => {}
        }
        let place = match self.0 {
            // One count of a later bag, the last member of an attribute space, the last object of a type.
            Fault::WrongBag => text.match_indices("T :").nth(3).map(|(at, _)| at + 4),
            Fault::WrongMember => (text.contains(" A : ") && !text.ends_with(":\n")).then_some(length - 2),
            Fault::WrongClosing => (text.starts_with(['F', 'C', 'R']) && !text.ends_with(":\n")).then_some(length - 2),
            _ => None,
        };
        if let Some(place) = place {
            out[place] ^= 1;
        }
        if let (Fault::RescuesAsP, Some(place)) = (self.0, text.find(" H : ")) {
            out[place + 1] = b'P';
        }
        Ok(length)
    }

    fn rewrite(&self, card: &[u8], out: &mut [u8]) -> Result<usize, u8> {
        let length = Reference.rewrite(card, out)?;
        match self.0 {
            Fault::RewritesOneByte if length > 100 => out[length - 1] ^= 1,
            Fault::WritesPastTheCard => out[length] = 0,
            _ => {}
        }
        Ok(length)
    }
}

fn finds(calls: &dyn Calls, others: &dyn Calls) -> bool {
    let mut comparison = Comparison::new(calls, others, 7);
    let mut round = || {
        comparison.random_card()?;
        comparison.random_history()?;
        comparison.random_open()?;
        comparison.random_preview()
    };
    (0..1_500).any(|_| round().is_err())
}

#[test]
fn equal_implementations_pass_and_every_case_comes_up() {
    let mut cards = Comparison::new(&Reference, &Reference, 7);
    let mut histories = Comparison::new(&Reference, &Reference, 8);
    let mut open = Comparison::new(&Reference, &Reference, 9);
    let mut previews = Comparison::new(&Reference, &Reference, 10);
    for _ in 0..3_000 {
        cards.random_card().unwrap();
        histories.random_history().unwrap();
        previews.random_preview().unwrap();
    }
    for _ in 0..1_000 {
        open.random_open().unwrap();
    }
    println!("{}\n{}", open.met, previews.met);
    assert_eq!(missing_of_cards(&cards.met), [""; 0]);
    assert_eq!(missing_of_histories(&histories.met), [""; 0]);
    assert_eq!(missing_of_open(&open.met), [""; 0]);
    assert_eq!(missing_of_previews(&previews.met), [""; 0]);
}

/// A record with nothing in it misses everything: 15, 16, 16 and 17 answers, 6 kinds of spaces, 9 of lines, 5 of nestings, 2 of
/// tallies, 10 of rescues with 3 of their members, and 6 of buffers and numbers.
#[test]
fn what_never_came_up_is_missing() {
    let mut met = Met::default();
    assert_eq!(missing_of_cards(&met).len(), 15 + 16 + 16 + 17 + 6 + 9 + 5 + 2 + 10 + 3 + 6);
    met.answer(Call::Check, Err(3));
    met.lines("S 0 P : 0 : 1\n");
    assert_eq!(missing_of_cards(&met).len(), 15 + 16 + 16 + 17 + 6 + 9 + 5 + 2 + 10 + 3 + 6 - 3);
    // Of previews 21 and 22 answers, 7 parts of 15 and 3 of 17, 9 kinds of lists, 4 of buffers and full states, 4 of something outdated,
    // and damage: 6 parts of the press, 16 of the lists, the unused places, and 19 and 20 of damaged lists.
    assert_eq!(missing_of_previews(&met).len(), 21 + 22 + 7 + 3 + 9 + 4 + 4 + 6 + 16 + 1 + 2);
    met.answer(Call::Commit, Err(23));
    met.case(("going", "another order"));
    assert_eq!(missing_of_previews(&met).len(), 21 + 22 + 7 + 3 + 9 + 4 + 4 + 6 + 16 + 1 + 2 - 2);
}

/// Each kind of nesting is met by the lines of a space that have it, and by no others.
#[test]
fn nestings_are_told_apart() {
    for (lines, kinds) in [
        ("S 0 P : 0 1 : 0\nX 0 1\n", &[] as &[&str]),
        ("S 0 P : 0 1 : 0\nE 2 0\nE 2 1\n", &["without X", "i above j"]),
        ("S 0 P : 0 1 : 0\nX 0 1\nS 1 P : 2 3 : 0\nE 0 2\n", &["without X", "i below j"]),
        ("S 0 P : 0 1 : 0\nX 0 11\nE 0 2\nE 12 1\n", &["beside X", "i above j", "i below j"]),
        ("S 0 P : 0 1 : 0\nE 2 1\nE 3 1\nE 3 2\n", &["without X", "i above j", "i in j in k"]),
        ("S 0 P : 0 1 : 0\nE 2 1\nS 1 P : 2 3 : 0\nE 3 2\n", &["without X", "i above j"]),
    ] {
        let mut met = Met::default();
        met.lines(lines);
        let missing = met.missing(&[], &NESTINGS);
        let found: Vec<&str> =
            NESTINGS.iter().map(|nesting| nesting.1).filter(|kind| !missing.contains(&format!("nesting {kind}"))).collect();
        assert_eq!(found, kinds, "{lines}");
    }
}

/// Each kind of tally is met by starts that come to it, and by no others.
#[test]
fn tallies_are_told_apart() {
    let singles = |count: usize| [(10, 0)].into_iter().chain((20..20 + count).map(|q| (0, q))).collect();
    for (starts, kinds) in [
        (vec![(10, 0)], &[] as &[&str]),
        (vec![(10, 0), (7, 3)], &[]),
        (vec![(10, 0), (7, 4)], &["64 conditions from several starts"]),
        (vec![(10, 0), (8, 3)], &["a 65th condition from a later start"]),
        (vec![(10, 0), (9, 3)], &[]),
        (singles(8), &["64 conditions from several starts"]),
        (singles(9), &[]),
    ] {
        let mut met = Met::default();
        met.tally(&starts);
        let missing = met.missing(&[], &TALLIES);
        let found: Vec<&str> = TALLIES.iter().map(|tally| tally.1).filter(|kind| !missing.contains(&format!("tally {kind}"))).collect();
        assert_eq!(found, kinds, "{starts:?}");
    }
}

/// Two sides with one fault never differ; of a crowded card the closed form tells.
#[test]
fn a_fault_of_both_sides_is_found_on_crowded_cards() {
    for fault in [Fault::WrongBag, Fault::IsWideAt64] {
        assert!(finds(&Faulty(fault), &Faulty(fault)), "{fault:?}");
    }
}

/// Asking and committing are held to the press calls of both sides, so that one fault of both is found as well.
#[test]
fn a_fault_of_both_sides_is_found_by_their_presses() {
    for fault in [Fault::AsksInAFullState, Fault::AskingAnswersTheCountBefore, Fault::CommitsWhateverIsListed, Fault::ComparesWhatGoesAlone]
    {
        assert!(finds(&Faulty(fault), &Faulty(fault)), "{fault:?}");
    }
}

#[test]
fn every_fault_is_found() {
    for fault in FAULTS {
        assert!(finds(&Faulty(fault), &Reference), "{fault:?}");
    }
}
