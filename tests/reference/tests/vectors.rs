//! The outside vectors: every one of them agrees byte for byte.

use reference::card::OUTPUT_LEN;
use reference::strips::{facts_in, Fact, FACT_LEN, STATE_LEN};
use reference::vectors::{asks, extremes, histories, listings, open_presses, Listing};
use reference::{commit, decode, encode, initial, listing, next_open, press, preview, section};

#[test]
fn listings_agree() {
    let listings = listings();
    assert_eq!(listings.len(), 1_000);
    listings.iter().for_each(agrees);
}

#[test]
fn extreme_listings_agree() {
    let extremes = extremes();
    assert_eq!(extremes.len(), 7);
    extremes.iter().for_each(agrees);
}

/// The program's output, the sections one by one, and the card written again.
fn agrees(vector: &Listing) {
    let Listing { name, card, text } = vector;
    assert_eq!(std::str::from_utf8(&listing(card)).unwrap(), text, "{name}");

    let mut out = vec![0xAA; OUTPUT_LEN + 7];
    match decode(card) {
        Err(refusal) => {
            assert_eq!(text, &format!("refused {refusal}\n"), "{name}");
            assert_eq!(section(card, 0, &mut out), Err(refusal), "{name}");
            assert!(out.iter().all(|&byte| byte == 0xAA), "{name}");
        }
        Ok(task) => {
            assert_eq!(encode(&task, &mut out), Ok(card.len()), "{name}");
            assert_eq!(&out[..card.len()], card, "{name}");
            assert!(out[card.len()..].iter().all(|&byte| byte == 0xAA), "{name}");

            let mut sections = Vec::new();
            for number in 0.. {
                out.fill(0x55);
                match section(card, number, &mut out) {
                    Ok(length) => {
                        sections.extend_from_slice(&out[..length]);
                        assert!(out[length..].iter().all(|&byte| byte == 0x55), "{name}");
                    }
                    Err(refusal) => {
                        assert_eq!(refusal, 22, "{name}");
                        assert!(out.iter().all(|&byte| byte == 0x55), "{name}");
                        break;
                    }
                }
            }
            assert_eq!(sections, text.as_bytes(), "{name}");
            assert_eq!(section(card, 0, &mut out[..OUTPUT_LEN - 1]), Err(21), "{name}");
        }
    }
}

#[test]
fn histories_agree() {
    let histories = histories();
    assert_eq!(histories.len(), 400);
    for (number, history) in histories.iter().enumerate() {
        let mut state = vec![0xAA; STATE_LEN + 5];
        let mut count = initial(&history.card, &mut state).expect("the card of a history is accepted");
        for (index, call) in history.presses.iter().enumerate() {
            let before = state.clone();
            let answer = press(&history.card, &mut state, count, call.press.schema, &call.press.objects);
            assert_eq!(answer, call.answer, "history {number}, press {index}");
            match answer {
                Ok(new) => count = new,
                Err(_) => assert_eq!(state, before, "history {number}, press {index}"),
            }
        }
        let end = count * FACT_LEN;
        assert_eq!(state[..end], history.facts, "history {number}");
        assert!(state[end..STATE_LEN].iter().all(|&byte| byte == 0), "history {number}");
        assert!(state[STATE_LEN..].iter().all(|&byte| byte == 0xAA), "history {number}");
    }
}

#[test]
fn open_presses_agree() {
    let stored = open_presses();
    assert_eq!(stored.len(), 150);
    for (number, vector) in stored.iter().enumerate() {
        let count = vector.facts.len() / FACT_LEN;
        let mut state = vector.facts.clone();
        state.resize(STATE_LEN, 0xAA);
        let mut given = None;
        for open in &vector.open {
            let next = next_open(&vector.card, &state, count, given);
            assert_eq!(next.as_ref(), Ok(&Some(open.clone())), "state {number}, after {given:?}");
            given = Some(open.parts());
        }
        assert_eq!(next_open(&vector.card, &state, count, given), Ok(None), "state {number}, after {given:?}");
        for call in &vector.after {
            assert_eq!(
                next_open(&vector.card, &state, count, Some(call.press.parts())),
                call.answer,
                "state {number}, after {:?}",
                call.press
            );
        }
    }
}

/// Each ask, and then its commit: the state without what goes and with what comes.
#[test]
fn asks_agree() {
    let stored = asks();
    assert_eq!(stored.len(), 150);
    for (number, vector) in stored.iter().enumerate() {
        let facts = facts_in(&vector.facts);
        let mut state = vector.facts.clone();
        state.resize(STATE_LEN + 5, 0xAA);
        for ask in &vector.asks {
            let what = format!("state {number}, {:?}", ask.press);
            let (schema, objects) = ask.press.parts();
            let asked = preview(&vector.card, &state, facts.len(), schema, objects);
            assert_eq!(asked.as_ref().map(|(_, changes)| changes), ask.answer.as_ref(), "{what}");
            let Ok((count, changes)) = asked else { continue };

            let mut after: Vec<Fact> = facts.iter().filter(|fact| !changes.going.contains(fact)).copied().collect();
            after.extend(&changes.coming);
            after.sort();
            let mut wanted = after.concat();
            wanted.resize(STATE_LEN, 0);
            wanted.resize(STATE_LEN + 5, 0xAA);
            let mut committed = state.clone();
            assert_eq!(commit(&vector.card, &mut committed, facts.len(), &changes), Ok(after.len()), "{what}");
            assert_eq!((count, committed), (after.len(), wanted), "{what}");
        }
    }
}
