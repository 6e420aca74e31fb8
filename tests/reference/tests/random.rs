//! The generator makes what it says, reader and writer agree on it, and listings hold after random histories.

use reference::card::OUTPUT_LEN;
use reference::histories::Histories;
use reference::met::{Met, LEFT_MEMBERS, RESCUES};
use reference::preview::Changes;
use reference::proved::Reference;
use reference::random::{trimmed, write_unchecked, Damaged, Random, UNUSED};
use reference::rescue::rescues;
use reference::strips::{FACT_LEN, MAX_STATE_FACTS, STATE_LEN};
use reference::truth::Listing;
use reference::vectors::to_hex;
use reference::{commit, decode, encode, initial, listing, press, preview, section};

const SEED: u64 = 20_260_101;

#[test]
fn random_cards_have_every_kind_of_space() {
    let mut random = Random::new(SEED);
    let mut kinds = std::collections::BTreeMap::new();
    for _ in 0..3_000 {
        let card = random.card();
        assert!(decode(&card).is_ok(), "{}", to_hex(&card));
        let listing = Listing::parse(std::str::from_utf8(&listing(&card)).unwrap()).expect("a listing parses");
        for space in listing.spaces {
            *kinds.entry(space.kind).or_insert(0) += 1;
        }
    }
    println!("{kinds:?}");
    for kind in ["S", "A", "P", "M", "W"] {
        assert!(kinds.get(kind).is_some_and(|&number| number >= 50), "{kinds:?}");
    }
}

/// Cards that hide attributes are accepted, and most have a mixed space; their rescues go every way.
#[test]
fn hidden_attributes_are_rescued_in_every_way() {
    let mut random = Random::new(SEED);
    let (mut met, mut mixed) = (Met::default(), 0);
    for _ in 0..1_000 {
        let task = random.hiding_task();
        let card = write_unchecked(&task);
        assert_eq!(decode(&card), Ok(trimmed(&task)), "{}", to_hex(&card));
        let rescues = rescues(&task);
        mixed += !rescues.is_empty() as usize;
        rescues.iter().for_each(|(space, rescue)| met.rescue(space, rescue));
    }
    println!("{mixed} cards with a mixed space\n{met}");
    assert!(mixed >= 700, "{mixed}");
    assert_eq!(met.missing(&[], &[&RESCUES[..], &LEFT_MEMBERS].concat()), [""; 0]);
}

#[test]
fn damaged_cards_are_refused_by_their_numbers() {
    let mut random = Random::new(SEED);
    for _ in 0..300 {
        for refusal in 1..=14 {
            let card = random.refused_card(refusal);
            assert_eq!(decode(&card).err(), Some(refusal), "{}", to_hex(&card));
        }
    }
}

#[test]
fn cards_and_tables_make_a_round_trip() {
    let mut random = Random::new(SEED);
    let mut out = vec![0; OUTPUT_LEN];
    for _ in 0..2_000 {
        let card = if random.once_in(2) { random.card() } else { random.wild_card() };
        if let Ok(task) = decode(&card) {
            assert_eq!(encode(&task, &mut out).map(|length| &out[..length]), Ok(&card[..]));
        }
        let table = random.noisy_task();
        let length = encode(&table, &mut out).expect("noise is no part of a table");
        assert_eq!(decode(&out[..length]), Ok(trimmed(&table)));
    }
}

#[test]
fn the_writer_refuses_by_number_and_leaves_the_buffer() {
    let mut random = Random::new(SEED);
    let mut out = vec![0xAA; OUTPUT_LEN];
    for _ in 0..300 {
        for refusal in 2..=13 {
            let table = random.refused_task(refusal);
            assert_eq!(encode(&table, &mut out), Err(refusal));
            assert_eq!(encode(&table, &mut []), Err(refusal), "21 comes last");
        }
        let table = random.noisy_task();
        assert_eq!(encode(&table, &mut out[..OUTPUT_LEN - 1]), Err(21));
    }
    assert!(out.iter().all(|&byte| byte == 0xAA));
}

/// What the writer refuses, the reader refuses by the same number when the bytes are written all the same.
#[test]
fn reader_and_writer_check_in_one_order() {
    let mut random = Random::new(SEED);
    let mut out = vec![0; OUTPUT_LEN];
    let mut refused = [0; 15];
    for _ in 0..20_000 {
        let table = random.wild_task();
        let read = decode(&write_unchecked(&table));
        match encode(&table, &mut out) {
            Ok(_) => assert_eq!(read, Ok(trimmed(&table))),
            Err(refusal) => {
                assert_eq!(read.err(), Some(refusal));
                refused[refusal as usize] += 1;
            }
        }
    }
    println!("{refused:?}");
}

#[test]
fn listings_hold_after_random_histories() {
    let mut histories = Histories::new(&Reference, SEED);
    for _ in 0..1_500 {
        if let Err(untrue) = histories.random_history() {
            panic!("{untrue}");
        }
    }
    println!("{} states\n{}", histories.states, histories.met);
    assert_eq!(histories.missing(), [""; 0]);
}

#[test]
fn malformed_and_full_states_are_refused() {
    let mut random = Random::new(SEED);
    let mut full = 0;
    for round in 0..2_000 {
        let task = if round % 4 == 0 { random.roomy_task() } else { random.task() };
        let card = write_unchecked(&task);
        let wanted = if round % 4 == 0 { MAX_STATE_FACTS } else { random.within(0, 40) };
        let (mut state, count) = random.state(&task, wanted);
        let call = random.press(&task, &state[..count * FACT_LEN]);

        let mut bad = random.malformed_state(&task, &state, count);
        let before = bad.state.clone();
        assert_eq!(press(&card, &mut bad.state, bad.count, call.schema, &call.objects), Err(15), "{}: {}", bad.part.1, to_hex(&card));
        assert_eq!(bad.state, before);

        let before = state.clone();
        let answer = press(&card, &mut state, count, call.schema, &call.objects);
        assert_ne!(answer, Err(15));
        if answer.is_err() {
            assert_eq!(state, before);
        }
        full += (answer == Err(20)) as usize;
    }
    println!("{full} full");
    assert!(full >= 30);
}

#[test]
fn short_and_long_buffers() {
    let mut random = Random::new(SEED);
    let mut state = vec![0xAA; STATE_LEN + 9];
    let mut out = vec![0xAA; OUTPUT_LEN + 9];
    for _ in 0..200 {
        let card = random.card();
        let short = random.below(STATE_LEN);
        state.fill(0xAA);
        assert_eq!(initial(&card, &mut state[..short]), Err(15));
        assert!(state.iter().all(|&byte| byte == 0xAA));
        assert!(initial(&card, &mut state).is_ok());
        assert!(state[STATE_LEN..].iter().all(|&byte| byte == 0xAA));

        out.fill(0xAA);
        let short = random.below(OUTPUT_LEN);
        assert_eq!(section(&card, 0, &mut out[..short]), Err(21));
        assert_eq!(section(&card, usize::MAX, &mut out), Err(22));
        assert!(out.iter().all(|&byte| byte == 0xAA));
        let refusal = random.within(1, 14) as u8;
        assert_eq!(section(&random.refused_card(refusal), usize::MAX, &mut []), Err(refusal));
        assert_eq!(initial(&random.refused_card(refusal), &mut []), Err(refusal));
    }
}

/// What was asked, damaged in a list, is refused by 23; with another number of objects, by 17; in unused places it is as before.
#[test]
fn damaged_parts_are_refused_by_their_numbers() {
    let mut random = Random::new(SEED);
    let mut commits = 0;
    while commits < 3_000 {
        let task = random.task();
        let card = write_unchecked(&task);
        let mut state = vec![0; STATE_LEN];
        let count = initial(&card, &mut state).unwrap();
        let call = random.press(&task, &state[..count * FACT_LEN]);
        let Ok((_, changes)) = preview(&card, &state, count, call.schema, &call.objects) else { continue };
        for _ in 0..10 {
            let Damaged { changes: damaged, part } = random.damaged(&task, &state[..count * FACT_LEN], &changes.to_bytes());
            let answer = commit(&card, &mut state.clone(), count, &Changes::from_bytes(&damaged));
            let what = format!("{part:?}: {}, {}, {}", to_hex(&card), to_hex(&changes.to_bytes()), to_hex(&damaged));
            match part {
                UNUSED => assert_eq!(Changes::from_bytes(&damaged), changes, "{what}"),
                ("carried press", "fewer objects" | "more objects" | "over 6 objects") => assert_eq!(answer, Err(17), "{what}"),
                ("carried press", _) => {}
                _ => assert_eq!(answer, Err(23), "{what}"),
            }
            commits += 1;
        }
    }
}
