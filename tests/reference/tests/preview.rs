//! Asking and committing by hand: K1, an add that is a fact already, lists in the state's order, the order of the refusals, and each part
//! of what was asked damaged.

use reference::examples::card;
use reference::preview::{Changes, ChangesBytes, CHANGES_LEN};
use reference::proved::{Calls, Reference};
use reference::strips::{Fact, Press, FILLER, MAX_STATE_FACTS, STATE_LEN};
use reference::vectors::{from_hex, to_hex, K1};
use reference::{commit, initial, press, preview};

/// A state of these facts in hex, with bytes past them that are not 0.
fn state(facts: &str) -> (Vec<u8>, usize) {
    let mut state = from_hex(facts);
    let count = state.len() / 4;
    state.resize(STATE_LEN, 0xAA);
    (state, count)
}

/// The facts of a state, in hex, if all bytes past them are 0.
fn facts(state: &[u8], count: usize) -> String {
    let (facts, rest) = state.split_at(count * 4);
    assert!(rest.iter().all(|&byte| byte == 0));
    to_hex(facts)
}

/// K1's opening state, and the one after schema 0 on object 0: idle is predicate 0, armed 1, holds 2, sample 3.
const OPENING: &str = "0000ffff0001ffff020002ff020102ff0302ffff0303ffff";
const ARMED: &str = "0001ffff0100ffff020002ff020102ff0302ffff0303ffff";

/// K3, each press asked and then committed: idle(0) goes and armed(0) comes; armed(0) and holds(0,2) go, idle(0) and holds(0,3) come.
#[test]
fn k1_is_asked_and_committed() {
    let (mut state, count) = state(OPENING);
    let mut changes = [9; CHANGES_LEN];
    assert_eq!(Reference.preview(&K1, &state, count, 0, &[0], &mut changes), Ok(6));
    assert_eq!(to_hex(&changes), asked("00 01 000000000000", "01 0000ffff", "01 0100ffff"));
    assert_eq!(Reference.commit(&K1, &mut state, count, &changes), Ok(6));
    assert_eq!(facts(&state, 6), ARMED);

    assert_eq!(Reference.preview(&K1, &state, count, 1, &[0, 2, 3], &mut changes), Ok(6));
    assert_eq!(to_hex(&changes), asked("01 03 000203000000", "02 0100ffff 020002ff", "02 0000ffff 020003ff"));
    assert_eq!(Reference.commit(&K1, &mut state, count, &changes), Ok(6));
    assert_eq!(facts(&state, 6), "0000ffff0001ffff020003ff020102ff0302ffff0303ffff");
}

/// The bytes of what was asked, by its three parts; each list is filled up with 0 to 33 bytes.
fn asked(press: &str, going: &str, coming: &str) -> String {
    let list = |list: &str| {
        let mut list = from_hex(list);
        list.resize(33, 0);
        list
    };
    to_hex(&[from_hex(press), list(going), list(coming)].concat())
}

/// What is refused, as K2 and other presses are, writes nothing.
#[test]
fn a_refused_ask_gives_nothing() {
    let (state, count) = state(OPENING);
    let ask = |card: &[u8], count: usize, schema: usize, objects: &[u8]| {
        let mut changes = [9; CHANGES_LEN];
        let answer = Reference.preview(card, &state, count, schema, objects, &mut changes);
        assert!(changes.iter().all(|&byte| byte == 9));
        answer
    };
    assert_eq!(ask(&[], 1_025, 2, &[]), Err(1));
    assert_eq!(ask(&K1, 1_025, 2, &[]), Err(15));
    assert_eq!(ask(&K1, count, 2, &[]), Err(16));
    assert_eq!(ask(&K1, count, 256, &[0]), Err(16));
    assert_eq!(ask(&K1, count, 1, &[0, 2]), Err(17));
    assert_eq!(ask(&K1, count, 1, &[0, 2, 4]), Err(17));
    assert_eq!(ask(&K1, count, 1, &[0, 2, 2]), Err(18));
    assert_eq!(ask(&K1, count, 1, &[0, 2, 3]), Err(19));
}

/// K4: a(0) goes, and b(0), which is added, is a fact already. Where it is none, it comes, and the ask is outdated.
#[test]
fn an_add_that_stands_does_not_come() {
    let k4 = card("predicates a/1 b/1\nobjects o\nschema s x\npre a(x)\ndel a(x)\nadd b(x)\nfacts a(o) b(o)\n").unwrap();
    let (both, a_alone) = (state("0000ffff0100ffff"), state("0000ffff"));
    let (count, changes) = preview(&k4, &both.0, 2, 0, &[0]).unwrap();
    assert_eq!((count, &changes.going[..], &changes.coming[..]), (1, &[[0, 0, 255, 255]][..], &[][..]));

    let (mut state, _) = a_alone;
    let before = state.clone();
    assert_eq!(commit(&k4, &mut state, 1, &changes), Err(23));
    assert_eq!(state, before);
    let (count, changes) = preview(&k4, &state, 1, 0, &[0]).unwrap();
    assert_eq!((count, &changes.coming[..]), (1, &[[1, 0, 255, 255]][..]));
    assert_eq!(commit(&k4, &mut both.0.clone(), 2, &changes), Err(23));
    assert_eq!(commit(&k4, &mut state, 1, &changes), Ok(1));
    assert_eq!(facts(&state, 1), "0100ffff");
}

/// The schema has x before y, and the press binds x to a higher object than y.
#[test]
fn lists_have_the_order_of_the_state() {
    let text = "predicates p/1 q/1\nobjects a b\nschema s x y\npre p(x) p(y)\ndel p(x) p(y)\nadd q(x) q(y)\nfacts p(a) p(b)\n";
    let card = card(text).unwrap();
    let (mut state, count) = state("0000ffff0001ffff");
    let (_, mut changes) = preview(&card, &state, count, 0, &[1, 0]).unwrap();
    assert_eq!(changes.going, [[0, 0, 255, 255], [0, 1, 255, 255]]);
    assert_eq!(changes.coming, [[1, 0, 255, 255], [1, 1, 255, 255]]);

    changes.going.reverse();
    assert_eq!(commit(&card, &mut state, count, &changes), Err(23));
    changes.going.reverse();
    changes.coming.reverse();
    assert_eq!(commit(&card, &mut state, count, &changes), Err(23));
    changes.coming.reverse();
    assert_eq!(commit(&card, &mut state, count, &changes), Ok(2));
    assert_eq!(facts(&state, 2), "0100ffff0101ffff");
}

/// A press that adds p(x,y) to a state of 1,024 facts, asked about when there were 1,023.
#[test]
fn the_full_state_comes_before_the_lists() {
    let names: String = (0..64).map(|object| format!(" o{object}")).collect();
    let card = card(&format!("predicates p/2\nobjects{names}\nschema s x y\nadd p(x,y)\n")).unwrap();
    let facts: Vec<Fact> = (0..MAX_STATE_FACTS).map(|number| [0, (number / 64) as u8, (number % 64) as u8, FILLER]).collect();
    let mut state = facts.concat();
    let almost = MAX_STATE_FACTS - 1;
    let (count, changes) = preview(&card, &state, almost, 0, &[20, 21]).unwrap();
    assert_eq!((count, &changes.coming[..]), (MAX_STATE_FACTS, &[[0, 20, 21, 255]][..]));

    let empty = Changes { coming: Vec::new(), ..changes.clone() };
    assert_eq!(preview(&card, &state, MAX_STATE_FACTS, 0, &[20, 21]), Err(20));
    assert_eq!(commit(&card, &mut state, MAX_STATE_FACTS, &changes), Err(20));
    assert_eq!(commit(&card, &mut state, MAX_STATE_FACTS, &empty), Err(20));
    assert_eq!(commit(&card, &mut state, almost, &empty), Err(23));
    assert_eq!(state, facts.concat());
    assert_eq!(commit(&card, &mut state, almost, &changes), Ok(MAX_STATE_FACTS));
    assert_eq!(state[almost * 4..], [0, 20, 21, 255]);
}

/// The second commit of an ask finds that idle(0) is gone already: 19, and not 23.
#[test]
fn a_precondition_comes_before_the_lists() {
    let mut state = vec![0; STATE_LEN];
    let count = initial(&K1, &mut state).unwrap();
    let (_, changes) = preview(&K1, &state, count, 0, &[0]).unwrap();
    assert_eq!(commit(&K1, &mut state, count, &changes), Ok(6));
    assert_eq!(commit(&K1, &mut state, count, &changes), Err(19));
    let empty = Changes { going: Vec::new(), coming: Vec::new(), press: Press { schema: 0, objects: vec![0] } };
    assert_eq!(commit(&K1, &mut state, count, &empty), Err(19));
    assert_eq!(facts(&state, 6), ARMED);
}

/// What is asked of one card in one state may be committed on others, if the same press changes the same there.
#[test]
fn nothing_binds_an_ask_to_its_card_and_state() {
    let (opening, count) = state(OPENING);
    let (_, changes) = preview(&K1, &opening, count, 0, &[0]).unwrap();
    let other =
        card("predicates idle/1 armed/1\nobjects a\nschema arm x\npre idle(x)\ndel idle(x)\nadd armed(x)\nfacts idle(a)\n").unwrap();
    let (mut state, count) = state("0000ffff");
    assert_eq!(commit(&other, &mut state, count, &changes), Ok(1));
    assert_eq!(facts(&state, 1), "0100ffff");
}

/// Schema 1 of K1 on 0 2 3, asked in the state in which it is allowed and then changed byte by byte: (place, byte) pairs.
#[test]
fn each_part_is_looked_at() {
    const GOING: usize = 8;
    const COMING: usize = 41;
    let (armed, count) = state(ARMED);
    let mut changes = [0; CHANGES_LEN];
    Reference.preview(&K1, &armed, count, 1, &[0, 2, 3], &mut changes).unwrap();
    let with = |edits: &[(usize, u8)]| {
        let mut edited: ChangesBytes = changes;
        edits.iter().for_each(|&(place, byte)| edited[place] = byte);
        edited
    };
    let mut pressed = armed.clone();
    press(&K1, &mut pressed, count, 1, &[0, 2, 3]).unwrap();
    for (edits, answer) in [
        (&[][..], Ok(6)),
        // the press: schema, number of objects, objects
        (&[(0, 2)], Err(16)),
        (&[(0, 255)], Err(16)),
        (&[(0, 0)], Err(17)),
        (&[(1, 0)], Err(17)),
        (&[(1, 2)], Err(17)),
        (&[(1, 4)], Err(17)),
        (&[(1, 7)], Err(17)),
        (&[(1, 255)], Err(17)),
        (&[(2, 4)], Err(17)),
        (&[(3, 3)], Err(18)),
        (&[(2, 1)], Err(19)),
        // 16 to 19 come before 23, also of lists with too many rows
        (&[(0, 2), (1, 7), (GOING, 9)], Err(16)),
        (&[(1, 7), (GOING, 255)], Err(17)),
        (&[(2, 1), (COMING, 200)], Err(19)),
        // the numbers of rows
        (&[(GOING, 0)], Err(23)),
        (&[(GOING, 1)], Err(23)),
        (&[(GOING, 3)], Err(23)),
        (&[(GOING, 9)], Err(23)),
        (&[(GOING, 255)], Err(23)),
        (&[(COMING, 0)], Err(23)),
        (&[(COMING, 1)], Err(23)),
        (&[(COMING, 8)], Err(23)),
        (&[(COMING, 10)], Err(23)),
        // going: armed(0), holds(0,2); other rows, one row twice, wrong filler, never 15
        (&[(GOING + 2, 1)], Err(23)),
        (&[(GOING + 1, 20)], Err(23)),
        (&[(GOING + 3, 0)], Err(23)),
        (&[(GOING + 4, 254)], Err(23)),
        (&[(GOING + 1, 2), (GOING + 2, 0), (GOING + 3, 2)], Err(23)),
        // coming: idle(0), holds(0,3)
        (&[(COMING + 8, 0)], Err(23)),
        (&[(COMING + 7, 2)], Err(23)),
        // both rows of both lists exchanged between the lists
        (&[(GOING + 1, 0), (GOING + 7, 3), (COMING + 1, 1), (COMING + 7, 2)], Err(23)),
        // unused places: objects, rows of either list
        (&[(5, 1), (7, 255), (GOING + 9, 7), (GOING + 32, 1), (COMING + 9, 1), (COMING + 32, 255)], Ok(6)),
    ] {
        let mut state = armed.clone();
        assert_eq!(Reference.commit(&K1, &mut state, count, &with(edits)), answer, "{edits:?}");
        assert_eq!(state, if answer.is_ok() { &pressed[..] } else { &armed[..] }, "{edits:?}");
    }
    assert_eq!(Reference.commit(&K1, &mut armed.clone(), 1_025, &with(&[(0, 2)])), Err(15));
    assert_eq!(Reference.commit(&K1, &mut armed[..STATE_LEN - 1].to_vec(), count, &with(&[])), Err(15));
    assert_eq!(Reference.commit(&[], &mut [], count, &with(&[(0, 2)])), Err(1));
}
