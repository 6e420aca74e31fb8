//! The next open press on states that are made for it: K1 by hand, and the hard states.

use reference::hard::hard_states;
use reference::strips::{facts_of, initial, press, Press, STATE_LEN};
use reference::vectors::K1;
use reference::{decode, next_open};

/// All open presses of K1 in a state, from none until the end.
fn open(state: &[u8], count: usize) -> Vec<(usize, Vec<u8>)> {
    let mut shown: Vec<Press> = Vec::new();
    while let Some(press) = next_open(&K1, state, count, shown.last().map(Press::parts)).unwrap() {
        shown.push(press);
    }
    shown.into_iter().map(|press| (press.schema, press.objects)).collect()
}

#[test]
fn k1_shows_what_is_open_before_and_after_a_press() {
    let mut state = vec![0; STATE_LEN];
    let count = initial(&K1, &mut state).unwrap();
    assert_eq!(open(&state, count), [(0, vec![0]), (0, vec![1])]);
    let count = press(&K1, &mut state, count, 0, &[0]).unwrap();
    assert_eq!(open(&state, count), [(0, vec![1]), (1, vec![0, 2, 3])]);
}

/// The given press need not be open; 16 to 18 refuse it, and not if none is given.
#[test]
fn a_given_press_is_checked_as_far_as_18() {
    let mut state = vec![0; STATE_LEN];
    let count = initial(&K1, &mut state).unwrap();
    let after = |schema: usize, objects: &[u8]| next_open(&K1, &state, count, Some((schema, objects)));
    assert_eq!(after(0, &[0]), Ok(Some(Press { schema: 0, objects: vec![1] })));
    assert_eq!(after(0, &[3]), Ok(None));
    assert_eq!(after(1, &[0, 2, 3]), Ok(None));
    assert_eq!(after(2, &[0]), Err(16));
    assert_eq!(after(0, &[0, 1]), Err(17));
    assert_eq!(after(0, &[4]), Err(17));
    assert_eq!(after(1, &[0, 2, 2]), Err(18));
    assert_eq!(next_open(&K1, &state, 1_025, Some((2, &[]))), Err(15));
    assert_eq!(next_open(&[], &[], 1_025, Some((2, &[]))), Err(1));
}

/// With 18 objects a plain search still ends; with 64 the states are well formed.
#[test]
fn nothing_is_open_in_the_hard_states() {
    for hard in hard_states(18) {
        assert_eq!(next_open(&hard.card, &hard.state, hard.count, None), Ok(None), "{}", hard.name);
    }
    for hard in hard_states(64) {
        let task = decode(&hard.card).unwrap();
        assert!(facts_of(&task, &hard.state, hard.count).is_ok(), "{}", hard.name);
    }
}
