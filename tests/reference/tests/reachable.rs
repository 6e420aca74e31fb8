//! Every line of each small example's listing, held to all states that its presses reach.
//!
//! The listing is the stored one, crates/examples/stdout. Both implementations print it: tests/examples.rs makes it from the card by the
//! reference, and `rt ci` holds what the proved program prints to that file.

use reference::comparison::every_press;
use reference::examples::{card, task};
use reference::reachable::{allowed, hold, Reached};
use reference::strips::{initial, press, Press, FACT_LEN, STATE_LEN};
use std::collections::BTreeMap;
use std::fs::read_to_string;
use std::path::Path;

/// The most states that are looked at. The examples that have more are named here.
const MOST: usize = 3_000;
const LARGE: [&str; 2] = ["logistics", "mystery"];

/// Examples whose number of reachable states follows by counting.
const COUNTED: [(&str, usize, &str); 16] = [
    ("gripper_usual", 28, "2 rooms for the robot; 4 places for each of 2 balls, less both in one gripper: 2 * (16 - 2)"),
    ("gripper_shaped", 28, "the same"),
    ("blocks_usual", 22, "13 ways to stack 3 blocks, and for each of 3 that is held 3 ways to stack the others"),
    ("blocks_shaped", 22, "the same"),
    ("ferry_usual", 16, "2 places for the ferry; 4 for the cars on land, and 2 for each of 2 that is on board"),
    ("ferry_shaped", 16, "the same"),
    ("hanoi_usual", 27, "3 pegs for each of 3 discs"),
    ("hanoi_shaped", 27, "the same"),
    ("miconic_usual", 48, "3 floors for the lift; each of 2 passengers boarded or not, and served or not"),
    ("miconic_shaped", 27, "3 floors for the lift; each of 2 passengers waiting, boarded or served"),
    ("depots_usual", 50, "2 places for the truck; 6 ways to pile both crates, 12 to pile one and 7 to pile none"),
    ("depots_shaped", 50, "the same"),
    ("gripper", 2, "2 rooms for the robot"),
    ("lightswitch", 3, "on; touched and off; touched and on"),
    ("operators3", 8, "each of 3 operators exchanges two facts or has them as they were"),
    ("operators10", 1_024, "each of 10 operators likewise"),
];

fn directory() -> &'static Path {
    Path::new(concat!(env!("CARGO_MANIFEST_DIR"), "/../../crates/examples"))
}

/// The stored listings by example.
fn listings() -> BTreeMap<String, String> {
    let mut listings: BTreeMap<String, String> = BTreeMap::new();
    let mut name = String::new();
    for line in read_to_string(directory().join("stdout")).unwrap().lines() {
        match line.strip_suffix(".card") {
            Some(next) => name = next.to_string(),
            None => listings.entry(name.clone()).or_default().extend([line, "\n"]),
        }
    }
    listings
}

fn description(name: &str) -> String {
    read_to_string(directory().join("data").join(name).with_extension("txt")).unwrap()
}

fn reached(name: &str, listing: &str) -> Reached {
    hold(&card(&description(name)).unwrap(), listing, MOST).unwrap_or_else(|fault| panic!("{name}: {fault}"))
}

#[test]
fn listed_lines_hold_in_every_reachable_state() {
    let listings = listings();
    assert_eq!(listings.len(), read_to_string(directory().join("args")).unwrap().lines().count());
    for (name, listing) in &listings {
        let reached = reached(name, listing);
        println!("{name}: {reached:?}");
        assert_eq!(reached.whole, !LARGE.contains(&name.as_str()), "{name}: {reached:?}");
        assert!(reached.presses > 0, "{name}: no press is allowed");
    }
    for (name, states, why) in COUNTED {
        assert_eq!(reached(name, &listings[name]).states, states, "{name}: {why}");
    }
}

/// A line that is true of the opening state and false of a later one is found.
#[test]
fn lines_that_become_false_are_found() {
    let listings = listings();
    for (name, true_line, false_line, fault) in [
        ("miconic_shaped", "T : 0 0 1\nD 0\nD 1\nD 2\nX 0 1\nX 0 2\nX 1 2\n", "D 0\nD 1\nX 0 1\n", "not listed"),
        ("miconic_shaped", "D 2\nX 0 1\nX 0 2\nX 1 2\n", "X 0 1\n", "contains no D"),
        ("gripper_usual", "M 7 1\n", "M 7 0\n", "M 7 0"),
        ("gripper_usual", "S 5 A : 5 : 0 1\n", "S 5 A : 5 : 0\n", "outside"),
        ("ferry_usual", "C 0 2\n", "F 4 2\nC 0 2\n", "F 4 2"),
        ("blocks_usual", "C 5 1\n", "C 0 1\nC 5 1\n", "C 0 1"),
        ("miconic_usual", "R 1 0 : 1 2\n", "R 1 0 : 1\n", "schema 1 allows"),
    ] {
        assert!(listings[name].contains(true_line), "{name}: {true_line}");
        let listing = listings[name].replace(true_line, false_line);
        let found = hold(&card(&description(name)).unwrap(), &listing, MOST).unwrap_err();
        assert!(found.contains(fault) && !found.starts_with("state 0:"), "{name}: {found}");
    }
}

/// A missing or a wrong `E` line is found before any state is looked at.
#[test]
fn false_nestings_are_found() {
    let listing = &listings()["united"];
    for (true_line, false_line, fault) in [
        ("E 2 0\n", "", "space 0: [1, 0] is strictly within [1, 1], but there is no E 2 0"),
        ("E 4 3\n", "E 4 2\n", "space 0: E 4 2, but [0, 1] is not strictly within [1, 0]"),
    ] {
        assert!(listing.contains(true_line), "{true_line}");
        let found = hold(&card(&description("united")).unwrap(), &listing.replace(true_line, false_line), MOST);
        assert_eq!(found, Err(fault.to_string()));
    }
}

/// The presses found by their preconditions are those that the press call accepts, of all that there are.
#[test]
fn allowed_presses_are_the_accepted_ones() {
    for name in ["gripper_usual", "blocks_shaped", "ferry_usual", "hanoi_usual", "miconic_usual", "united"] {
        let task = task(&description(name)).unwrap();
        let card = card(&description(name)).unwrap();
        let mut state = vec![0; STATE_LEN];
        let count = initial(&card, &mut state).unwrap();
        let mut found = allowed(&task, &state[..count * FACT_LEN]);
        found.sort();
        let accepts = |call: &Press| press(&card, &mut state.clone(), count, call.schema, &call.objects).is_ok();
        assert_eq!(found, every_press(&task).filter(accepts).collect::<Vec<_>>(), "{name}");
        assert!(!found.is_empty(), "{name}");
    }
}
