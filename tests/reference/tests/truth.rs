//! The check of a listing against a state, and of its `E` lines against its `T` lines, finds each kind of false line.

use reference::histories::Histories;
use reference::open::Given;
use reference::preview::{Changes, ChangesBytes};
use reference::proved::{Calls, Found, Reference};
use reference::strips::{facts_in, FACT_LEN, STATE_LEN};
use reference::truth::{check, check_nestings, check_rescues, Listing};
use reference::vectors::{from_hex, K1};
use reference::{decode, initial, listing, press};

/// The state of K1 after schema 0 on object 0: object 0 is armed, object 1 idle.
fn armed() -> Vec<u8> {
    let mut state = vec![0; STATE_LEN];
    let count = initial(&K1, &mut state).unwrap();
    let count = press(&K1, &mut state, count, 0, &[0]).unwrap();
    state[..count * FACT_LEN].to_vec()
}

fn verdict(card: &[u8], facts: &[u8], from: &str, to: &str) -> Result<(), String> {
    let text = String::from_utf8(listing(card)).unwrap();
    assert!(text.contains(from), "{from} is listed");
    let listing = Listing::parse(&text.replacen(from, to, 1)).ok_or("no listing")?;
    check_nestings(&listing)?;
    check_rescues(&listing)?;
    check(&decode(card).unwrap(), &listing, facts)
}

#[test]
fn the_listing_of_k1_holds() {
    assert_eq!(verdict(&K1, &armed(), "", ""), Ok(()));
}

#[test]
fn false_lines_of_k1_are_found() {
    let false_lines = [
        ("T : 0 1\n", "T : 0 2\n"),
        ("M 2 1\n", "M 2 0\n"),
        ("D 1\nX 0 1\n", ""),
        ("S 2 A : 3 : 2 3\n", "S 2 A : 3 : 3\n"),
        ("S 3 S : 4 : 2 3\n", "S 3 S : 4 : 2\n"),
        ("F 2 2\n", "F 2 3\n"),
        ("C 3 2\n", "C 3 1\n"),
        ("R 0 0 : 0 1\n", "R 0 0 : 0\n"),
        ("R 1 0 : 0 1\n", "R 1 0 : 1\n"),
        ("R 1 1 : 2 3\n", "R 1 1 : 3\n"),
        ("R 1 2 : 2 3\n", "R 1 2 : 2\n"),
    ];
    for (from, to) in false_lines {
        assert!(verdict(&K1, &armed(), from, to).is_err(), "{from} as {to}");
    }
}

/// K4, whose conditions are 1 1, 0 2 and 0 1, and its opening state.
fn k4() -> (Vec<u8>, Vec<u8>) {
    let card = from_hex("02 01 01 01 01 0E 01 00 00 01 00 00 01 01 00 00 02 00 00 01 00");
    (card, from_hex("0000ffff 0100ffff"))
}

/// The opening condition of K4 contains both of two conditions that are made to exclude each other.
#[test]
fn a_false_exclusion_is_found() {
    let (card, facts) = k4();
    assert_eq!(verdict(&card, &facts, "", ""), Ok(()));
    let listed = "T : 0 1\nD 2\nE 2 0\nE 2 1\n";
    let excluding = "T : 0 1\nT : 1 0\nD 2\nX 2 3\nE 2 0\nE 2 1\nE 3 0\n";
    let fault = verdict(&card, &facts, listed, excluding).unwrap_err();
    assert!(fault.ends_with("contains both of X 2 3"), "{fault}");
}

#[test]
fn false_nestings_are_found() {
    let (card, facts) = k4();
    for (from, to, fault) in [
        ("E 2 0\n", "", "[0, 1] is strictly within [1, 1], but there is no E 2 0"),
        ("E 2 0\nE 2 1\n", "", "[0, 1] is strictly within [1, 1], but there is no E 2 0"),
        ("E 2 1\n", "", "[0, 1] is strictly within [0, 2], but there is no E 2 1"),
        ("E 2 0\n", "E 0 2\n", "E 0 2, but [1, 1] is not strictly within [0, 1]"),
        ("E 2 0\n", "E 1 0\nE 2 0\n", "E 1 0, but [0, 2] is not strictly within [1, 1]"),
        ("E 2 1\n", "E 2 1\nE 2 2\n", "E 2 2, but [0, 1] is not strictly within [0, 1]"),
        ("E 2 1\n", "E 2 1\nE 2 3\n", "E 2 3, but there are 3 conditions"),
        ("E 2 1\n", "E 2 1\nE 3 1\n", "E 3 1, but there are 3 conditions"),
        ("E 2 0\nE 2 1\n", "E 2 1\nE 2 0\n", "E 2 0 is not above the line before"),
        ("E 2 1\n", "E 2 1\nE 2 1\n", "E 2 1 is not above the line before"),
    ] {
        assert_eq!(verdict(&card, &facts, from, to), Err(format!("space 0: {fault}")), "{from} as {to}");
    }
}

/// K5 with a second object, which opens touched; and its state after schema 0 on object 0, which is on and touched then.
fn switched_on() -> (Vec<u8>, Vec<u8>) {
    let card = from_hex("03 01 01 01 02 02 0E 01 01 00 01 01 00 02 00 00 02 00 0E 01 00 00 01 00 00 02 01 00 02 00 00 02 01 00 02 01");
    (card, from_hex("0000ffff 0200ffff 0201ffff"))
}

#[test]
fn false_lines_of_a_rescue_are_found() {
    let (card, facts) = switched_on();
    assert_eq!(verdict(&card, &facts, "", ""), Ok(()));
    for (from, to, fault) in [
        ("S 0 H : 0 1 : 0\n", "S 0 H : 0 1 :\n", "object 0 is outside and has [1, 0]"),
        ("S 0 H : 0 1 : 0\n", "S 0 H : 0 1 : 0 1\n", "object 1 has [0, 0], which is not listed"),
        ("S 0 H : 0 1 : 0\n", "S 0 H : 0 2 : 0\n", "object 0 has [1, 1], which is not listed"),
        ("T : 1 0\n", "T : 2 0\n", "object 0 has [1, 0], which is not listed"),
        ("D 1\nX 0 1\n", "", "object 0 has [1, 0], which contains no D"),
        ("S 0 H : 0 1 : 0\n", "S 0 H : 0 1 2 : 0\n", "properties [0, 1, 2] are left of [0, 1, 2]"),
        ("S 0 H : 0 1 : 0\n", "S 0 H : : 0\n", "properties [] are left of [0, 1, 2]"),
        ("S 0 M : 0 1 2 : 0 1\n", "S 0 M : 0 1 2 : 1\n", "members [0] are left of [1]"),
    ] {
        assert_eq!(verdict(&card, &facts, from, to), Err(format!("space 0, rescued: {fault}")), "{from} as {to}");
    }
}

/// What a rescue lists comes directly after the line of its mixed space and has its number; a mixed space has no other lines.
#[test]
fn a_rescue_out_of_its_place_is_found() {
    let (card, facts) = switched_on();
    for (from, to) in [
        ("S 0 M : 0 1 2 : 0 1\nS 0 H : 0 1 : 0\n", "S 0 H : 0 1 : 0\nS 0 M : 0 1 2 : 0 1\n"),
        ("S 0 M : 0 1 2 : 0 1\n", ""),
        ("S 0 M ", "S 0 W "),
        ("S 0 M ", "S 0 B "),
        ("S 0 H ", "S 1 H "),
        ("S 0 H ", "S 0 P "),
        ("S 0 H : 0 1 : 0\n", ""),
        ("R 0 0 : 0 1\n", "S 0 H : 0 1 : 0\nR 0 0 : 0 1\n"),
    ] {
        assert_eq!(verdict(&card, &facts, from, to), Err("no listing".to_string()), "{from} as {to}");
    }
}

/// p(0,1) and p(0,2) turn into q: conditions 2 0, 1 1, 0 2 and 0 1, with an `X` line and two `E` lines.
#[test]
fn lines_out_of_their_order_are_found() {
    let card = from_hex("02 02 02 03 01 0F 02 01 00 00 01 01 00 00 01 01 01 00 01 00 02 00 00 01 00 00 02");
    let facts = from_hex("000001ff 000002ff");
    assert_eq!(verdict(&card, &facts, "", ""), Ok(()));
    for (from, to) in [
        ("X 0 3\nE 3 1\nE 3 2\n", "E 3 1\nE 3 2\nX 0 3\n"),
        ("X 0 3\nE 3 1\nE 3 2\n", "E 3 1\nX 0 3\nE 3 2\n"),
        ("D 0\nD 3\nX 0 3\n", "X 0 3\nD 0\nD 3\n"),
        ("C 0 2\nR 0 0 : 0\n", "R 0 0 : 0\nC 0 2\n"),
    ] {
        assert_eq!(verdict(&card, &facts, from, to), Err("no listing".to_string()), "{from} as {to}");
    }
}

/// The reference, with one kind of line changed wherever it is listed, or with commits that put back what they took out.
#[derive(Default)]
struct Changed {
    letter: &'static str,
    change: Option<fn(&str) -> String>,
    puts_back: bool,
}

impl Calls for Changed {
    fn check(&self, card: &[u8]) -> Result<(), u8> {
        Reference.check(card)
    }

    fn initial(&self, card: &[u8], state: &mut [u8]) -> Result<usize, u8> {
        Reference.initial(card, state)
    }

    fn press(&self, card: &[u8], state: &mut [u8], count: usize, schema: usize, objects: &[u8]) -> Result<usize, u8> {
        Reference.press(card, state, count, schema, objects)
    }

    fn next_open(&self, card: &[u8], state: &[u8], count: usize, given: Given, found: &mut Found) -> Result<usize, u8> {
        Reference.next_open(card, state, count, given, found)
    }

    fn preview(
        &self,
        card: &[u8],
        state: &[u8],
        count: usize,
        schema: usize,
        objects: &[u8],
        changes: &mut ChangesBytes,
    ) -> Result<usize, u8> {
        Reference.preview(card, state, count, schema, objects, changes)
    }

    fn commit(&self, card: &[u8], state: &mut [u8], count: usize, changes: &ChangesBytes) -> Result<usize, u8> {
        let count = Reference.commit(card, state, count, changes)?;
        if !self.puts_back {
            return Ok(count);
        }
        let mut facts = facts_in(&state[..count * FACT_LEN]).to_vec();
        facts.extend(Changes::from_bytes(changes).going);
        facts.sort();
        state[..facts.len() * FACT_LEN].copy_from_slice(facts.as_flattened());
        Ok(facts.len())
    }

    fn section(&self, card: &[u8], number: usize, out: &mut [u8]) -> Result<usize, u8> {
        let length = Reference.section(card, number, out)?;
        let Some(change) = self.change else { return Ok(length) };
        let text = String::from_utf8_lossy(&out[..length]);
        let line = |line: &str| if line.starts_with(self.letter) { change(line) } else { format!("{line}\n") };
        let changed: String = text.lines().map(line).collect();
        out[..changed.len()].copy_from_slice(changed.as_bytes());
        Ok(changed.len())
    }

    fn rewrite(&self, card: &[u8], out: &mut [u8]) -> Result<usize, u8> {
        Reference.rewrite(card, out)
    }
}

/// The line with its last number made smaller by one, or larger where it is 0.
fn other_number(line: &str) -> String {
    let (rest, last) = line.rsplit_once(' ').unwrap();
    let number: usize = last.parse().unwrap();
    format!("{rest} {}\n", if number > 0 { number - 1 } else { 1 })
}

fn without_last(line: &str) -> String {
    let (rest, last) = line.rsplit_once(' ').unwrap();
    format!("{}\n", if last == ":" { line } else { rest })
}

/// The line with its two numbers exchanged.
fn turned_round(line: &str) -> String {
    let words: Vec<&str> = line.split(' ').collect();
    format!("{} {} {}\n", words[0], words[2], words[1])
}

/// Each kind of line, changed in all listings, is false after one of the first random histories.
#[test]
fn false_lines_are_found_in_histories() {
    let changed = [
        ("S", without_last as fn(&str) -> String),
        ("S", |line| if line.contains(" H : ") { without_last(line) } else { format!("{line}\n") }),
        ("T", other_number),
        ("M", other_number),
        ("D", |_| String::new()),
        ("E", |_| String::new()),
        ("E", turned_round),
        ("F", other_number),
        ("C", other_number),
        ("R", without_last),
    ];
    for (letter, change) in changed {
        let changed = Changed { letter, change: Some(change), puts_back: false };
        let mut histories = Histories::new(&changed, 7);
        assert!((0..300).any(|_| histories.random_history().is_err()), "{letter}");
    }
}

/// What a commit leaves is checked too.
#[test]
fn commits_that_put_back_what_goes_are_found() {
    let putting_back = Changed { puts_back: true, ..Changed::default() };
    let mut histories = Histories::new(&putting_back, 7);
    assert!((0..300).any(|_| histories.random_history().is_err()));
}
