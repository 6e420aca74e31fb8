//! The outside vectors of tests/vectors, and document 01's bench card.

use crate::preview::Changes;
use crate::strips::{facts_in, Fact, Press};
use std::fs;
use std::path::PathBuf;

/// K1 of document 01: predicates idle/1, armed/1, holds/2, sample/1.
pub const K1: [u8; 55] = [
    0x04, 0x01, 0x01, 0x02, 0x01, 0x04, 0x02, 0x0E, 0x01, 0x00, 0x00, 0x01, 0x00, 0x00, 0x01, 0x01, 0x00, 0x0F, 0x03, 0x03, 0x01, 0x00,
    0x02, 0x00, 0x01, 0x03, 0x02, 0x02, 0x01, 0x00, 0x02, 0x00, 0x01, 0x02, 0x00, 0x00, 0x02, 0x00, 0x02, 0x00, 0x06, 0x00, 0x00, 0x00,
    0x01, 0x02, 0x00, 0x02, 0x02, 0x01, 0x02, 0x03, 0x02, 0x03, 0x03,
];

/// A card with what the program prints for it.
pub struct Listing {
    pub name: String,
    pub card: Vec<u8>,
    pub text: String,
}

/// A call that names a press, and its answer.
pub struct Answered<T> {
    pub press: Press,
    pub answer: Result<T, u8>,
}

/// Presses in order from the opening state, and the facts that stand after them.
pub struct History {
    pub card: Vec<u8>,
    pub presses: Vec<Answered<usize>>,
    pub facts: Vec<u8>,
}

/// The facts of a state, its open presses in order, and the next open one after some presses, open or not.
pub struct OpenPresses {
    pub card: Vec<u8>,
    pub facts: Vec<u8>,
    pub open: Vec<Press>,
    pub after: Vec<Answered<Option<Press>>>,
}

/// The facts of a state, and what some presses would change in it.
pub struct Asks {
    pub card: Vec<u8>,
    pub facts: Vec<u8>,
    pub asks: Vec<Answered<Changes>>,
}

/// The repository's directory of tests.
pub fn tests() -> PathBuf {
    PathBuf::from(concat!(env!("CARGO_MANIFEST_DIR"), "/.."))
}

/// The bytes of a run of hex digits, blanks aside.
pub fn from_hex(text: &str) -> Vec<u8> {
    let digits: Vec<u8> = text.chars().filter_map(|digit| digit.to_digit(16)).map(|digit| digit as u8).collect();
    digits.chunks_exact(2).map(|pair| pair[0] << 4 | pair[1]).collect()
}

pub fn to_hex(bytes: &[u8]) -> String {
    bytes.iter().map(|byte| format!("{byte:02x}")).collect()
}

/// The 1,000 cards of listings.txt. Of the last 200 three in four have a mixed space that is rescued.
pub fn listings() -> Vec<Listing> {
    let text = read("vectors/listings.txt");
    let blocks = blocks(&text).into_iter().enumerate();
    let listing = |(number, lines): (usize, Vec<&str>)| Listing {
        name: format!("listings.txt, block {number}"),
        card: from_hex(lines[0]),
        text: lines[1..].iter().map(|line| format!("{line}\n")).collect(),
    };
    blocks.map(listing).collect()
}

/// The cards of extreme/, by name.
pub fn extremes() -> Vec<Listing> {
    let mut names: Vec<String> = fs::read_dir(tests().join("vectors/extreme"))
        .expect("the vectors are there")
        .filter_map(|entry| entry.ok()?.file_name().to_str()?.strip_suffix(".card").map(String::from))
        .collect();
    names.sort();
    let listing = |name: String| {
        let card = fs::read(tests().join(format!("vectors/extreme/{name}.card"))).expect("the card is there");
        let text = read(&format!("vectors/extreme/{name}.listing"));
        Listing { name, card, text }
    };
    names.into_iter().map(listing).collect()
}

/// The 400 histories of presses.txt.
pub fn histories() -> Vec<History> {
    let text = read("vectors/presses.txt");
    blocks(&text).into_iter().map(|lines| history(&lines)).collect()
}

fn history(lines: &[&str]) -> History {
    let (last, presses) = lines[1..].split_last().expect("a history ends with its state");
    let facts = from_hex(last.strip_prefix("state").expect("a history ends with its state"));
    let count = |answer: &str| answer.parse().expect("a count is a number");
    let press = |line: &&str| answered(line.strip_prefix("press").expect("a history has presses"), count);
    History { card: from_hex(lines[0]), presses: presses.iter().map(press).collect(), facts }
}

/// The 150 states of open.txt.
pub fn open_presses() -> Vec<OpenPresses> {
    let text = read("vectors/open.txt");
    blocks(&text).into_iter().map(|lines| open_presses_of(&lines)).collect()
}

fn open_presses_of(lines: &[&str]) -> OpenPresses {
    let facts = from_hex(lines[1].strip_prefix("state").expect("a state comes after its card"));
    let next = |answer: &str| (answer != "end").then(|| press(answer));
    let (mut open, mut after) = (Vec::new(), Vec::new());
    for line in &lines[2..] {
        match line.split_once(' ') {
            Some(("open", words)) => open.push(press(words)),
            Some(("after", words)) => after.push(answered(words, next)),
            _ => panic!("open.txt: {line}"),
        }
    }
    OpenPresses { card: from_hex(lines[0]), facts, open, after }
}

/// The 150 states of asks.txt.
pub fn asks() -> Vec<Asks> {
    let text = read("vectors/asks.txt");
    blocks(&text).into_iter().map(|lines| asks_of(&lines)).collect()
}

fn asks_of(lines: &[&str]) -> Asks {
    let facts = from_hex(lines[1].strip_prefix("state").expect("a state comes after its card"));
    let ask = |line: &&str| {
        let words = line.strip_prefix("ask").expect("asks come after the state");
        let Answered { press, answer } = answered(words, going_and_coming);
        Answered { answer: answer.map(|[going, coming]| Changes { press: press.clone(), going, coming }), press }
    };
    Asks { card: from_hex(lines[0]), facts, asks: lines[2..].iter().map(ask).collect() }
}

/// The facts that go and those that come.
fn going_and_coming(words: &str) -> [Vec<Fact>; 2] {
    let (going, coming) = words.strip_prefix("going").and_then(|lists| lists.split_once("coming")).expect("an ask has two lists");
    [going, coming].map(|list| facts_in(&from_hex(list)).to_vec())
}

/// A press, an arrow and its answer, which is a refusal or something else.
fn answered<T>(words: &str, accepted: impl Fn(&str) -> T) -> Answered<T> {
    let (words, answer) = words.split_once("->").expect("a press has its answer");
    let answer = match answer.trim().strip_prefix("refused ") {
        Some(number) => Err(number.parse().expect("a refusal is a number")),
        None => Ok(accepted(answer.trim())),
    };
    Answered { press: press(words), answer }
}

/// A schema, a colon and objects.
fn press(words: &str) -> Press {
    let (schema, objects) = words.split_once(':').expect("a press has its objects");
    Press {
        schema: schema.trim().parse().expect("a schema is a number"),
        objects: objects.split_whitespace().map(|object| object.parse().expect("an object is a number")).collect(),
    }
}

/// The lines of each block that a line `--` closes. An empty card is an empty first line.
fn blocks(text: &str) -> Vec<Vec<&str>> {
    let mut blocks = Vec::new();
    let mut lines = Vec::new();
    for line in text.lines() {
        if line == "--" {
            blocks.push(std::mem::take(&mut lines));
        } else {
            lines.push(line);
        }
    }
    blocks
}

fn read(path: &str) -> String {
    fs::read_to_string(tests().join(path)).unwrap_or_else(|error| panic!("{path}: {error}"))
}
