//! What the proved library and the reference cost, side by side: medians of repeated runs, and instructions where valgrind is
//! installed. Closes with the means of each kind of call and whether they meet their targets, with what asking and committing take beside a
//! press, and with states in which the next open press is hard to find.
//!
//!     bench [SECONDS]             the least time that each median is taken over, 0.3 if not given; at least five runs
//!     bench --work ROW SIDE N     does the work of one row N times on one side, for the instructions to be counted

use reference::examples;
use reference::hard::{hard_states, Hard};
use reference::preview::{ChangesBytes, CHANGES_LEN};
use reference::proved::{Calls, Found, Proved, Reference};
use reference::random::Random;
use reference::strips::{Press, FACT_LEN, STATE_LEN};
use reference::vectors::{asks, extremes, histories, listings, open_presses, Answered, OpenPresses, K1};
use std::hint::black_box;
use std::path::PathBuf;
use std::process::{Command, Stdio};
use std::time::{Duration, Instant};

fn main() {
    let words: Vec<String> = std::env::args().skip(1).collect();
    match words.iter().map(String::as_str).collect::<Vec<_>>()[..] {
        ["--work", row, side, times] => work(row, side, times),
        [] => table(0.3),
        [seconds] => table(seconds.parse().expect("a number of seconds")),
        _ => panic!("bench [SECONDS]"),
    }
}

/// An implementation: its calls, and its program that prints the name and the listing of each file it is given.
struct Side {
    calls: &'static dyn Calls,
    program: &'static str,
}

const SIDES: [Side; 2] = [
    Side { calls: &Reference, program: concat!(env!("CARGO_MANIFEST_DIR"), "/../../target/reference/release/listing") },
    Side { calls: &Proved, program: concat!(env!("CARGO_MANIFEST_DIR"), "/../../crates/examples/out/examples") },
];

fn work(row: &str, side: &str, times: &str) {
    let [row, side, times] = [row, side, times].map(|word| word.parse::<usize>().expect("a number"));
    let mut work = (rows()[row].prepare)().expect("a row with work");
    (0..times).for_each(|_| work(&SIDES[side]));
}

// The rows.

#[derive(Clone, Copy, PartialEq)]
enum Kind {
    Decode,
    Press,
    Preview,
    Commit,
    Open,
    Listing,
    Program,
}

/// The work of a row, done once on one side.
type Work = Box<dyn FnMut(&Side)>;

struct Row {
    group: String,
    name: String,
    kind: Kind,
    /// Whether the row counts in the means; the rows that show growth do not.
    counts: bool,
    /// Makes the work ready; none if there is nothing to do.
    prepare: Box<dyn Fn() -> Option<Work>>,
}

fn rows() -> Vec<Row> {
    let mut rows = Rows { rows: Vec::new(), group: String::new(), counts: true };

    rows.group("K1");
    rows.row("decode", Kind::Decode, || Some(decode(vec![K1.to_vec()])));
    rows.row("press, four in a ring", Kind::Press, || Some(ring()));
    rows.row("preview, four in a ring", Kind::Preview, || Some(previews(questions_in_ring())));
    rows.row("commit, four in a ring", Kind::Commit, || Some(commit_ring()));
    rows.row("open presses, in a ring", Kind::Open, || Some(open_in_ring()));
    rows.row("listing, all sections", Kind::Listing, || Some(listing(vec![K1.to_vec()])));

    rows.group("listings.txt, presses.txt, asks.txt and open.txt");
    // Those that every version was measured on.
    let cards = || listings().into_iter().take(800).map(|listing| listing.card).collect();
    rows.row("decode, 800 cards", Kind::Decode, move || Some(decode(cards())));
    rows.row("press, 400 histories", Kind::Press, || Some(stored_histories()));
    rows.row("preview, asks.txt", Kind::Preview, || Some(previews(stored_questions())));
    rows.row("commit, asks.txt", Kind::Commit, || Some(commits(allowed(stored_questions()))));
    rows.row("open presses, 150 states", Kind::Open, || Some(open_in_stored_states()));
    rows.row("listing, 800 cards", Kind::Listing, move || Some(listing(cards())));

    for extreme in extremes() {
        rows.group(&extreme.name);
        rows.card("", extreme.card);
    }

    rows.group("64 opening conditions, 174 moves");
    rows.row("listing", Kind::Listing, || Some(listing(vec![conditions(8, 8, 174)])));

    rows.group("the program, in one process");
    rows.row("K1, 500 times", Kind::Program, || Some(printing(vec![K1.to_vec(); 500])));
    rows.row("800 cards", Kind::Program, move || Some(printing(cards())));
    rows.row("extreme cards but slow", Kind::Program, || {
        Some(printing(extremes().into_iter().filter(|extreme| extreme.name != "slow").map(|extreme| extreme.card).collect()))
    });

    rows.counts = false;
    rows.group("growth with conditions, all of them opening ones (128 moves)");
    for (first, second) in [(4, 4), (4, 8), (8, 8)] {
        rows.row(&format!("{} conditions, listing", first * second), Kind::Listing, move || {
            Some(listing(vec![conditions(first, second, 128)]))
        });
    }
    rows.group("growth with schemas (20 predicates, 3 objects, 20 facts)");
    for schemas in [1, 2, 4, 8, 16, 32] {
        rows.card(&format!("{schemas} schemas, "), family(schemas, 3, 20));
    }
    rows.group("growth with objects (20 predicates, 10 schemas, 20 facts)");
    for objects in [3, 8, 16, 32, 64] {
        rows.card(&format!("{objects} objects, "), family(10, objects, 20));
    }
    rows.group("growth with facts (20 predicates, 10 schemas, 64 objects)");
    for facts in [20, 40, 80, 160, 320, 512] {
        rows.card(&format!("{facts} facts, "), family(10, 64, facts));
    }
    rows.rows
}

struct Rows {
    rows: Vec<Row>,
    group: String,
    counts: bool,
}

impl Rows {
    fn group(&mut self, group: &str) {
        self.group = group.to_string();
    }

    fn row(&mut self, name: &str, kind: Kind, prepare: impl Fn() -> Option<Work> + 'static) {
        self.rows.push(Row { group: self.group.clone(), name: name.to_string(), kind, counts: self.counts, prepare: Box::new(prepare) });
    }

    /// The rows of one card; where growth is shown, without asking and committing.
    fn card(&mut self, which: &str, card: Vec<u8>) {
        let [first, second, third, fourth, fifth] = [(); 5].map(|()| card.clone());
        self.row(&format!("{which}decode"), Kind::Decode, move || Some(decode(vec![first.clone()])));
        self.row(&format!("{which}press"), Kind::Press, move || allowed_press(&second).map(pressing));
        if self.counts {
            self.row(&format!("{which}preview"), Kind::Preview, move || allowed_press(&third).map(|one| previews(vec![one.question])));
            self.row(&format!("{which}commit"), Kind::Commit, move || allowed_press(&fourth).map(|one| commits(vec![one])));
        }
        self.row(&format!("{which}listing"), Kind::Listing, move || Some(listing(vec![fifth.clone()])));
    }
}

/// The operator test domain of source document 000, appendix E: schema i exchanges the places of p and q of pair i.
/// Each further object has facts of its own, pair by pair, as far as there are facts.
fn family(schemas: usize, objects: usize, facts: usize) -> Vec<u8> {
    let pairs = 10;
    let mut text = String::from("predicates");
    (0..pairs).for_each(|pair| text += &format!(" p{pair}/2 q{pair}/2"));
    text += "\nobjects";
    (0..objects).for_each(|object| text += &format!(" o{object}"));
    for schema in 0..schemas {
        let (p, q) = (format!("p{}", schema % pairs), format!("q{}", schema % pairs));
        text += &format!("\nschema s{schema} x y z\npre {p}(x,y) {q}(x,z)\ndel {p}(x,y) {q}(x,z)\nadd {p}(x,z) {q}(x,y)");
    }
    text += "\nfacts";
    for fact in 0..facts {
        let (pair, object, second) = (fact / 2 % pairs, fact / 2 / pairs, fact % 2);
        let name = if second == 0 { "p" } else { "q" };
        text += &format!(" {name}{pair}(o{},o{})", object % objects, (object + 1 + second) % objects);
    }
    examples::card(&text).expect("the family is within a card's bounds")
}

/// A space of `first` times `second` conditions, each of them the opening condition of one object: every object has one of the
/// properties `a`, one of the properties `b`, and beside them, in front, all of the properties `c`, so that rows agree for long. There
/// are so many distinct moves: those that exchange one `a`, those that exchange one `b`, and then those that exchange both at once.
fn conditions(first: usize, second: usize, moves: usize) -> Vec<u8> {
    let exchanges = |letter: char, count: usize| -> Vec<[String; 2]> {
        let pairs = (0..count).flat_map(|from| (0..count).filter(move |&to| to != from).map(move |to| (from, to)));
        pairs.map(|(from, to)| [format!("{letter}{from}(x)"), format!("{letter}{to}(x)")]).collect()
    };
    let (of_a, of_b) = (exchanges('a', first), exchanges('b', second));
    let both = of_a.iter().flat_map(|a| of_b.iter().map(move |b| [0, 1].map(|side| format!("{} {}", a[side], b[side]))));
    let mut single: Vec<_> = of_a.iter().chain(&of_b).cloned().collect();
    let wanted = moves - single.len();
    let mut double: Vec<_> = both.step_by(of_a.len() * of_b.len() / wanted).take(wanted).collect();
    assert_eq!(double.len(), wanted, "there are enough moves");

    let mut text = String::from("predicates c0/3 c1/3 c2/3 c3/3");
    (0..8).for_each(|number| text += &format!(" a{number}/1 b{number}/1"));
    text += "\nobjects";
    (0..first * second).for_each(|object| text += &format!(" o{object}"));
    // A rule that no condition allows brings the properties `c` into the space.
    text += "\nschema joined x\npre c0(x,x,x) c1(x,x,x) c2(x,x,x) c3(x,x,x) a0(x) a1(x)";
    text += "\ndel c0(x,x,x) c1(x,x,x) c2(x,x,x) c3(x,x,x) a0(x) a1(x)\nadd b0(x)";
    // A schema has at most six roles and eight atoms a list: four moves of one atom and two of two, or four of two.
    for schema in 0.. {
        let singles = single.len().min(4);
        let doubles = double.len().min((8 - singles) / 2);
        if singles + doubles == 0 {
            break;
        }
        let roles = single.drain(..singles).collect::<Vec<_>>().into_iter().chain(double.drain(..doubles).collect::<Vec<_>>());
        let (mut header, mut taken, mut given) = (format!("\nschema s{schema}"), String::new(), String::new());
        for (role, [start, finish]) in roles.enumerate() {
            header += &format!(" x{role}");
            taken += &format!(" {}", start.replace("(x)", &format!("(x{role})")));
            given += &format!(" {}", finish.replace("(x)", &format!("(x{role})")));
        }
        text += &format!("{header}\npre{taken}\ndel{taken}\nadd{given}");
    }
    text += "\nfacts";
    for object in 0..first * second {
        (0..4).for_each(|number| text += &format!(" c{number}(o{object},o{object},o{object})"));
        text += &format!(" a{}(o{object}) b{}(o{object})", object / second, object % second);
    }
    examples::card(&text).expect("the space is within a card's bounds")
}

// The work.

fn decode(cards: Vec<Vec<u8>>) -> Work {
    Box::new(move |Side { calls, .. }| {
        for card in &cards {
            let _ = black_box(calls.check(black_box(card)));
        }
    })
}

/// All sections of each card, one call a section.
fn listing(cards: Vec<Vec<u8>>) -> Work {
    let mut out = vec![0; reference::card::OUTPUT_LEN];
    Box::new(move |Side { calls, .. }| {
        for card in &cards {
            let mut number = 0;
            while calls.section(black_box(card), number, &mut out).is_ok() {
                number += 1;
            }
        }
    })
}

/// The program run once on all of these cards, its output thrown away. Each card is a file of its own.
fn printing(cards: Vec<Vec<u8>>) -> Work {
    let room = std::env::temp_dir().join(format!("stakestalk-bench-{}-{}", std::process::id(), cards.len()));
    std::fs::create_dir_all(&room).expect("a directory for cards");
    let files: Vec<_> = (0..cards.len()).map(|number| room.join(number.to_string())).collect();
    for (file, card) in files.iter().zip(&cards) {
        std::fs::write(file, card).expect("a card is written");
    }
    let cleared = Cleared(room);
    Box::new(move |Side { program, .. }| {
        let _room = &cleared;
        let ended = Command::new(program).args(&files).stdout(Stdio::null()).status().expect("the program starts");
        assert!(ended.success(), "the program ends well");
    })
}

/// A directory that is removed in the end.
struct Cleared(PathBuf);

impl Drop for Cleared {
    fn drop(&mut self) {
        let _ = std::fs::remove_dir_all(&self.0);
    }
}

/// Four presses of K1 that bring the opening state back.
const RING: [(usize, &[u8]); 4] = [(0, &[0]), (1, &[0, 2, 3]), (0, &[0]), (1, &[0, 3, 2])];

fn ring() -> Work {
    let mut state = vec![0; STATE_LEN];
    let mut count = Reference.initial(&K1, &mut state).expect("the card is accepted");
    Box::new(move |Side { calls, .. }| {
        for (schema, objects) in RING {
            count = calls.press(black_box(&K1), &mut state, count, schema, objects).expect("the press is accepted");
        }
    })
}

/// All open presses of a state, one call each and one for the end.
fn ask_for_open(calls: &dyn Calls, card: &[u8], state: &[u8], count: usize) {
    let (mut last, mut found, mut objects) = (Found::default(), Found::default(), 0);
    loop {
        let given = (objects > 0).then(|| (last[0].into(), &last[1..=objects]));
        match calls.next_open(black_box(card), state, count, given, &mut found) {
            Ok(next @ 1..) => (last, objects) = (found, next),
            _ => break,
        }
    }
}

/// The open presses of K1 in each state of the ring.
fn open_in_ring() -> Work {
    let mut state = vec![0; STATE_LEN];
    let mut count = Reference.initial(&K1, &mut state).expect("the card is accepted");
    let states = RING.map(|(schema, objects)| {
        count = Reference.press(&K1, &mut state, count, schema, objects).expect("the press is accepted");
        (state.clone(), count)
    });
    Box::new(move |Side { calls, .. }| states.iter().for_each(|(state, count)| ask_for_open(*calls, &K1, state, *count)))
}

fn open_in_stored_states() -> Work {
    let in_buffer = |OpenPresses { card, mut facts, .. }| {
        let count = facts.len() / FACT_LEN;
        facts.resize(STATE_LEN, 0);
        (card, facts, count)
    };
    let states: Vec<_> = open_presses().into_iter().map(in_buffer).collect();
    Box::new(move |Side { calls, .. }| states.iter().for_each(|(card, state, count)| ask_for_open(*calls, card, state, *count)))
}

/// The opening call and every press of each stored history.
fn stored_histories() -> Work {
    let histories = histories();
    let mut state = vec![0; STATE_LEN];
    Box::new(move |Side { calls, .. }| {
        for history in &histories {
            let mut count = calls.initial(&history.card, &mut state).expect("the card is accepted");
            for Answered { press, .. } in &history.presses {
                count = calls.press(&history.card, &mut state, count, press.schema, &press.objects).unwrap_or(count);
            }
        }
    })
}

/// A press to ask about in a state.
#[derive(Clone)]
struct Question {
    card: Vec<u8>,
    state: Vec<u8>,
    count: usize,
    press: Press,
}

/// A press that its state allows, and what is committed of it.
#[derive(Clone)]
struct Allowed {
    question: Question,
    changes: ChangesBytes,
}

/// Those of the presses that are accepted.
fn allowed(questions: Vec<Question>) -> Vec<Allowed> {
    let asked = |question: Question| {
        let mut changes = [0; CHANGES_LEN];
        let Question { card, state, count, press } = &question;
        Reference.preview(card, state, *count, press.schema, &press.objects, &mut changes).ok()?;
        Some(Allowed { question, changes })
    };
    questions.into_iter().filter_map(asked).collect()
}

/// The presses of the ring, each in its state.
fn questions_in_ring() -> Vec<Question> {
    let mut state = vec![0; STATE_LEN];
    let mut count = Reference.initial(&K1, &mut state).expect("the card is accepted");
    let question = |(schema, objects): (usize, &[u8])| {
        let question = Question { card: K1.to_vec(), state: state.clone(), count, press: Press { schema, objects: objects.to_vec() } };
        count = Reference.press(&K1, &mut state, count, schema, objects).expect("the press is accepted");
        question
    };
    RING.into_iter().map(question).collect()
}

/// Every press of asks.txt, in its state.
fn stored_questions() -> Vec<Question> {
    let mut questions = Vec::new();
    for stored in asks() {
        let (mut state, count) = (stored.facts.clone(), stored.facts.len() / FACT_LEN);
        state.resize(STATE_LEN, 0);
        let question = |ask: Answered<_>| Question { card: stored.card.clone(), state: state.clone(), count, press: ask.press };
        questions.extend(stored.asks.into_iter().map(question));
    }
    questions
}

/// A press that the opening state of a card allows, if one is found.
fn allowed_press(card: &[u8]) -> Option<Allowed> {
    let task = reference::decode(card).expect("the card is accepted");
    let mut state = vec![0; STATE_LEN];
    let count = Reference.initial(card, &mut state).expect("the card is accepted");
    let mut random = Random::new(1);
    (0..2_000).find_map(|_| {
        let press = random.press(&task, &state[..count * FACT_LEN]);
        allowed(vec![Question { card: card.to_vec(), state: state.clone(), count, press }]).pop()
    })
}

/// One press; the state is put back each time.
fn pressing(Allowed { question: Question { card, state: before, count, press }, .. }: Allowed) -> Work {
    let mut state = before.clone();
    Box::new(move |Side { calls, .. }| {
        state.copy_from_slice(&before);
        let _ = black_box(calls.press(black_box(&card), &mut state, count, press.schema, &press.objects));
    })
}

/// Asks about each press.
fn previews(questions: Vec<Question>) -> Work {
    let mut changes = [0; CHANGES_LEN];
    Box::new(move |Side { calls, .. }| {
        for Question { card, state, count, press } in &questions {
            let _ = black_box(calls.preview(black_box(card), state, *count, press.schema, &press.objects, &mut changes));
        }
    })
}

/// Commits each press; the state is put back each time, as it is for a press.
fn commits(allowed: Vec<Allowed>) -> Work {
    let mut state = vec![0; STATE_LEN];
    Box::new(move |Side { calls, .. }| {
        for Allowed { question: Question { card, state: before, count, .. }, changes } in &allowed {
            state.copy_from_slice(before);
            let _ = black_box(calls.commit(black_box(card), &mut state, *count, changes));
        }
    })
}

/// The presses of the ring, committed.
fn commit_ring() -> Work {
    let allowed = allowed(questions_in_ring());
    let Question { mut state, mut count, .. } = allowed[0].question.clone();
    Box::new(move |Side { calls, .. }| {
        for Allowed { changes, .. } in &allowed {
            count = calls.commit(black_box(&K1), &mut state, count, changes).expect("the commit is accepted");
        }
    })
}

// The table.

/// What a row costs: reference, then proved.
struct Cost {
    seconds: [f64; 2],
    instructions: Option<[f64; 2]>,
}

fn table(seconds: f64) {
    let least = Duration::from_secs_f64(seconds);
    let counting = Command::new("valgrind").arg("--version").output().is_ok();
    if !counting {
        println!("valgrind is not installed, so no instructions are counted");
    }
    let heads = columns("reference", "proved", "ratio");
    if counting {
        println!("{:<26}{:>18}{:>36}\n{:<26}{heads}{heads}", "", "time", "instructions", "");
    } else {
        println!("{:<26}{heads}", "");
    }
    let rows = rows();
    let mut costs = Vec::new();
    let mut group = "";
    for (number, row) in rows.iter().enumerate() {
        if row.group != group {
            group = &row.group;
            println!("{group}");
        }
        let Some(mut work) = (row.prepare)() else {
            println!("  {:<24}{:>13}", row.name, "none allowed");
            continue;
        };
        let seconds = times(&mut work, least);
        let instructions = if counting && row.kind != Kind::Program { instructions(number, seconds) } else { None };
        let counts = instructions.map_or(String::new(), |counts| shown(counts, in_thousands));
        println!("  {:<24}{}{counts}", row.name, shown(seconds, duration));
        costs.push((row, Cost { seconds, instructions }));
    }
    means(&costs);
    beside_presses(least);
    hard();
}

/// The most that asking and committing may take, by the time of a press.
const MOST_OF_A_PRESS: f64 = 1.2;
/// At least so many calls are timed at once, each on a state of its own that was made ready before.
const AT_ONCE: usize = 32;

/// What asking and committing take beside a press that they are about, by the proved library alone. No time is taken for making states
/// ready.
fn beside_presses(least: Duration) {
    println!(
        "preview and commit beside the press, a call each, the proved library alone; the aim is at most {MOST_OF_A_PRESS:.2} of a press"
    );
    println!("{:<26}{:>13}{:>12}{:>12}{:>16}{:>15}", "", "press", "preview", "commit", "preview/press", "commit/press");
    let [ring, stored] = [questions_in_ring(), stored_questions()].map(allowed);
    let extremes = extremes().into_iter().map(|extreme| (extreme.name, allowed_press(&extreme.card).into_iter().collect()));
    for (name, presses) in [("K1, four in a ring".into(), ring), ("asks.txt".into(), stored)].into_iter().chain(extremes) {
        if presses.is_empty() {
            println!("  {name:<24}{:>13}", "none allowed");
            continue;
        }
        let [press, preview, commit] = times_beside(&presses, least);
        let ratios = [preview / press, commit / press];
        let verdict = if ratios.iter().all(|&ratio| ratio <= MOST_OF_A_PRESS) { "met" } else { "missed" };
        let [press, preview, commit] = [press, preview, commit].map(duration);
        println!("  {name:<24}{press:>13}{preview:>12}{commit:>12}{:>16.2}{:>15.2}  {verdict}", ratios[0], ratios[1]);
    }
}

/// The medians of a press, of asking about it and of committing it, timed in turn.
fn times_beside(presses: &[Allowed], least: Duration) -> [f64; 3] {
    let all: Vec<&Allowed> = presses.iter().cycle().take(presses.len() * AT_ONCE.div_ceil(presses.len())).collect();
    let mut states: Vec<Vec<u8>> = vec![vec![0; STATE_LEN]; all.len()];
    let mut asked = [0; CHANGES_LEN];
    let mut times = [Vec::new(), Vec::new(), Vec::new()];
    let started = Instant::now();
    while times[0].len() < 5 || started.elapsed() < least * 3 {
        for (kind, times) in times.iter_mut().enumerate() {
            for (state, Allowed { question, .. }) in states.iter_mut().zip(&all) {
                state.copy_from_slice(&question.state);
            }
            let mut calls = || {
                for (state, Allowed { question: Question { card, count, press, .. }, changes }) in states.iter_mut().zip(&all) {
                    let answer = match kind {
                        0 => Proved.press(black_box(card), state, *count, press.schema, &press.objects),
                        1 => Proved.preview(black_box(card), state, *count, press.schema, &press.objects, &mut asked),
                        _ => Proved.commit(black_box(card), state, *count, changes),
                    };
                    black_box(answer).expect("the call is accepted");
                }
            };
            times.push(time(1, &mut calls) / all.len() as f64);
        }
    }
    times.map(median)
}

/// The most seconds that a call may take in a hard state.
const AIM: f64 = 0.5;

/// What a call takes in the hard states, by the proved library alone: the other implementation takes too long.
fn hard() {
    println!("next open press, 64 objects and roles a to f, the proved library alone; the aim is at most {AIM} s for a call");
    println!("{:<36}{:>13}{:>24}", "", "after none", "after the first binding");
    for Hard { name, card, state, count } in hard_states(64) {
        let seconds = [None, Some((0, [0, 1, 2, 3, 4, 5].as_slice()))].map(|given| {
            let mut call = || assert_eq!(Proved.next_open(black_box(&card), &state, count, given, &mut Found::default()), Ok(0), "{name}");
            let first = time(1, &mut call);
            let runs = if first <= AIM { 5 } else { 0 };
            median((0..runs).map(|_| time(1, &mut call)).chain([first]).collect())
        });
        let verdict = if seconds[0].max(seconds[1]) <= AIM { "met" } else { "missed" };
        println!("  {name:<34}{:>13}{:>24}  {verdict}", duration(seconds[0]), duration(seconds[1]));
    }
}

fn columns(one: &str, other: &str, ratio: &str) -> String {
    format!("{one:>13}{other:>12}{ratio:>7}")
}

fn shown(pair: [f64; 2], show: fn(f64) -> String) -> String {
    columns(&show(pair[0]), &show(pair[1]), &format!("{:.2}", ratio(pair)))
}

fn ratio(pair: [f64; 2]) -> f64 {
    pair[1] / pair[0]
}

/// The rows that a mean is taken over.
type Choice = fn(&Row) -> bool;

const MEANS: [(&str, Choice); 8] = [
    ("decode", |row| row.counts && row.kind == Kind::Decode),
    ("press", |row| row.counts && row.kind == Kind::Press),
    ("preview", |row| row.counts && row.kind == Kind::Preview),
    ("commit", |row| row.counts && row.kind == Kind::Commit),
    ("open presses", |row| row.counts && row.kind == Kind::Open),
    ("listing", |row| row.counts && row.kind == Kind::Listing),
    ("program", |row| row.counts && row.kind == Kind::Program),
    ("listing of slow", |row| row.group == "slow" && row.kind == Kind::Listing),
];

/// The geometric means of the ratios, the highest ratios, and whether the mean of the times is at most 1.
fn means(costs: &[(&Row, Cost)]) {
    println!("ratios proved/reference without the growth rows; the target is a mean of times of at most 1.00");
    println!("{:<26}{:>10}{:>10}{:>14}{:>10}  target", "", "time", "highest", "instructions", "highest");
    for (name, chosen) in MEANS {
        let costs = costs.iter().filter(|(row, _)| chosen(row)).map(|(_, cost)| cost);
        let times: Vec<f64> = costs.clone().map(|cost| ratio(cost.seconds)).collect();
        let counts: Vec<f64> = costs.filter_map(|cost| cost.instructions.map(ratio)).collect();
        let verdict = if geometric_mean(&times) <= 1.0 { "met" } else { "missed" };
        let [time, highest] = mean_and_highest(&times);
        let [count, most] = mean_and_highest(&counts);
        println!("  {name:<24}{time:>10}{highest:>10}{count:>14}{most:>10}  {verdict}");
    }
}

fn mean_and_highest(ratios: &[f64]) -> [String; 2] {
    let highest = ratios.iter().copied().fold(0.0, f64::max);
    let show = |ratio: f64| if ratios.is_empty() { String::new() } else { format!("{ratio:.2}") };
    [show(geometric_mean(ratios)), show(highest)]
}

fn geometric_mean(ratios: &[f64]) -> f64 {
    (ratios.iter().map(|ratio| ratio.ln()).sum::<f64>() / ratios.len() as f64).exp()
}

/// The medians. The two are timed in turn, so that whatever else the machine does meets both.
fn times(work: &mut Work, least: Duration) -> [f64; 2] {
    let batches = SIDES.map(|side| (0.001 / time(1, &mut || work(&side)).max(1e-9)).clamp(1.0, 1e6) as u32);
    let mut times = [Vec::new(), Vec::new()];
    let started = Instant::now();
    while times[0].len() < 5 || started.elapsed() < least * 2 {
        for side in 0..2 {
            times[side].push(time(batches[side], &mut || work(&SIDES[side])));
        }
    }
    times.map(median)
}

fn median(mut times: Vec<f64>) -> f64 {
    times.sort_by(f64::total_cmp);
    times[times.len() / 2]
}

/// The time of a run in seconds, over a batch of them. Short runs are timed in batches of about a millisecond.
fn time(batch: u32, run: &mut impl FnMut()) -> f64 {
    let started = Instant::now();
    (0..batch).for_each(|_| run());
    started.elapsed().as_secs_f64() / f64::from(batch)
}

/// A run that takes longer than this is not counted: its time is steady, and counting it takes minutes.
const LONGEST_COUNTED: f64 = 0.1;

/// Instructions of one run: those of some runs more, shared among them. None if the run is long or valgrind does not say.
fn instructions(row: usize, seconds: [f64; 2]) -> Option<[f64; 2]> {
    if seconds[0].max(seconds[1]) > LONGEST_COUNTED {
        return None;
    }
    let more = (0.001 / seconds[0]).clamp(1.0, 1_000.0) as u64;
    let count = |side| Some((counted(row, side, 1 + more)? - counted(row, side, 1)?) as f64 / more as f64);
    Some([count(0)?, count(1)?])
}

/// The instructions of a process that does the work of a row so many times.
fn counted(row: usize, side: usize, times: u64) -> Option<i64> {
    let mut valgrind = Command::new("valgrind");
    // The C library copies and clears by loops that are counted by step, not by `rep`, which would be counted by byte.
    valgrind.env("GLIBC_TUNABLES", "glibc.cpu.x86_rep_movsb_threshold=1000000000:glibc.cpu.x86_rep_stosb_threshold=1000000000");
    valgrind.args(["--tool=cachegrind", "--cache-sim=no", "--cachegrind-out-file=/dev/null"]);
    valgrind.arg(std::env::current_exe().ok()?).arg("--work").args([row.to_string(), side.to_string(), times.to_string()]);
    let said = String::from_utf8(valgrind.output().ok()?.stderr).ok()?;
    let (_, number) = said.lines().find_map(|line| line.split_once("refs:").filter(|(before, _)| before.contains(" I ")))?;
    number.trim().replace(',', "").parse().ok()
}

fn duration(seconds: f64) -> String {
    match seconds {
        s if s < 1e-6 => format!("{:.0} ns", s * 1e9),
        s if s < 1e-3 => format!("{:.2} us", s * 1e6),
        s if s < 1.0 => format!("{:.2} ms", s * 1e3),
        s => format!("{s:.2} s"),
    }
}

fn in_thousands(number: f64) -> String {
    match number {
        n if n < 1e4 => format!("{n:.0}"),
        n if n < 1e6 => format!("{:.1} k", n / 1e3),
        n if n < 1e9 => format!("{:.2} M", n / 1e6),
        n => format!("{:.2} G", n / 1e9),
    }
}
