//! The card assembler (src/examples.rs) takes whatever a card can carry, and refuses the rest with the number of its line.

use reference::examples::{card, task, Fault};
use std::fmt::Write as _;
use std::io::Write as _;
use std::process::{Command, Stdio};

/// A sound description, to which the tests put one line in place of another.
const SOUND: [&str; 9] = [
    "# a comment, and an empty line after it",
    "",
    "predicates p/1 q/2",
    "objects a b",
    "schema s x y",
    "pre p(x) q(x,y)",
    "del p(x)",
    "add p(y) q(y,x)",
    "facts p(a) q(a,b)",
];

/// What is said of the sound description with one line, counted from 1, replaced.
fn fault(line: usize, text: &str) -> Fault {
    let mut lines = SOUND;
    lines[line - 1] = text;
    task(&lines.join("\n")).expect_err(text)
}

fn names(name: &str, count: usize) -> String {
    (0..count).map(|number| format!(" {name}{number}")).collect()
}

#[test]
fn a_sound_description_has_its_card() {
    let expected = [2, 1, 2, 2, 1, 15, 2, 2, 0, 0, 1, 0, 1, 1, 0, 0, 2, 0, 1, 1, 1, 0, 0, 2, 0, 0, 1, 0, 1];
    assert_eq!(card(&SOUND.join("\n")).unwrap(), expected);
}

#[test]
fn what_is_wrong_is_said_with_its_line() {
    for (line, text, words) in [
        (3, "predicates p q/2", "`p` has no arity"),
        (3, "predicates p/x q/2", "`p/x` has no arity"),
        (3, "predicates p/0 q/2", "`p/0` has an arity outside 1 to 3"),
        (3, "predicates p/4 q/2", "`p/4` has an arity outside 1 to 3"),
        (3, "predicates p/257 q/2", "`p/257` has an arity outside 1 to 3"),
        (3, "predicates p/1 q/2 p/2", "`p` is named twice"),
        (3, "predicates p/1 q/2 /1", "`` is no name"),
        (3, "predicates", "0 predicates, and a card has 1 to 20"),
        (4, "predicates q/1", "`q` is named twice"),
        (4, "objects", "0 objects, and a card has 1 to 64"),
        (4, "objects a b a", "`a` is named twice"),
        (4, "objects a b c(d)", "`c(d)` is no name"),
        (5, "schema", "a schema has a name"),
        (5, "schema s", "0 parameters, and a card has 1 to 6"),
        (5, "schema s x y x", "`x` is named twice"),
        (5, "schema s t u v w x y z", "7 parameters, and a card has 1 to 6"),
        (6, "pre p(x) r(x,y)", "`r(x,y)` has an unknown predicate"),
        (6, "pre p(x) q(x,a)", "`q(x,a)` has the unknown argument `a`"),
        (6, "pre p(x) q(x)", "`q(x)` has 1 arguments, and `q` has 2"),
        (6, "pre p(x) q(x,y,y)", "`q(x,y,y)` has 3 arguments, and `q` has 2"),
        (6, "pre p(x) q", "`q` is no atom"),
        (6, "pre p(x) q(x,y) p(x)", "`p(x)` is there twice"),
        (7, "del p(x) p(y)", "`p(y)` is deleted and no precondition"),
        (8, "add p(y) q(x,y)", "`q(x,y)` is added and a precondition"),
        (8, "del q(x,y)", "`s` has a line `del` already"),
        (8, "pre p(y)", "`pre` comes before `del` and `add`"),
        (8, "schema s x", "`s` is named twice"),
        (8, "goal p(y)", "`goal` opens no line"),
        (9, "facts p(a) q(a,c)", "`q(a,c)` has the unknown argument `c`"),
        (9, "facts p(a) q(a,b) p(a)", "`p(a)` is there twice"),
    ] {
        assert_eq!(fault(line, text), Fault { line, words: words.to_string() });
    }
    // A fault may lie in a line before or after the one that was changed.
    assert_eq!(fault(5, "# no schema").to_string(), "line 6: `pre` comes before any schema");
    assert_eq!(
        task(&format!("{}\nfacts p(b)\nfacts q(a,b)", SOUND.join("\n"))).unwrap_err().to_string(),
        "line 11: `q(a,b)` is a fact already"
    );
    assert_eq!(task("predicates p/1\n").unwrap_err().to_string(), "line 2: 0 objects, and a card has 1 to 64");
    assert_eq!(task("").unwrap_err().to_string(), "line 1: 0 predicates, and a card has 1 to 20");
}

/// Predicates, objects, schemas, parameters, atoms of a list and facts.
fn sized(predicates: usize, objects: usize, schemas: usize, parameters: usize, atoms: usize, facts: usize) -> String {
    let mut text = String::from("predicates");
    for number in 0..predicates {
        write!(text, " p{number}/{}", if number == 0 { 2 } else { 1 }).unwrap();
    }
    write!(text, "\nobjects{}\n", names("o", objects)).unwrap();
    for number in 0..schemas {
        writeln!(text, "schema s{number}{}", names("x", parameters)).unwrap();
        let pairs = (0..atoms).map(|place| format!(" p0(x{},x{})", place / parameters, place % parameters));
        writeln!(text, "pre{}", pairs.collect::<String>()).unwrap();
    }
    for number in 0..facts {
        writeln!(text, "facts p0(o{},o{})", number / objects, number % objects).unwrap();
    }
    text
}

#[test]
fn every_count_is_taken_to_its_limit_and_refused_above_it() {
    let full = card(&sized(20, 64, 32, 6, 8, 512)).unwrap();
    assert_eq!((full[0], full[21], full[22]), (20, 64, 32));
    for (text, fault) in [
        (sized(21, 64, 32, 6, 8, 512), "line 1: 21 predicates, and a card has 1 to 20"),
        (sized(20, 65, 32, 6, 8, 512), "line 2: 65 objects, and a card has 1 to 64"),
        (sized(20, 256, 32, 6, 8, 512), "line 2: 256 objects, and a card has 1 to 64"),
        (sized(20, 64, 33, 6, 8, 512), "line 67: 33 schemas, and a card has 0 to 32"),
        (sized(20, 64, 32, 7, 8, 512), "line 3: 7 parameters, and a card has 1 to 6"),
        (sized(20, 64, 32, 6, 9, 512), "line 4: 9 atoms, and a card has 0 to 8"),
        (sized(20, 64, 32, 6, 8, 513), "line 579: 513 facts, and a card has 0 to 512"),
    ] {
        assert_eq!(card(&text).unwrap_err().to_string(), fault);
    }
}

/// The program says the fault and writes nothing.
#[test]
fn the_program_refuses_too() {
    let mut program =
        Command::new(env!("CARGO_BIN_EXE_example")).stdin(Stdio::piped()).stdout(Stdio::piped()).stderr(Stdio::piped()).spawn().unwrap();
    program.stdin.take().unwrap().write_all(b"predicates p/1\nobjects a a\n").unwrap();
    let output = program.wait_with_output().unwrap();
    assert_eq!((output.status.code(), output.stdout.as_slice()), (Some(1), b"".as_slice()));
    assert_eq!(String::from_utf8(output.stderr).unwrap(), "line 2: `a` is named twice\n");
}
