//! The pages say what the program says: K1, K4 and K5 as docs/CARD.md writes them, and each line that docs/EXAMPLES.md and docs/DOMAINS.md
//! quote.

use reference::examples::card;
use reference::listing;
use std::collections::BTreeMap;
use std::fs::{read, read_to_string};
use std::path::PathBuf;

fn path(name: &str) -> PathBuf {
    PathBuf::from(concat!(env!("CARGO_MANIFEST_DIR"), "/../..")).join(name)
}

fn page(name: &str) -> String {
    read_to_string(path(name)).unwrap()
}

/// The lines of a page between a heading and the next one.
fn part<'a>(page: &'a str, heading: &str) -> &'a str {
    let (_, after) = page.split_once(&format!("\n{heading}\n")).unwrap_or_else(|| panic!("{heading}"));
    after.split("\n## ").next().unwrap()
}

fn hex(word: &str) -> Option<u8> {
    (word.len() == 2).then(|| u8::from_str_radix(word, 16).ok()).flatten()
}

#[test]
fn k1_is_annotated_byte_by_byte() {
    let page = page("docs/CARD.md");
    let mut bytes = Vec::new();
    for line in part(&page, "## K1, byte by byte").lines() {
        let mut words = line.split(' ').filter(|word| !word.is_empty());
        let Some(place) = words.next().and_then(hex) else { continue };
        assert_eq!(place as usize, bytes.len(), "{line}");
        bytes.extend(words.map_while(hex));
    }
    let stored = read(path("crates/stakestalk/stdin")).unwrap();
    assert_eq!(bytes, stored);

    // the same bytes by printf
    let (mut printed, commands) = (Vec::new(), part(&page, "## Write it and run it"));
    for command in commands.lines().filter(|line| line.contains("printf")) {
        let inside = command.split('\'').nth(1).unwrap();
        printed.extend(inside.split("\\x").skip(1).map(|word| hex(word).unwrap()));
    }
    assert_eq!(printed, stored);
}

/// The lines that docs/CARD.md explains below a heading, without what it says of them.
fn explained(heading: &str) -> String {
    let page = page("docs/CARD.md");
    let lines = part(&page, heading).lines().filter(|line| line.contains("   "));
    lines.map(|line| line.split("   ").next().unwrap().to_string() + "\n").collect()
}

fn text(card: &[u8]) -> String {
    String::from_utf8(listing(card)).unwrap()
}

#[test]
fn k1_is_listed_line_by_line() {
    let explained = explained("## K1's listing, line by line");
    assert_eq!(explained, text(&read(path("crates/stakestalk/stdin")).unwrap()));
    assert_eq!(explained, read_to_string(path("crates/stakestalk/stdout")).unwrap());
}

#[test]
fn k4_is_listed_line_by_line() {
    let k4 = "predicates a/1 b/1\nobjects o\nschema s x\npre a(x)\ndel a(x)\nadd b(x)\nfacts a(o) b(o)\n";
    assert_eq!(explained("## Conditions within others: K4"), text(&card(k4).unwrap()));
}

#[test]
fn k5_is_listed_line_by_line() {
    let schemas = "schema up x\npre off(x)\ndel off(x)\nadd on(x) touched(x)\nschema down x\npre on(x)\ndel on(x)\nadd off(x) touched(x)\n";
    let k5 = format!("predicates on/1 off/1 touched/1\nobjects o\n{schemas}facts off(o)\n");
    assert_eq!(explained("## A mixed space rescued: K5"), text(&card(&k5).unwrap()));
}

/// The stored listings of the examples by name, as lines.
fn listings() -> BTreeMap<String, Vec<String>> {
    let mut listings: BTreeMap<String, Vec<String>> = BTreeMap::new();
    let mut name = String::new();
    for line in page("crates/examples/stdout").lines() {
        match line.strip_suffix(".card") {
            Some(next) => name = next.to_string(),
            None => listings.entry(name.clone()).or_default().push(line.to_string()),
        }
    }
    listings
}

/// The quotations of a text that are lines of a listing, or begin one: a letter, and then a number or a colon.
fn quotations(text: &str) -> impl Iterator<Item = &str> {
    text.split('`').skip(1).step_by(2).filter(|quoted| {
        let mut words = quoted.split(' ');
        matches!(words.next(), Some("S" | "T" | "M" | "D" | "X" | "E" | "F" | "C" | "R"))
            && words.next().is_some_and(|word| word == ":" || word.bytes().all(|byte| byte.is_ascii_digit()))
    })
}

/// Each quotation of a text must begin a line of the listing; answers how many there were.
fn hold(what: &str, text: &str, lines: &[&String]) -> usize {
    let mut count = 0;
    for quoted in quotations(text) {
        let begins = |line: &&&String| line.strip_prefix(quoted).is_some_and(|rest| rest.is_empty() || rest.starts_with(' '));
        assert!(lines.iter().any(|line| begins(&line)), "{what}: `{quoted}` is not listed");
        count += 1;
    }
    count
}

#[test]
fn what_the_examples_page_quotes_is_listed() {
    let (page, listings) = (page("docs/EXAMPLES.md"), listings());
    let mut quoted = 0;
    for section in page.split("\n## ").skip(1) {
        let heading = section.lines().next().unwrap();
        let names: Vec<&String> = listings.keys().filter(|name| heading.split([' ', ':', ',']).any(|word| word == *name)).collect();
        assert!(!names.is_empty(), "{heading}");
        let lines: Vec<&String> = names.iter().flat_map(|name| &listings[*name]).collect();
        quoted += hold(heading, section, &lines);
    }
    assert!(quoted > 150, "{quoted} quotations");
}

/// In the tables of docs/DOMAINS.md the second column quotes the usual form, the third the shaped one.
#[test]
fn what_the_domains_page_quotes_is_listed() {
    let (page, listings) = (page("docs/DOMAINS.md"), listings());
    let mut quoted = 0;
    for domain in ["gripper", "blocks", "ferry", "hanoi", "miconic", "depots"] {
        let forms = [format!("{domain}_usual"), format!("{domain}_shaped")];
        for line in part(&page, &format!("## {domain}")).lines() {
            match line.split('|').collect::<Vec<_>>().as_slice() {
                ["", _, usual, shaped, ""] => {
                    for (form, text) in forms.iter().zip([usual, shaped]) {
                        quoted += hold(form, text, &listings[form].iter().collect::<Vec<_>>());
                    }
                }
                _ => quoted += hold(domain, line, &listings[&forms[0]].iter().collect::<Vec<_>>()),
            }
        }
    }
    assert!(quoted > 80, "{quoted} quotations");
}

/// The header names each refusal once, by the number that it has, and the sizes that the calls ask for.
#[test]
fn the_header_has_every_number() {
    let header = page("include/stakestalk.h");
    let refusals = header.lines().filter_map(|line| line.trim().strip_prefix("STAKESTALK_REFUSED_"));
    let numbers: Vec<usize> = refusals.map(|line| line.split(['=', ',', '/']).nth(1).unwrap().trim().parse().unwrap()).collect();
    assert_eq!(numbers, (1..=23).collect::<Vec<_>>());
    for (name, value) in [
        ("STATE_BYTES", reference::strips::STATE_LEN),
        ("OUTPUT_BYTES", reference::card::OUTPUT_LEN),
        ("FACT_BYTES", reference::strips::FACT_LEN),
        ("FOUND_BYTES", reference::proved::Found::default().len()),
        ("CHANGES_BYTES", reference::preview::CHANGES_LEN),
        ("CHANGES_SCHEMA", 0),
        ("CHANGES_OBJECTS", reference::preview::OBJECTS_AT - 1),
        ("CHANGES_GOING", reference::preview::GOING_AT),
        ("CHANGES_COMING", reference::preview::COMING_AT),
    ] {
        assert!(header.contains(&format!("#define STAKESTALK_{name} {value} ")), "{name}");
    }
}
