//! The rescue of mixed spaces (document 02, request 5): K5 and the cards of its readings, each way that a rescue ends, one, two and three
//! rounds, members, and what goes by the mixed space all the same.

use reference::examples::{card, task};
use reference::listing;
use reference::reachable::hold;
use reference::rescue::{rescues, End};
use reference::truth::{check_rescues, Listing};
use reference::vectors::{extremes, from_hex, listings};

fn text(card: &[u8]) -> String {
    String::from_utf8(listing(card)).unwrap()
}

/// The lines of space 0's section.
fn section_0(card: &[u8]) -> Vec<String> {
    let text = text(card);
    let lines = text.lines().take_while(|line| !line.starts_with("S 1 ") && !"FCR".contains(&line[..1]));
    lines.map(String::from).collect()
}

/// A description by its predicates, its objects, its schemas (roles, what is taken, what is given) and its facts.
fn description(predicates: &str, objects: &str, schemas: &[(&str, &str, &str)], facts: &str) -> String {
    let schema = |(number, (roles, takes, gives)): (usize, &(&str, &str, &str))| {
        format!("schema s{number} {roles}\npre {takes}\ndel {takes}\nadd {gives}\n")
    };
    let schemas: String = schemas.iter().enumerate().map(schema).collect();
    format!("predicates {predicates}\nobjects {objects}\n{schemas}facts {facts}\n")
}

/// The rounds of each mixed space's rescue, and how it ended.
fn ends(description: &str) -> Vec<(usize, &'static str)> {
    let end = |end: &End| match end {
        End::Listed(..) => "listed",
        End::Wide => "wide",
        End::OneSided => "one side",
        End::NoProperty => "no property",
    };
    rescues(&task(description).unwrap()).iter().map(|(_, rescue)| (rescue.rounds, end(&rescue.end))).collect()
}

/// The listing of a description, held to every state that its presses reach.
fn held(description: &str) -> Vec<String> {
    let card = card(description).unwrap();
    let reached = hold(&card, &text(&card), 3_000).unwrap_or_else(|fault| panic!("{fault}\n{description}"));
    assert!(reached.presses > 0, "{description}");
    section_0(&card)
}

const SWITCH: [(&str, &str, &str); 2] = [("x", "off(x)", "on(x) touched(x)"), ("x", "on(x)", "off(x) touched(x)")];

#[test]
fn k5_is_rescued() {
    let k5 = description("on/1 off/1 touched/1", "o", &SWITCH, "off(o)");
    assert_eq!(ends(&k5), [(1, "listed")]);
    assert_eq!(held(&k5), ["S 0 M : 0 1 2 : 0", "S 0 H : 0 1 : 0", "T : 0 1", "T : 1 0", "D 0", "D 1", "X 0 1"]);
}

/// a gives c, c gives a and b; the object opens with a and c. The result 1 1 1 ends the listing. On the list, 1 0 1 and 0 0 2 and 0 0 1 and
/// 2 1 0 and 1 1 0, it strictly contains the first, the third and the last; by the first b is dropped, by the last c.
#[test]
fn the_first_contained_condition_counts() {
    let card = from_hex("0301010101020e0100000100000102000e0102000102000200000100000200000200");
    let lines = "S 0 M : 0 1 2 : 0, S 0 H : 0 2 : 0, T : 1 1, T : 0 2, T : 0 1, T : 2 0, T : 1 0, D 2, D 4, E 2 0, E 2 1, E 4 0, E 4 3";
    assert_eq!(section_0(&card).join(", "), lines);
}

/// The only member opens with nothing but hidden attributes.
#[test]
fn no_member_may_be_left() {
    let card = from_hex(
        "040202010102030f040100000101000001030100010100020100030f030201000101000202010001010002020000010000020f02\
         0200000102000200000102000201000103000001000001",
    );
    assert_eq!(section_0(&card), ["S 0 M : 0 2 4 5 : 0", "S 0 H : 4 5 :"]);
}

/// A switch whose attribute turns into a position of it, or comes of one alone: without the attribute that rule has one empty side.
#[test]
fn a_rule_with_one_side_is_no_rescue() {
    for schema in [("x", "touched(x)", "on(x)"), ("x", "on(x)", "touched(x)")] {
        let stuck = description("on/1 off/1 touched/1", "o", &[SWITCH[0], SWITCH[1], schema], "off(o)");
        assert_eq!(ends(&stuck), [(1, "one side")]);
        assert_eq!(held(&stuck), ["S 0 M : 0 1 2 : 0"]);
    }
}

/// One p turns into two q, and one q into two p: 1 0, 0 2, 2 1, which has more of both than 1 0.
const DOUBLING: [(&str, &str, &str); 2] = [("x y z", "p(x,y)", "q(x,y) q(x,z)"), ("x y z", "q(x,y)", "p(x,y) p(x,z)")];

#[test]
fn no_property_left_is_no_rescue() {
    let doubling = description("p/2 q/2", "a b c", &DOUBLING, "p(a,b)");
    assert_eq!(ends(&doubling), [(1, "no property")]);
    assert_eq!(held(&doubling), ["S 0 M : 0 2 : 0"]);
}

/// With a switch that p turns, the rule of the switch alone is left, and its one member; without a switch that is on, none.
#[test]
fn rules_without_a_side_are_dropped() {
    let schemas = [DOUBLING[0], DOUBLING[1], ("x y", "p(x,y) on(x)", "q(x,y) off(x)")];
    let with_switches = |facts: &str| description("p/2 q/2 on/1 off/1", "a b c", &schemas, facts);
    assert_eq!(ends(&with_switches("p(a,b)")), [(1, "listed")]);
    assert_eq!(held(&with_switches("p(a,b)")), ["S 0 M : 0 2 4 5 : 0", "S 0 H : 4 5 :"]);
    let lines = ["S 0 M : 0 2 4 5 : 0 2", "S 0 H : 4 5 : 2", "T : 1 0", "T : 0 1", "D 0", "D 1", "X 0 1"];
    assert_eq!(held(&with_switches("p(a,b) on(c)")), lines);
}

/// A switch that is counted where it goes off, or turns a p into q then. From three p what is left has few conditions, from 11 too many.
#[test]
fn a_wide_rescue_prints_nothing() {
    let counting = |targets: usize| {
        let schemas = [("x", "on(x)", "off(x) touched(x)"), ("x", "off(x)", "on(x)"), ("x y", "on(x) p(x,y)", "off(x) q(x,y)")];
        let objects: String = (0..targets).map(|target| format!(" t{target}")).collect();
        let facts: String = (0..targets).map(|target| format!(" p(o,t{target})")).collect();
        description("on/1 off/1 touched/1 p/2 q/2", &format!("o{objects}"), &schemas, &format!("on(o){facts}"))
    };
    assert_eq!(ends(&counting(3)), [(1, "listed")]);
    assert_eq!(held(&counting(3))[..2], ["S 0 M : 0 1 2 3 5 : 0", "S 0 H : 0 1 3 5 : 0"]);
    assert_eq!(ends(&counting(11)), [(1, "wide")]);
    assert_eq!(section_0(&card(&counting(11)).unwrap()), ["S 0 M : 0 1 2 3 5 : 0"]);
}

/// A state from which there are ways to others and back, each of which gains an attribute of its own.
fn ways(number: usize) -> String {
    let names = |before: &str| -> String { (1..=number).map(|way| format!(" {before}{way}/1")).collect() };
    let out = |way: usize| format!("schema out{way} x\npre home(x)\ndel home(x)\nadd s{way}(x) h{way}(x)\n");
    let back = |way: usize| format!("schema back{way} x\npre s{way}(x)\ndel s{way}(x)\nadd home(x)\n");
    let schemas: String = (1..=number).map(|way| out(way) + &back(way)).collect();
    format!("predicates home/1{}{}\nobjects o\n{schemas}facts home(o)\n", names("s"), names("h"))
}

/// Each round finds the attribute of one way.
#[test]
fn rounds_go_on_while_the_outcome_is_mixed() {
    for number in 1..=4 {
        assert_eq!(ends(&ways(number)), [(number, "listed")]);
    }
    let three = "S 0 M : 0 1 2 3 4 5 6 : 0, S 0 H : 0 1 2 3 : 0, T : 1 0 0 0, T : 0 1 0 0, T : 0 0 1 0, T : 0 0 0 1, \
                 D 0, D 1, D 2, D 3, X 0 1, X 0 2, X 0 3, X 1 2, X 1 3, X 2 3";
    assert_eq!(held(&ways(3)).join(", "), three);
}

/// The attribute of the second way turns into a state: the rescue is given up in the second round.
#[test]
fn a_later_round_may_be_given_up() {
    let schema = "schema turn x\npre h2(x)\ndel h2(x)\nadd s1(x)\nfacts";
    assert_eq!(ends(&ways(2).replace("facts", schema)), [(2, "one side")]);
}

/// The first round drops what two q leave when they turn into one p. It stands before the rule that doubles.
#[test]
fn a_later_round_may_leave_no_property() {
    let schemas = [("x y z", "q(x,y) q(x,z)", "p(x,y) touched(x)"), DOUBLING[0], DOUBLING[1]];
    let doubling = description("p/2 q/2 touched/1", "a b c", &schemas, "p(a,b)");
    assert_eq!(ends(&doubling), [(2, "no property")]);
    assert_eq!(held(&doubling), ["S 0 M : 0 2 4 : 0"]);
}

/// Objects that open with nothing but the attribute are members of the mixed space alone. R lines go by that space.
#[test]
fn members_have_something_that_is_left() {
    let two = description("on/1 off/1 touched/1", "o t", &SWITCH, "off(o) touched(t)");
    let lines = ["S 0 M : 0 1 2 : 0 1", "S 0 H : 0 1 : 0", "T : 0 1", "T : 1 0", "D 0", "D 1", "X 0 1"];
    assert_eq!(held(&two), lines);
    assert!(text(&card(&two).unwrap()).ends_with("X 0 1\nR 0 0 : 0 1\nR 1 0 : 0 1\n"));
}

/// An attribute space whose rule asks for a position of the switch has the mixed space's members.
#[test]
fn enablers_go_by_the_mixed_space() {
    let seen = "schema see x\npre on(x)\nadd seen(x)\nfacts";
    let two = description("on/1 off/1 touched/1 seen/1", "o t", &SWITCH, "off(o) touched(t)").replace("facts", seen);
    held(&two);
    assert!(text(&card(&two).unwrap()).contains("\nS 1 A : 3 : 0 1\n"));
}

/// Each condition of the rescued switch has one cover, and none of what would take it off; no F line says so.
#[test]
fn no_total_comes_of_a_rescue() {
    let schemas = [SWITCH[0], SWITCH[1], ("x", "cover(x) tool(x)", "on(x)")];
    let covered = description("on/1 off/1 touched/1 cover/1 tool/1", "o", &schemas, "off(o) cover(o)");
    let lines = ["S 0 M : 0 1 2 3 4 : 0", "S 0 H : 0 1 3 4 : 0", "T : 0 1 1 0", "T : 1 0 1 0", "D 0", "D 1", "X 0 1"];
    assert_eq!(held(&covered), lines);
    let text = text(&card(&covered).unwrap());
    assert!(text.contains("\nC 3 1\n") && !text.contains("\nF "), "{text}");
}

/// The sections after it keep their numbers.
#[test]
fn a_rescue_is_in_the_section_of_its_space() {
    let lighting = ("x", "dark(x)", "lit(x)");
    let both = description("on/1 off/1 touched/1 dark/1 lit/1", "o", &[SWITCH[0], lighting, SWITCH[1]], "off(o) dark(o)");
    let text = text(&card(&both).unwrap());
    let spaces: Vec<&str> = text.lines().filter(|line| line.starts_with('S')).collect();
    assert_eq!(spaces, ["S 0 M : 0 1 2 : 0", "S 0 H : 0 1 : 0", "S 1 P : 3 4 : 0"]);
}

/// In the stored listings what is rescued is some of a mixed space.
#[test]
fn stored_listings_have_rescued_spaces() {
    let (mut mixed, mut rescued) = (0, 0);
    for vector in listings().into_iter().chain(extremes()).filter(|vector| !vector.text.starts_with("refused")) {
        let listing = Listing::parse(&vector.text).unwrap_or_else(|| panic!("{}", vector.name));
        assert_eq!(check_rescues(&listing), Ok(()), "{}", vector.name);
        mixed += listing.spaces.iter().filter(|space| space.kind == "M").count();
        rescued += listing.spaces.iter().filter(|space| space.kind == "H").count();
    }
    assert_eq!((mixed, rescued), (193, 157), "mixed spaces, and those of them that are rescued");
}
