//! Conditions within others (document 02, request 2): the comparison of two bags, and the `E` lines of a space.

use reference::examples::card;
use reference::listing;
use reference::tim::{compare, contains, Compared};
use reference::truth::{check_nestings, Listing};
use reference::vectors::{extremes, listings};

#[test]
fn a_comparison_has_four_answers() {
    for (bag, other, answer, turned) in [
        ([1, 2, 0], [1, 2, 0], Compared::Equal, Compared::Equal),
        ([1, 0, 2], [1, 3, 2], Compared::Within, Compared::Around),
        ([0, 1, 2], [1, 1, 3], Compared::Within, Compared::Around),
        ([1, 0, 2], [0, 1, 2], Compared::Apart, Compared::Apart),
        ([2, 1, 0], [2, 0, 1], Compared::Apart, Compared::Apart),
    ] {
        assert_eq!((compare(&bag, &other), compare(&other, &bag)), (answer, turned), "{bag:?} and {other:?}");
    }
}

/// All bags of three counts up to 2: an answer says where counts are smaller and where they are larger, and nothing else.
#[test]
fn an_answer_says_whether_counts_are_smaller_and_larger() {
    let bags: Vec<[u16; 3]> = (0..27).map(|number| [number / 9, number / 3 % 3, number % 3]).collect();
    for (one, other) in bags.iter().flat_map(|one| bags.iter().map(move |other| (one, other))) {
        let smaller = (0..3).any(|place| one[place] < other[place]);
        let larger = (0..3).any(|place| one[place] > other[place]);
        let answer = match (smaller, larger) {
            (false, false) => Compared::Equal,
            (true, false) => Compared::Within,
            (false, true) => Compared::Around,
            (true, true) => Compared::Apart,
        };
        assert_eq!(compare(one, other), answer, "{one:?} and {other:?}");
        assert_eq!(contains(one, other), !smaller, "{one:?} and {other:?}");
    }
}

/// The section of space 0 from its first `T` line on.
fn lines_of_space_0(description: &str) -> String {
    let text = String::from_utf8(listing(&card(description).unwrap())).unwrap();
    let lines = text.lines().skip(1).take_while(|line| "TMDXE".contains(&line[..1]));
    lines.collect::<Vec<_>>().join(", ")
}

/// p/2 turns into q/2, one y at a time; three of them give a chain 0 1, 0 2, 0 3, and `E` lines beside an `X` line.
#[test]
fn a_chain_lists_all_its_pairs_after_x() {
    let description = "
        predicates p/2 q/2
        objects    a b c d
        schema s x y
        pre p(x,y)
        del p(x,y)
        add q(x,y)
        facts p(a,b) p(a,c) p(a,d)";
    assert_eq!(
        lines_of_space_0(description),
        "T : 3 0, T : 2 1, T : 1 2, T : 1 1, T : 0 3, T : 0 2, T : 0 1, M 0 3, M 2 3, D 0, D 6, X 0 6, \
         E 3 1, E 3 2, E 5 2, E 5 4, E 6 1, E 6 2, E 6 3, E 6 4, E 6 5"
    );
}

/// The conditions of a second start may be around those of the first, which come before them; there is no `X` line.
#[test]
fn a_condition_is_within_one_of_another_start() {
    let description = "
        predicates p/1 q/1
        objects    a b
        schema s x
        pre p(x)
        del p(x)
        add q(x)
        facts p(a) p(b) q(b)";
    assert_eq!(lines_of_space_0(description), "T : 1 0, T : 0 1, T : 1 1, T : 0 2, D 0, D 1, E 0 2, E 1 2, E 1 3");
}

#[test]
fn a_space_without_members_lists_no_nesting() {
    let description = "
        predicates p/1 q/1
        objects    a
        schema s x
        pre p(x)
        del p(x)
        add q(x)";
    assert_eq!(lines_of_space_0(description), "");
}

/// In the stored listings the `E` lines follow from the `T` lines, the `D` conditions are those around no other, and no two conditions
/// have more than one line of `X` and `E` together.
#[test]
fn stored_listings_nest_their_conditions() {
    let (mut spaces, mut lines) = (0, 0);
    for vector in listings().into_iter().chain(extremes()).filter(|vector| !vector.text.starts_with("refused")) {
        let listing = Listing::parse(&vector.text).unwrap_or_else(|| panic!("{}", vector.name));
        assert_eq!(check_nestings(&listing), Ok(()), "{}", vector.name);
        for space in &listing.spaces {
            let count = space.bags.len();
            let around_none = |index: &usize| space.nestings.iter().all(|(_, outer)| outer != index);
            assert_eq!(space.least, (0..count).filter(around_none).collect::<Vec<_>>(), "{}", vector.name);
            assert!(2 * (space.exclusions.len() + space.nestings.len()) + count <= count * count, "{}", vector.name);
            spaces += !space.nestings.is_empty() as usize;
            lines += space.nestings.len();
        }
    }
    assert_eq!((spaces, lines), (305, 16_771), "spaces with E lines, and E lines");
}
