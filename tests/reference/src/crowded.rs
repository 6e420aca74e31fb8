//! Crowded cards: a property space with about 64 distinct conditions from several starts, and one beside it; the conditions of both in
//! closed form (document 01, "Conditions"; document 02, request 3).
//!
//! A crowded card has predicates p/2 and q/2 and one schema, which takes p(X,Y) and adds q(X,Y). Space 0 has the first positions of both,
//! space 1 the second ones. Each has one rule, from p to q, so that a condition is a number of p and a number of q. The members of
//! space 0 are the first objects; those of space 1 are the targets, which are numbered after them.

use crate::examples;
use crate::truth::Listing;
use std::collections::BTreeSet;

/// An object's number of p and of q.
pub type Condition = (usize, usize);

/// The most distinct conditions of a space; one more ends it as wide. A constant of its own, since the analysis is held to it.
pub const MOST_CONDITIONS: usize = 64;

/// The card whose first objects have these opening conditions: each has p with the first targets, and q with the first targets.
pub fn card(starts: &[Condition]) -> Vec<u8> {
    let objects: String = (0..starts.len()).map(|object| format!(" o{object}")).collect();
    let targets: String = (0..targets(starts)).map(|target| format!(" t{target}")).collect();
    let facts = |predicate: &str, object: usize, count: usize| -> String {
        (0..count).map(|target| format!(" {predicate}(o{object},t{target})")).collect()
    };
    let facts: String = starts.iter().enumerate().map(|(object, &(p, q))| facts("p", object, p) + &facts("q", object, q)).collect();
    let schema = "schema s x y\npre p(x,y)\ndel p(x,y)\nadd q(x,y)";
    let text = format!("predicates p/2 q/2\nobjects{objects}{targets}\n{schema}\nfacts{facts}");
    examples::card(&text).unwrap_or_else(|fault| panic!("{starts:?}: {fault}"))
}

/// The number of targets: the most facts of one predicate that a first object has.
fn targets(starts: &[Condition]) -> usize {
    starts.iter().map(|&(p, q)| p.max(q)).max().unwrap_or(0)
}

/// The distinct opening conditions of each space's members, in object order.
pub fn starts_of_spaces(starts: &[Condition]) -> [Vec<Condition>; 2] {
    let holders = |count: fn(&Condition) -> usize, target| starts.iter().filter(|start| count(start) > target).count();
    let of_target = |target| (holders(|start| start.0, target), holders(|start| start.1, target));
    let of_targets: Vec<Condition> = (0..targets(starts)).map(of_target).collect();
    [distinct(starts), distinct(&of_targets)]
}

/// The conditions without repeats, and without the empty one, which makes no member.
fn distinct(conditions: &[Condition]) -> Vec<Condition> {
    let mut distinct = Vec::new();
    for &condition in conditions {
        if condition != (0, 0) && !distinct.contains(&condition) {
            distinct.push(condition);
        }
    }
    distinct
}

/// The conditions on a start's own list. Each use of the rule removes one p. The q that it gives adds one, or is swallowed where a q is
/// left; so the first q of all is never swallowed.
pub fn own_list((p, q): Condition) -> BTreeSet<Condition> {
    let after = |uses: usize| {
        let least = if uses > 0 { q.max(1) } else { q };
        (least..=q + uses).map(move |given| (p - uses, given))
    };
    (0..=p).flat_map(after).collect()
}

/// The distinct conditions from all these starts. The space is P with just these, or W if they are too many. It is never mixed: a
/// list has its conditions by falling p and then by falling q, so that no result contains an earlier one.
pub fn conditions(starts: &[Condition]) -> BTreeSet<Condition> {
    starts.iter().copied().flat_map(own_list).collect()
}

/// The index of the start whose own search meets the 65th condition, if there are so many. All starts count from the beginning.
pub fn start_of_65th(starts: &[Condition]) -> Option<usize> {
    let mut met: BTreeSet<Condition> = starts.iter().copied().collect();
    starts.iter().position(|&start| {
        met.extend(own_list(start));
        met.len() > MOST_CONDITIONS
    })
}

/// Holds both spaces of a crowded card's listing, or of its first two sections, to the closed form: the kind and the `T` lines.
pub fn check(starts: &[Condition], text: &str) -> Result<(), String> {
    let listing = Listing::parse(text).ok_or("what was listed is no listing")?;
    if listing.spaces.len() != 2 {
        return Err(format!("{} spaces are listed", listing.spaces.len()));
    }
    for (space, starts) in listing.spaces.iter().zip(starts_of_spaces(starts)) {
        let conditions = conditions(&starts);
        let number = conditions.len();
        let (kind, conditions) = if number > MOST_CONDITIONS { ("W", BTreeSet::new()) } else { ("P", conditions) };
        let mut lines = space.bags.clone();
        lines.sort();
        if space.kind != kind || !lines.into_iter().eq(conditions.into_iter().map(|(p, q)| vec![p, q])) {
            let listed = format!("{} with {} conditions", space.kind, space.bags.len());
            return Err(format!("the space of starts {starts:?} is listed as {listed}, and is {kind} of {number}"));
        }
    }
    Ok(())
}
