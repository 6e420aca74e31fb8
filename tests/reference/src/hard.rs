//! States without an open press, on cards with one schema of six roles, where a search that binds the roles in order and tests each
//! precondition at its last role tries a great many bindings. With 64 objects most of the states are full.

use crate::examples::card;
use crate::strips::{Fact, FILLER, MAX_STATE_FACTS, STATE_LEN};

pub struct Hard {
    pub name: &'static str,
    pub card: Vec<u8>,
    pub state: Vec<u8>,
    pub count: usize,
}

/// The hard states with this many objects, an even number from 18 to 64.
pub fn hard_states(objects: usize) -> Vec<Hard> {
    let links: Vec<usize> = (3..17).collect();
    let even_links: Vec<usize> = (1..15).map(|half| 2 * half).collect();
    // No object is one step and two steps further on at once, and an odd number of steps is no sum of even ones.
    let join = [ring(0, &links, objects), ring(1, &[1], objects), ring(2, &[2], objects)].concat();
    let odd = [ring(0, &even_links, objects), ring(1, &[1], objects)].concat();
    let same = ring(0, &[0], objects);
    // What is added stands only where two roles have the same object.
    let full = [same.clone(), others(MAX_STATE_FACTS - objects, objects)].concat();

    let predicates = "link/2 one/2 two/2";
    let linked = "pre one(e,f) two(e,f) link(a,e) link(b,e) link(c,e) link(d,e)";
    let chained = "pre one(e,f) two(e,f) link(a,b) link(b,c) link(c,d) link(d,e)";
    let closed = "pre one(a,f) two(a,f) link(a,b) link(b,c) link(c,d) link(d,e) link(e,f)";
    let odd_closed = "pre one(a,f) link(a,b) link(b,c) link(c,d) link(d,e) link(e,f)";
    vec![
        hard("empty join of e, f; links to e", objects, predicates, linked, &join),
        hard("empty join of e, f; a chain to e", objects, predicates, chained, &join),
        hard("empty join of a, f; a chain to f", objects, predicates, closed, &join),
        hard("a chain of even steps, an odd one", objects, predicates, odd_closed, &odd),
        hard("a and f, which may not be the same", objects, "same/2", "pre same(a,f)", &same),
        hard("20 alone refuses", objects, "same/2 other/3", "add same(a,f)", &full),
    ]
}

/// The objects in a ring: the predicate holds of each one and those that are so many steps further on.
fn ring(predicate: u8, steps: &[usize], objects: usize) -> Vec<Fact> {
    let after = |object: usize| steps.iter().map(move |step| [predicate, object as u8, ((object + step) % objects) as u8, FILLER]);
    (0..objects).flat_map(after).collect()
}

/// Facts of predicate 1, of arity 3, as many as there should be.
fn others(count: usize, objects: usize) -> Vec<Fact> {
    let digit = |number: usize| (number % objects) as u8;
    (0..count).map(|number| [1, digit(number / objects / objects), digit(number / objects), digit(number)]).collect()
}

/// The card of a schema with roles a to f and these lists, and the state of these facts.
fn hard(name: &'static str, objects: usize, predicates: &str, lists: &str, facts: &[Fact]) -> Hard {
    let names: String = (0..objects).map(|object| format!(" o{object}")).collect();
    let text = format!("predicates {predicates}\nobjects{names}\nschema s a b c d e f\n{lists}");
    let mut facts = facts.to_vec();
    facts.sort();
    facts.dedup();
    let mut state = facts.concat();
    state.resize(STATE_LEN, 0);
    Hard { name, card: card(&text).unwrap_or_else(|fault| panic!("{name}: {fault}")), state, count: facts.len() }
}
