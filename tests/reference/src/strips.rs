//! States in a lent buffer, the opening call and the press (document 01, "Pressing").

use crate::card::{decode, Atom, Schema, Task};
use crate::refusal::*;

/// The length of a fact of a state: predicate, objects, filler.
pub const FACT_LEN: usize = 4;
pub type Fact = [u8; FACT_LEN];
pub const FILLER: u8 = 0xFF;
pub const MAX_STATE_FACTS: usize = 1_024;
pub const STATE_LEN: usize = MAX_STATE_FACTS * FACT_LEN;

/// A schema and one object for each of its parameters. The derived order is that of document 02, request 1.
#[derive(Clone, Debug, PartialEq, Eq, PartialOrd, Ord)]
pub struct Press {
    pub schema: usize,
    pub objects: Vec<u8>,
}

impl Press {
    /// The press as a call takes it.
    pub fn parts(&self) -> (usize, &[u8]) {
        (self.schema, &self.objects)
    }
}

/// Writes the card's facts as a state and answers their number. Refuses by 1 to 14, and a short buffer by 15.
pub fn initial(card: &[u8], state: &mut [u8]) -> Result<usize, u8> {
    let task = decode(card)?;
    let state = state.get_mut(..STATE_LEN).ok_or(STATE)?;
    let (facts, rest) = state.split_at_mut(task.facts().len() * FACT_LEN);
    for (place, fact) in facts.chunks_exact_mut(FACT_LEN).zip(task.facts()) {
        place.copy_from_slice(&ground(&task, fact, |object| object));
    }
    rest.fill(0);
    Ok(task.facts().len())
}

/// Applies a schema to objects, one for each parameter, in the state of `count` facts, and answers the new count.
/// Refuses by 1 to 20 and then leaves the buffer as it was.
pub fn press(card: &[u8], state: &mut [u8], count: usize, schema: usize, objects: &[u8]) -> Result<usize, u8> {
    let task = decode(card)?;
    let facts = facts_of(&task, state, count)?;
    let schema = named_schema(&task, schema, objects)?;
    may_press(&task, facts, schema, objects)?;
    Ok(apply(&task, state, count, schema, objects))
}

/// Takes the deletes out of a state that allows the press and puts the adds in; answers the new count. Past the last fact it leaves 0.
pub fn apply(task: &Task, state: &mut [u8], count: usize, schema: &Schema, objects: &[u8]) -> usize {
    let bind = |atom: &Atom| ground(task, atom, |parameter| objects[parameter as usize]);
    let state = &mut state[..STATE_LEN];
    let mut end = count * FACT_LEN;
    for atom in schema.deletes.as_slice() {
        if let Ok(at) = find(&state[..end], &bind(atom)) {
            state.copy_within(at + FACT_LEN..end, at);
            end -= FACT_LEN;
        }
    }
    for atom in schema.adds.as_slice() {
        let fact = bind(atom);
        if let Err(at) = find(&state[..end], &fact) {
            state.copy_within(at..end, at + FACT_LEN);
            state[at..at + FACT_LEN].copy_from_slice(&fact);
            end += FACT_LEN;
        }
    }
    state[end..].fill(0);
    end / FACT_LEN
}

/// A run of bytes as facts.
pub fn facts_in(bytes: &[u8]) -> &[Fact] {
    bytes.as_chunks().0
}

/// The facts of a state in its buffer. Refuses by 15.
pub fn facts_of<'a>(task: &Task, state: &'a [u8], count: usize) -> Result<&'a [u8], u8> {
    let state = state.get(..STATE_LEN).ok_or(STATE)?;
    if !well_formed(task, state, count) {
        return Err(STATE);
    }
    Ok(&state[..count * FACT_LEN])
}

/// The schema of a press. Refuses by 16 to 18, whatever the state.
pub fn named_schema<'a>(task: &'a Task, schema: usize, objects: &[u8]) -> Result<&'a Schema, u8> {
    let schema = task.schemas().get(schema).ok_or(UNKNOWN_SCHEMA)?;
    if objects.len() != schema.parameters as usize || objects.iter().any(|&object| object >= task.object_count) {
        return Err(BINDING);
    }
    let mut bound = 0u64;
    for &object in objects {
        if bound & 1 << object != 0 {
            return Err(SAME_OBJECT);
        }
        bound |= 1 << object;
    }
    Ok(schema)
}

/// Whether the state allows a press on different objects and has room for what it adds. Refuses by 19 and 20.
pub fn may_press(task: &Task, facts: &[u8], schema: &Schema, objects: &[u8]) -> Result<(), u8> {
    let is_fact = |atom: &Atom| holds(task, facts, atom, objects);
    if !schema.preconditions.as_slice().iter().all(is_fact) {
        return Err(PRECONDITION);
    }
    // Different parameters have different objects, so the grounded deletes are as many as the deletes,
    // all of them in the state, and none is an add.
    let new_adds = schema.adds.as_slice().iter().filter(|&atom| !is_fact(atom)).count();
    if facts.len() / FACT_LEN - schema.deletes.as_slice().len() + new_adds > MAX_STATE_FACTS {
        return Err(FULL);
    }
    Ok(())
}

/// Whether an atom is a fact of the state when these are the objects of its parameters. Objects of later parameters may be missing.
pub fn holds(task: &Task, facts: &[u8], atom: &Atom, objects: &[u8]) -> bool {
    find(facts, &ground(task, atom, |parameter| objects[parameter as usize])).is_ok()
}

/// The fact that an atom becomes when its arguments are looked up.
pub fn ground(task: &Task, atom: &Atom, object: impl Fn(u8) -> u8) -> Fact {
    let mut fact = [FILLER; FACT_LEN];
    fact[0] = atom.predicate;
    for (place, &argument) in fact[1..].iter_mut().zip(task.arguments(atom)) {
        *place = object(argument);
    }
    fact
}

/// The byte at which the fact stands among ascending facts, or else the byte at which it would have to.
fn find(facts: &[u8], fact: &Fact) -> Result<usize, usize> {
    let (mut low, mut high) = (0, facts.len() / FACT_LEN);
    while low < high {
        let middle = (low + high) / 2;
        match facts[middle * FACT_LEN..(middle + 1) * FACT_LEN].cmp(fact) {
            std::cmp::Ordering::Less => low = middle + 1,
            std::cmp::Ordering::Equal => return Ok(middle * FACT_LEN),
            std::cmp::Ordering::Greater => high = middle,
        }
    }
    Err(low * FACT_LEN)
}

fn well_formed(task: &Task, state: &[u8], count: usize) -> bool {
    if count > MAX_STATE_FACTS {
        return false;
    }
    let facts = state[..count * FACT_LEN].chunks_exact(FACT_LEN);
    let known = |fact: &[u8]| {
        task.arities().get(fact[0] as usize).is_some_and(|&arity| {
            let (objects, filler) = fact[1..].split_at(arity as usize);
            objects.iter().all(|&object| object < task.object_count) && filler.iter().all(|&byte| byte == FILLER)
        })
    };
    facts.clone().all(known) && facts.clone().zip(facts.skip(1)).all(|(one, next)| one < next)
}
