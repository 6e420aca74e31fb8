//! The open presses of a state, one at a time (document 02, request 1). A press is open if the press call would accept it. Open presses
//! are ordered by schema, then by the objects of the roles in order.

use crate::card::{decode, Atom, Schema, Task};
use crate::strips::{facts_of, holds, may_press, named_schema, Press};

/// The schema and the objects of a given press, or none.
pub type Given<'a> = Option<(usize, &'a [u8])>;

/// Answers the next open press after the given one, or the first one if none is given; none at the end. The given press need not be open.
/// Refuses by 1 to 15, and then by 16 to 18 of the given press.
pub fn next_open(card: &[u8], state: &[u8], count: usize, given: Given) -> Result<Option<Press>, u8> {
    let task = decode(card)?;
    let facts = facts_of(&task, state, count)?;
    if let Some((schema, objects)) = given {
        named_schema(&task, schema, objects)?;
    }

    let first = given.map_or(0, |(schema, _)| schema);
    for (number, schema) in task.schemas().iter().enumerate().skip(first) {
        let given = given.filter(|&(schema, _)| schema == number).map(|(_, objects)| objects);
        let mut objects = Vec::new();
        if Search::new(&task, facts, schema).complete(&mut objects, given) {
            return Ok(Some(Press { schema: number, objects }));
        }
    }
    Ok(None)
}

/// A search for the objects of one schema's roles. The roles are bound in order, each to the objects in order.
struct Search<'a> {
    task: &'a Task,
    facts: &'a [u8],
    schema: &'a Schema,
    /// For each role the preconditions whose last role it is: as soon as it is bound, they can be tested.
    decided: Vec<Vec<Atom>>,
}

impl<'a> Search<'a> {
    fn new(task: &'a Task, facts: &'a [u8], schema: &'a Schema) -> Search<'a> {
        let mut decided = vec![Vec::new(); schema.parameters as usize];
        for atom in schema.preconditions.as_slice() {
            let last = task.arguments(atom).iter().copied().max().unwrap_or(0);
            decided[last as usize].push(*atom);
        }
        Search { task, facts, schema, decided }
    }

    /// Completes the objects bound so far to the first open press after the given objects, or leaves them as they were.
    /// Objects are given as long as those bound so far are the same; bindings that come before them are passed over.
    fn complete(&self, bound: &mut Vec<u8>, given: Option<&[u8]>) -> bool {
        let role = bound.len();
        if role == self.decided.len() {
            return given.is_none() && may_press(self.task, self.facts, self.schema, bound).is_ok();
        }
        let least = given.map_or(0, |objects| objects[role]);
        for object in least..self.task.object_count {
            if bound.contains(&object) {
                continue;
            }
            bound.push(object);
            let given = given.filter(|objects| objects[role] == object);
            if self.decided[role].iter().all(|atom| holds(self.task, self.facts, atom, bound)) && self.complete(bound, given) {
                return true;
            }
            bound.pop();
        }
        false
    }
}
