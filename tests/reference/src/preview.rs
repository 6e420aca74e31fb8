//! Asking what a press would do, and doing it if that is still so (document 02, request 4).

use crate::card::{decode, Atom, Atoms, Schema, Task, MAX_ATOMS, MAX_PARAMETERS};
use crate::refusal::CHANGES_DIFFER;
use crate::strips::{apply, facts_in, facts_of, ground, holds, may_press, named_schema, Fact, Press, FACT_LEN};

/// What asking gives and committing takes: a press, the facts that it would take out and those that it would newly put in, each list in
/// the state's form and order. Handed in, it may be anything.
#[derive(Clone, Debug, PartialEq, Eq)]
pub struct Changes {
    pub press: Press,
    pub going: Vec<Fact>,
    pub coming: Vec<Fact>,
}

/// Asks: answers the count that the press would answer, and what it would change. Refuses by 1 to 20, as the press would.
pub fn preview(card: &[u8], state: &[u8], count: usize, schema: usize, objects: &[u8]) -> Result<(usize, Changes), u8> {
    let task = decode(card)?;
    let facts = facts_of(&task, state, count)?;
    let named = named_schema(&task, schema, objects)?;
    may_press(&task, facts, named, objects)?;
    let [going, coming] = going_and_coming(&task, facts, named, objects);
    let press = Press { schema, objects: objects.to_vec() };
    Ok((count - going.len() + coming.len(), Changes { press, going, coming }))
}

/// Commits: does the press that was asked about, if in this state the same facts would go and come, and answers the new count.
/// Refuses by 1 to 20 of that press, then by 23, and then leaves the buffer as it was.
pub fn commit(card: &[u8], state: &mut [u8], count: usize, changes: &Changes) -> Result<usize, u8> {
    let Changes { press: Press { schema, objects }, going, coming } = changes;
    let task = decode(card)?;
    let facts = facts_of(&task, state, count)?;
    let schema = named_schema(&task, *schema, objects)?;
    let [goes, comes] = going_and_coming(&task, facts, schema, objects);
    let differ = goes != *going || comes != *coming;
    may_press(&task, facts, schema, objects)?;
    if differ {
        return Err(CHANGES_DIFFER);
    }
    Ok(apply(&task, state, count, schema, objects))
}

/// The deletes, all of which are facts of a state that allows the press; and those of the adds that are no facts of it yet.
fn going_and_coming(task: &Task, facts: &[u8], schema: &Schema, objects: &[u8]) -> [Vec<Fact>; 2] {
    let is_new = |atom: &Atom| !holds(task, facts, atom, objects);
    let list = |atoms: &Atoms, listed: &dyn Fn(&Atom) -> bool| {
        let bind = |atom: &Atom| ground(task, atom, |parameter| objects[parameter as usize]);
        let mut list: Vec<Fact> = atoms.as_slice().iter().filter(|atom| listed(atom)).map(bind).collect();
        list.sort();
        list
    };
    [list(&schema.deletes, &|_| true), list(&schema.adds, &is_new)]
}

// The bytes of a `Changes` in the calls of C: schema, number of objects, objects, and for each list its number of facts and the facts.

pub const CHANGES_LEN: usize = COMING_AT + LIST_LEN;
pub type ChangesBytes = [u8; CHANGES_LEN];

/// Where the objects are, after their number, and where the two lists are, each a number and its places.
pub const OBJECTS_AT: usize = 2;
pub const GOING_AT: usize = OBJECTS_AT + MAX_PARAMETERS;
pub const COMING_AT: usize = GOING_AT + LIST_LEN;
pub const LIST_LEN: usize = 1 + MAX_ATOMS * FACT_LEN;

impl Changes {
    /// The bytes of what was asked; unused places are 0.
    pub fn to_bytes(&self) -> ChangesBytes {
        let mut bytes = [0; CHANGES_LEN];
        let Press { schema, objects } = &self.press;
        bytes[0] = *schema as u8;
        bytes[1] = objects.len() as u8;
        bytes[OBJECTS_AT..][..objects.len()].copy_from_slice(objects);
        for (at, list) in [(GOING_AT, &self.going), (COMING_AT, &self.coming)] {
            bytes[at] = list.len() as u8;
            bytes[at + 1..][..list.len() * FACT_LEN].copy_from_slice(list.as_flattened());
        }
        bytes
    }

    /// What any such bytes stand for. A number that is larger than its places stands for a list of that length.
    pub fn from_bytes(bytes: &ChangesBytes) -> Changes {
        let mut objects = bytes[OBJECTS_AT..GOING_AT].to_vec();
        objects.resize(bytes[1].into(), 0);
        let list = |at: usize| {
            let mut list = facts_in(&bytes[at + 1..at + LIST_LEN]).to_vec();
            list.resize(bytes[at].into(), Fact::default());
            list
        };
        Changes { press: Press { schema: bytes[0].into(), objects }, going: list(GOING_AT), coming: list(COMING_AT) }
    }
}
