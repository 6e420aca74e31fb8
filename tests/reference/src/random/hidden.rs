//! Cards with hidden attributes, so that a space is mixed (000, 2.8; document 02, request 5).

use super::{list, sort, Random, Style};
use crate::card::{Atom, Schema, Task};

/// A card as far as it is made: the arities of its predicates, what each schema takes and gives, and its facts.
#[derive(Default)]
struct Draft {
    arities: Vec<u8>,
    schemas: Vec<(Vec<Atom>, Vec<Atom>)>,
    facts: Vec<Atom>,
}

fn atom(predicate: u8, arguments: &[u8]) -> Atom {
    let mut atom = Atom { predicate, ..Atom::default() };
    atom.arguments[..arguments.len()].copy_from_slice(arguments);
    atom
}

/// The roles of a schema: all that is exchanged is the first one's, the others are second arguments.
const X: u8 = 0;
const Y: u8 = 1;
const Z: u8 = 2;

/// The objects that are second arguments of facts, from here on.
const TARGETS: u8 = 4;

impl Draft {
    fn predicate(&mut self, arity: u8) -> u8 {
        self.arities.push(arity);
        self.arities.len() as u8 - 1
    }

    /// The predicate of a first argument, with a second one where it takes two.
    fn of(&self, predicate: u8, first: u8, second: u8) -> Atom {
        atom(predicate, &[first, second][..self.arities[predicate as usize] as usize])
    }

    fn schema(&mut self, takes: &[Atom], gives: &[Atom]) {
        self.schemas.push((takes.to_vec(), gives.to_vec()));
    }

    /// The task, with the predicates in the place of others.
    fn task(self, places: &[u8]) -> Task {
        let moved = |atom: &Atom| Atom { predicate: places[atom.predicate as usize], ..*atom };
        let ascending = |atoms: &[Atom]| {
            let mut atoms: Vec<Atom> = atoms.iter().map(moved).collect();
            sort(&mut atoms);
            atoms
        };
        let mut task = Task { predicate_count: self.arities.len() as u8, ..Task::default() };
        for (&place, &arity) in places.iter().zip(&self.arities) {
            task.arity_places[place as usize] = arity;
        }
        for (place, (takes, gives)) in task.schema_places.iter_mut().zip(&self.schemas) {
            let (takes, mut gives) = (ascending(takes), ascending(gives));
            gives.retain(|atom| !takes.contains(atom));
            let roles = takes.iter().chain(&gives).flat_map(|atom| atom.arguments);
            let parameters = 1 + roles.max().unwrap_or(0);
            *place = Schema { parameters, preconditions: list(&takes), deletes: list(&takes), adds: list(&gives) };
        }
        task.schema_count = self.schemas.len() as u8;
        let facts = ascending(&self.facts);
        task.object_count = 1 + facts.iter().flat_map(|fact| fact.arguments).max().unwrap_or(0);
        task.fact_count = facts.len() as u16;
        task.fact_places[..facts.len()].copy_from_slice(&facts);
        task
    }
}

impl Random {
    /// A task in which some property only ever grows, beside others of its space that are exchanged: a switch that also counts what
    /// happens to it.
    pub fn hiding_task(&mut self) -> Task {
        let mut draft = match self.below(8) {
            0 => self.counting(),
            1 | 2 => self.doubling(),
            _ => self.switching(),
        };
        self.shuffle(&mut draft.schemas);
        let mut places: Vec<u8> = (0..draft.arities.len() as u8).collect();
        self.shuffle(&mut places);
        let mut task = draft.task(&places);
        if self.once_in(4) {
            let style = if self.once_in(2) { Style::Exchange } else { Style::Growing };
            let schema = self.schema(&task, style);
            // With more preconditions the presses that a state allows are too many to go through.
            if schema.preconditions.count <= 2 {
                task.schema_places[task.schema_count as usize] = schema;
                task.schema_count += 1;
            }
        }
        task
    }

    fn shuffle<T>(&mut self, items: &mut [T]) {
        for last in (1..items.len()).rev() {
            items.swap(self.below(last + 1), last);
        }
    }

    /// A way from one state to another and back for each hidden attribute, which is gained on the way. Ways that share no state are found
    /// to be mixed one after the other, a round each.
    fn switching(&mut self) -> Draft {
        let mut draft = Draft::default();
        let states: Vec<u8> = (0..self.within(2, 5)).map(|_| draft.predicate(1)).collect();
        let hidden: Vec<u8> = (0..self.within(1, 3)).map(|_| draft.predicate(if self.once_in(4) { 2 } else { 1 })).collect();
        let first = states[0];
        for &attribute in &hidden {
            let from = if self.once_in(2) { first } else { states[self.below(states.len())] };
            let to = states[self.within(1, states.len() - 1)];
            if from != to {
                let gained = draft.of(attribute, X, Y);
                draft.schema(&[atom(from, &[X])], &[atom(to, &[X]), gained]);
                draft.schema(&[atom(to, &[X])], &[atom(from, &[X])]);
            }
        }
        let [one, other] = [states[self.below(states.len())], states[self.below(states.len())]];
        let attribute = draft.of(hidden[self.below(hidden.len())], X, Y);
        match self.below(16) {
            // The attribute is needed on a way.
            0 | 1 => draft.schema(&[atom(one, &[X]), attribute], &[atom(other, &[X])]),
            // It turns into a state or comes of one.
            2 => draft.schema(&[attribute], &[atom(one, &[X])]),
            3 => draft.schema(&[atom(one, &[X])], &[attribute]),
            // States grow too.
            4 => draft.schema(&[atom(one, &[X])], &[atom(other, &[X]), atom(first, &[X])]),
            _ => {}
        }
        // Every object has one of the cover, which goes only with a tool, and nobody has that.
        let cover = self.once_in(4).then(|| {
            let [cover, tool] = [0; 2].map(|_| draft.predicate(1));
            draft.schema(&[atom(cover, &[X]), atom(tool, &[X])], &[atom(first, &[X])]);
            cover
        });
        for object in 0..self.within(1, TARGETS as usize) as u8 {
            draft.facts.extend(cover.map(|cover| atom(cover, &[object])));
            if !self.once_in(6) {
                draft.facts.push(atom(states[self.below(states.len())], &[object]));
            }
            if self.once_in(4) {
                draft.facts.push(atom(states[self.below(states.len())], &[object]));
            }
            if self.once_in(3) {
                let fact = draft.of(hidden[self.below(hidden.len())], object, TARGETS);
                draft.facts.push(fact);
            }
        }
        draft
    }

    /// A switch that hides an attribute and, in one position, moves facts of another predicate one by one: what is left may be wide.
    fn counting(&mut self) -> Draft {
        let mut draft = Draft::default();
        let [on, off, touched] = [0; 3].map(|_| draft.predicate(1));
        let [before, after] = [0; 2].map(|_| draft.predicate(2));
        draft.schema(&[atom(on, &[X])], &[atom(off, &[X]), atom(touched, &[X])]);
        draft.schema(&[atom(off, &[X])], &[atom(on, &[X])]);
        draft.schema(&[atom(on, &[X]), atom(before, &[X, Y])], &[atom(off, &[X]), atom(after, &[X, Y])]);
        if self.once_in(3) {
            // A second attribute, which a second round finds.
            let seen = draft.predicate(1);
            draft.schema(&[atom(on, &[X])], &[atom(off, &[X]), atom(seen, &[X])]);
        }
        for object in 0..self.within(1, 2) as u8 {
            draft.facts.push(atom(on, &[object]));
            let targets = self.within(2, 11) as u8;
            draft.facts.extend((0..targets).map(|target| atom(before, &[object, TARGETS + target])));
        }
        draft
    }

    /// Two predicates that turn into each other, each into two of the other, and with them, now and then, a switch. All that an object has
    /// may be hidden attributes.
    fn doubling(&mut self) -> Draft {
        let mut draft = Draft::default();
        let [one, other] = [0; 2].map(|_| draft.predicate(2));
        draft.schema(&[atom(one, &[X, Y])], &[atom(other, &[X, Y]), atom(other, &[X, Z])]);
        draft.schema(&[atom(other, &[X, Y])], &[atom(one, &[X, Y]), atom(one, &[X, Z])]);
        if self.once_in(2) {
            // Found first, where two of the other turn back into the one: it is dropped in a round of its own.
            let touched = draft.predicate(1);
            draft.schema(&[atom(other, &[X, Y]), atom(other, &[X, Z])], &[atom(one, &[X, Y]), atom(touched, &[X])]);
        }
        draft.facts.push(atom(one, &[0, TARGETS]));
        if self.once_in(2) {
            draft.facts.push(atom(other, &[self.below(2) as u8, TARGETS]));
        }
        if !self.once_in(3) {
            let [on, off] = [0; 2].map(|_| draft.predicate(1));
            draft.schema(&[atom(one, &[X, Y]), atom(on, &[X])], &[atom(other, &[X, Y]), atom(off, &[X])]);
            if self.once_in(2) {
                draft.schema(&[atom(off, &[X])], &[atom(on, &[X])]);
            }
            for object in (0..TARGETS).filter(|_| self.once_in(5)) {
                draft.facts.push(atom(on, &[object]));
            }
        }
        draft
    }
}
