//! Seeded random cards, tables, states and presses, and what was asked, sound and damaged.

mod changes;
mod hidden;

pub use changes::{Damaged, DAMAGED_LISTS, DAMAGED_PRESS, UNUSED};

use crate::card::*;
use crate::crowded::{conditions, Condition};
use crate::met::Case;
use crate::strips::{ground, Fact, Press, FACT_LEN, FILLER, MAX_STATE_FACTS, STATE_LEN};

/// SplitMix64.
pub struct Random {
    state: u64,
}

impl Random {
    pub fn new(seed: u64) -> Random {
        Random { state: seed }
    }

    pub fn bits(&mut self) -> u64 {
        self.state = self.state.wrapping_add(0x9E37_79B9_7F4A_7C15);
        let mut mixed = self.state;
        mixed = (mixed ^ (mixed >> 30)).wrapping_mul(0xBF58_476D_1CE4_E5B9);
        mixed = (mixed ^ (mixed >> 27)).wrapping_mul(0x94D0_49BB_1331_11EB);
        mixed ^ (mixed >> 31)
    }

    /// A number below `bound`.
    pub fn below(&mut self, bound: usize) -> usize {
        (self.bits() % bound as u64) as usize
    }

    pub fn within(&mut self, least: usize, most: usize) -> usize {
        least + self.below(most - least + 1)
    }

    /// True once in `times`.
    pub fn once_in(&mut self, times: usize) -> bool {
        self.below(times) == 0
    }

    pub fn byte(&mut self) -> u8 {
        self.bits() as u8
    }

    pub fn pick<'a, T>(&mut self, items: &'a [T]) -> Option<&'a T> {
        (!items.is_empty()).then(|| &items[self.below(items.len())])
    }

    /// A byte outside a range; the bytes next to it come often.
    fn outside(&mut self, least: u8, most: u8) -> u8 {
        loop {
            let byte = match self.below(4) {
                0 => least.wrapping_sub(1),
                1 => most.wrapping_add(1),
                _ => self.byte(),
            };
            if !(least..=most).contains(&byte) {
                return byte;
            }
        }
    }

    /// Some index of a run of this length, if it has any.
    fn index(&mut self, length: usize) -> Option<usize> {
        (length > 0).then(|| self.below(length))
    }
}

// Accepted cards.

/// How a random task's schemas are made.
#[derive(Clone, Copy, PartialEq)]
enum Style {
    /// Atoms of any kind in each list.
    Loose,
    /// Each delete has an add of another predicate over the same parameters: property spaces.
    Exchange,
    /// An exchange that brings a second add over the same parameters: property spaces that grow, mixed ones among them.
    Growing,
    /// Exchanges, with a stray add now and then: attribute spaces beside property spaces.
    Stray,
}

impl Random {
    /// An accepted card.
    pub fn card(&mut self) -> Vec<u8> {
        let task = self.task();
        write_unchecked(&task)
    }

    /// A task that a card carries.
    pub fn task(&mut self) -> Task {
        self.task_of(false)
    }

    /// A task with more facts than a state holds, and with schemas that add more than they delete.
    pub fn roomy_task(&mut self) -> Task {
        self.task_of(true)
    }

    /// A task by whose presses a state can be filled up: many facts, and a schema that asks for nothing and adds as much as a list holds.
    pub fn filling_task(&mut self) -> Task {
        let mut task = self.roomy_task();
        let parameters = MAX_PARAMETERS as u8;
        let mut adds: Vec<Atom> = (0..MAX_ATOMS).map(|_| self.atom(&task, parameters)).collect();
        sort(&mut adds);
        task.schema_places[0] = Schema { parameters, adds: list(&adds), ..Schema::default() };
        for place in 2..task.schema_count.max(2) as usize {
            task.schema_places[place] = Schema::default();
        }
        task.schema_count = task.schema_count.min(2);
        self.replace_facts(&mut task, MAX_FACTS);
        task
    }

    /// A task with one schema, whose deletes and whose adds are as many as a list holds.
    pub fn full_lists_task(&mut self) -> Task {
        loop {
            let mut task = self.task();
            let parameters = MAX_PARAMETERS as u8;
            let mut atoms: Vec<Atom> = (0..8 * MAX_ATOMS).map(|_| self.atom(&task, parameters)).collect();
            sort(&mut atoms);
            if task.object_count <= parameters || atoms.len() < 2 * MAX_ATOMS {
                continue;
            }
            let mut lists = [Vec::new(), Vec::new()];
            for list in &mut lists {
                *list = (0..MAX_ATOMS).map(|_| atoms.remove(self.below(atoms.len()))).collect();
                sort(list);
            }
            let [deletes, adds] = lists.map(|atoms| list(&atoms));
            task.schema_places = [Schema::default(); MAX_SCHEMAS];
            task.schema_places[0] = Schema { parameters, preconditions: deletes, deletes, adds };
            task.schema_count = 1;
            let wanted = self.within(MAX_ATOMS, 4 * MAX_ATOMS);
            self.replace_facts(&mut task, wanted);
            return task;
        }
    }

    /// Other facts in the place of the task's, up to `count`.
    fn replace_facts(&mut self, task: &mut Task, count: usize) {
        let facts = self.facts(task, count);
        task.fact_places = [Atom::default(); MAX_FACTS];
        task.fact_count = facts.len() as u16;
        task.fact_places[..facts.len()].copy_from_slice(&facts);
    }

    fn task_of(&mut self, roomy: bool) -> Task {
        let mut task = Task::default();
        let large = self.once_in(10);
        task.predicate_count = self.within(1, if large { MAX_PREDICATES } else { 5 }) as u8;
        let least_arity = if roomy { 2 } else { 1 };
        let arity = self.within(least_arity, MAX_ARITY);
        for place in 0..task.predicate_count as usize {
            task.arity_places[place] = if self.once_in(3) { self.within(least_arity, MAX_ARITY) } else { arity } as u8;
        }
        task.object_count = match self.below(10) {
            _ if roomy => self.within(40, MAX_OBJECTS),
            0 => self.within(1, MAX_OBJECTS),
            1 => MAX_OBJECTS,
            _ => self.within(1, 12),
        } as u8;
        task.schema_count = match self.below(16) {
            0 if !roomy => 0,
            1..=3 if large => self.within(0, MAX_SCHEMAS),
            _ => self.within(1, 4),
        } as u8;
        let styles = [Style::Loose, Style::Growing, Style::Stray, Style::Exchange];
        let style = styles[self.below(if roomy { 2 } else { 4 })];
        for place in 0..task.schema_count as usize {
            task.schema_places[place] = self.schema(&task, style);
        }
        let facts = match self.below(10) {
            0 => self.within(0, MAX_FACTS),
            1 => 0,
            2..=5 => self.within(1, 60),
            _ => self.within(1, 10),
        };
        self.replace_facts(&mut task, facts);
        task
    }

    fn schema(&mut self, task: &Task, style: Style) -> Schema {
        let most = if self.once_in(8) { MAX_PARAMETERS } else { MAX_PARAMETERS.min(task.object_count as usize) };
        let parameters = if self.once_in(3) { 1 } else { self.within(1, most) } as u8;
        let most = *self.pick(&[1, 1, 2, 2, 2, MAX_ATOMS]).unwrap_or(&1);
        let least = if self.once_in(8) { 0 } else { 1 };

        let mut preconditions: Vec<Atom> = (0..self.within(least, most)).map(|_| self.atom(task, parameters)).collect();
        sort(&mut preconditions);
        let deletes: Vec<Atom> = preconditions.iter().filter(|_| !self.once_in(4)).copied().collect();
        let mut adds: Vec<Atom> = match style {
            Style::Loose => (0..self.below(most + 1)).map(|_| self.atom(task, parameters)).collect(),
            _ => deletes.iter().map(|delete| self.exchanged(task, parameters, delete)).collect(),
        };
        if style == Style::Growing {
            let more: Vec<Atom> = deletes.iter().map(|delete| self.exchanged(task, parameters, delete)).collect();
            adds.extend(more);
        }
        if style == Style::Stray && self.once_in(3) {
            adds.push(self.atom(task, parameters));
        }
        adds.retain(|add| !preconditions.contains(add));
        sort(&mut adds);
        adds.truncate(MAX_ATOMS);
        Schema { parameters, preconditions: list(&preconditions), deletes: list(&deletes), adds: list(&adds) }
    }

    fn atom(&mut self, task: &Task, bound: u8) -> Atom {
        let predicate = self.below(task.predicate_count as usize) as u8;
        self.atom_of(task, predicate, bound)
    }

    fn atom_of(&mut self, task: &Task, predicate: u8, bound: u8) -> Atom {
        let mut atom = Atom { predicate, ..Atom::default() };
        for argument in &mut atom.arguments[..task.arity(predicate)] {
            *argument = self.below(bound as usize) as u8;
        }
        atom
    }

    /// Another predicate over the same parameters; the same one with a parameter changed if there is none, and now and then.
    fn exchanged(&mut self, task: &Task, parameters: u8, delete: &Atom) -> Atom {
        let arity = task.arity(delete.predicate);
        let others: Vec<u8> = (0..task.predicate_count).filter(|&other| other != delete.predicate && task.arity(other) == arity).collect();
        let mut atom = *delete;
        match self.pick(&others) {
            Some(&other) if !self.once_in(6) => atom.predicate = other,
            _ => atom.arguments[self.below(arity)] = self.below(parameters as usize) as u8,
        }
        atom
    }

    /// Objects that are different as long as there are any.
    fn different(&mut self, task: &Task, count: usize) -> Vec<u8> {
        let mut objects: Vec<u8> = Vec::with_capacity(count);
        for _ in 0..count {
            let free: Vec<u8> = (0..task.object_count).filter(|object| !objects.contains(object)).collect();
            objects.push(*self.pick(&free).unwrap_or(&0));
        }
        objects
    }

    /// Up to `count` facts, ascending; about half are made to meet preconditions.
    fn facts(&mut self, task: &Task, count: usize) -> Vec<Atom> {
        // Where few objects and few predicates take part, the counts of an object are high.
        let firsts = *self.pick(&[1, 3, MAX_OBJECTS as u8]).unwrap_or(&1).min(&task.object_count);
        let predicates = if self.once_in(2) { self.within(1, task.predicate_count as usize) } else { task.predicate_count as usize };
        let mut facts: Vec<Atom> = Vec::new();
        while facts.len() < count {
            let schema = if self.once_in(2) { self.pick(task.schemas()) } else { None };
            if let Some(schema) = schema.filter(|schema| schema.preconditions.count > 0) {
                let objects = self.different(task, schema.parameters as usize);
                for atom in schema.preconditions.as_slice() {
                    let mut fact = *atom;
                    for argument in &mut fact.arguments[..task.arity(atom.predicate)] {
                        *argument = objects[*argument as usize];
                    }
                    facts.push(fact);
                }
            } else {
                let predicate = self.below(predicates) as u8;
                let mut fact = self.atom_of(task, predicate, task.object_count);
                fact.arguments[0] %= firsts;
                facts.push(fact);
            }
        }
        facts.truncate(count);
        sort(&mut facts);
        facts
    }
}

fn sort(atoms: &mut Vec<Atom>) {
    atoms.sort();
    atoms.dedup();
}

fn list(atoms: &[Atom]) -> Atoms {
    let mut list = Atoms { count: atoms.len() as u8, ..Atoms::default() };
    list.places[..atoms.len()].copy_from_slice(atoms);
    list
}

/// The bytes of a task as it stands, checked for nothing; what is past a count or an arity is left out.
/// Counts may not exceed their places; an unknown predicate is written without arguments.
pub fn write_unchecked(task: &Task) -> Vec<u8> {
    let mut card = vec![task.predicate_count];
    card.extend_from_slice(task.arities());
    card.extend([task.object_count, task.schema_count]);
    let atom = |atom: &Atom, card: &mut Vec<u8>| {
        card.push(atom.predicate);
        let arity = task.arities().get(atom.predicate as usize).map_or(0, |&arity| arity as usize);
        card.extend_from_slice(&atom.arguments[..arity.min(MAX_ARITY)]);
    };
    for schema in task.schemas() {
        let lists = [&schema.preconditions, &schema.deletes, &schema.adds];
        let mut map = (schema.parameters != 1) as u8;
        for (bit, list) in (1..).zip(lists) {
            map |= ((list.count > 0) as u8) << bit;
        }
        card.push(map);
        if schema.parameters != 1 {
            card.push(schema.parameters);
        }
        for list in lists.into_iter().filter(|list| list.count > 0) {
            card.push(list.count);
            list.as_slice().iter().for_each(|one| atom(one, &mut card));
        }
    }
    card.extend_from_slice(&task.fact_count.to_be_bytes());
    task.facts().iter().for_each(|fact| atom(fact, &mut card));
    card
}

// Crowded cards.

/// How many times starts are drawn for a card; the draw whose number of conditions is nearest to the wanted one is taken.
const DRAWS: usize = 40;

impl Random {
    /// Two to six different starts for a crowded card, with 63 to 66 distinct conditions where the draws allow it.
    pub fn crowded_starts(&mut self) -> Vec<Condition> {
        let wanted = *self.pick(&[63, 64, 64, 65, 66]).unwrap_or(&64);
        let draws: Vec<Vec<Condition>> = (0..DRAWS).map(|_| self.starts()).collect();
        draws.into_iter().min_by_key(|starts| conditions(starts).len().abs_diff(wanted)).unwrap_or_default()
    }

    /// Different starts, each with at most 56 conditions on its own list. Where the numbers of q may be high, many lists share none.
    fn starts(&mut self) -> Vec<Condition> {
        let most = *self.pick(&[5, 12, 50]).unwrap_or(&5);
        let count = self.within(2, 6);
        let mut starts = Vec::new();
        while starts.len() < count {
            let q = self.within(0, most);
            let p = if q == 0 { self.within(1, 10) } else { self.within(0, 9) };
            if !starts.contains(&(p, q)) {
                starts.push((p, q));
            }
        }
        starts
    }
}

// Damaged cards.

/// What a byte of an accepted card is.
#[derive(Clone, Copy, PartialEq, Eq)]
enum Field {
    PredicateCount,
    Arity,
    ObjectCount,
    SchemaCount,
    Map,
    ParameterCount,
    ListCount,
    Predicate,
    /// An argument, with the number of parameters that it has to be below.
    Parameter(u8),
    FactCount,
    FactPredicate,
    Object,
}

fn fields(task: &Task) -> Vec<Field> {
    let mut fields = vec![Field::PredicateCount];
    fields.extend(task.arities().iter().map(|_| Field::Arity));
    fields.extend([Field::ObjectCount, Field::SchemaCount]);
    for schema in task.schemas() {
        fields.push(Field::Map);
        if schema.parameters > 1 {
            fields.push(Field::ParameterCount);
        }
        for list in [&schema.preconditions, &schema.deletes, &schema.adds] {
            if list.count > 0 {
                fields.push(Field::ListCount);
            }
            for atom in list.as_slice() {
                fields.push(Field::Predicate);
                fields.extend(task.arguments(atom).iter().map(|_| Field::Parameter(schema.parameters)));
            }
        }
    }
    fields.extend([Field::FactCount; 2]);
    for fact in task.facts() {
        fields.push(Field::FactPredicate);
        fields.extend(task.arguments(fact).iter().map(|_| Field::Object));
    }
    fields
}

impl Random {
    /// A card that is refused by the number, 1 to 14.
    pub fn refused_card(&mut self, refusal: u8) -> Vec<u8> {
        loop {
            let task = self.task();
            if let Some(card) = self.damage(&task, refusal) {
                return card;
            }
        }
    }

    /// The task's card, damaged so that this refusal is the first; none if the task has no place for it.
    fn damage(&mut self, task: &Task, refusal: u8) -> Option<Vec<u8>> {
        let mut card = write_unchecked(task);
        match refusal {
            1 => card.truncate(self.below(card.len())),
            8 | 9 | 10 | 13 => return Some(write_unchecked(&self.damage_atoms(task, refusal)?)),
            14 => (0..self.within(1, 9)).for_each(|_| card.push(self.byte())),
            _ => {
                let fields = fields(task);
                let fits = |field: &Field| match refusal {
                    2 => matches!(field, Field::PredicateCount | Field::Arity),
                    3 => *field == Field::ObjectCount,
                    4 => *field == Field::SchemaCount,
                    5 => matches!(field, Field::Map | Field::ParameterCount),
                    6 => *field == Field::ListCount,
                    7 => matches!(field, Field::Predicate | Field::Parameter(_)),
                    11 => *field == Field::FactCount,
                    _ => matches!(field, Field::FactPredicate | Field::Object),
                };
                let places: Vec<usize> = (0..fields.len()).filter(|&at| fits(&fields[at])).collect();
                let at = *self.pick(&places)?;
                card[at] = match fields[at] {
                    Field::PredicateCount => self.outside(1, MAX_PREDICATES as u8),
                    Field::Arity => self.outside(1, MAX_ARITY as u8),
                    Field::ObjectCount => self.outside(1, MAX_OBJECTS as u8),
                    Field::SchemaCount => self.outside(0, MAX_SCHEMAS as u8),
                    Field::Map => card[at] | (self.within(1, 15) as u8) << 4,
                    Field::ParameterCount => self.outside(2, MAX_PARAMETERS as u8),
                    Field::ListCount => self.outside(1, MAX_ATOMS as u8),
                    Field::Predicate | Field::FactPredicate => self.outside(0, task.predicate_count - 1),
                    Field::Parameter(bound) => self.outside(0, bound - 1),
                    Field::Object => self.outside(0, task.object_count - 1),
                    Field::FactCount => {
                        let count = self.within(MAX_FACTS + 1, 0xFFFF) as u16;
                        let count = if self.once_in(3) { MAX_FACTS as u16 + 1 } else { count };
                        let at = places[0];
                        card[at..at + 2].copy_from_slice(&count.to_be_bytes());
                        return Some(card);
                    }
                };
            }
        }
        Some(card)
    }

    /// The task with one atom or fact where it may not be.
    fn damage_atoms(&mut self, task: &Task, refusal: u8) -> Option<Task> {
        let mut task = *task;
        if refusal == 13 {
            let count = task.fact_count as usize;
            self.disorder(&mut task.fact_places[..count])?;
            return Some(task);
        }
        let schema = self.index(task.schema_count as usize)?;
        let schema = &mut task.schema_places[schema];
        match refusal {
            8 => {
                let list = match self.below(3) {
                    0 => &mut schema.preconditions,
                    1 => &mut schema.deletes,
                    _ => &mut schema.adds,
                };
                self.disorder(&mut list.places[..list.count as usize])?;
            }
            9 => {
                let gone = *self.pick(schema.deletes.as_slice())?;
                let left: Vec<Atom> = schema.preconditions.as_slice().iter().filter(|&&atom| atom != gone).copied().collect();
                schema.preconditions = list(&left);
            }
            _ => {
                let present = *self.pick(schema.preconditions.as_slice())?;
                let mut adds: Vec<Atom> = schema.adds.as_slice().to_vec();
                adds.truncate(MAX_ATOMS - 1);
                adds.push(present);
                sort(&mut adds);
                schema.adds = list(&adds);
            }
        }
        Some(task)
    }

    /// Repeats an atom or swaps it with the next.
    fn disorder(&mut self, atoms: &mut [Atom]) -> Option<()> {
        let last = atoms.len().checked_sub(1).filter(|&last| last > 0)?;
        let at = self.below(last);
        if self.once_in(2) {
            atoms.swap(at, at + 1);
        } else {
            atoms[at + 1] = atoms[at];
        }
        Some(())
    }

    /// A card with any damage: bytes changed, put in and taken out, or nothing but random bytes.
    pub fn wild_card(&mut self) -> Vec<u8> {
        if self.once_in(8) {
            return (0..self.below(60)).map(|_| if self.once_in(4) { self.byte() } else { self.below(5) as u8 }).collect();
        }
        let mut card = self.card();
        for _ in 0..self.within(1, 3) {
            let at = self.below(card.len() + 1);
            let byte = if self.once_in(2) { self.byte() } else { self.below(8) as u8 };
            match self.below(4) {
                0 => card.insert(at, byte),
                1 if at < card.len() => {
                    card.remove(at);
                }
                _ if at < card.len() => card[at] = byte,
                _ => card.push(byte),
            }
        }
        card
    }
}

// Tables for the writer.

impl Random {
    /// A task with any bytes in the places that are no part of it.
    pub fn noisy_task(&mut self) -> Task {
        let task = self.task();
        self.with_noise(&task)
    }

    fn with_noise(&mut self, task: &Task) -> Task {
        let mut noisy = *task;
        let arities = task.arities();
        noisy.arity_places[arities.len()..].fill_with(|| self.byte());
        for (place, schema) in noisy.schema_places.iter_mut().enumerate() {
            if place >= task.schema_count as usize {
                schema.parameters = self.byte();
            }
            for list in [&mut schema.preconditions, &mut schema.deletes, &mut schema.adds] {
                if place >= task.schema_count as usize {
                    list.count = self.byte();
                }
                let used = if place < task.schema_count as usize { list.count as usize } else { 0 };
                self.fill_places(arities, &mut list.places, used);
            }
        }
        self.fill_places(arities, &mut noisy.fact_places, task.fact_count as usize);
        noisy
    }

    fn fill_places(&mut self, arities: &[u8], places: &mut [Atom], used: usize) {
        for (index, atom) in places.iter_mut().enumerate() {
            let kept = if index < used { arities[atom.predicate as usize] as usize } else { 0 };
            if index >= used {
                atom.predicate = self.byte();
            }
            atom.arguments[kept..].fill_with(|| self.byte());
        }
    }

    /// A task, with noise, that the writer refuses by the number, 2 to 13.
    pub fn refused_task(&mut self, refusal: u8) -> Task {
        loop {
            let task = self.task();
            let damaged = match refusal {
                8 | 9 | 10 | 13 => self.damage_atoms(&task, refusal).map(|damaged| self.with_noise(&damaged)),
                _ => {
                    let task = self.with_noise(&task);
                    self.damage_places(task, refusal)
                }
            };
            if let Some(damaged) = damaged {
                return damaged;
            }
        }
    }

    fn damage_places(&mut self, mut task: Task, refusal: u8) -> Option<Task> {
        let Task { predicate_count, arity_places, object_count, .. } = task;
        match refusal {
            2 if self.once_in(2) => task.predicate_count = self.outside(1, MAX_PREDICATES as u8),
            2 => task.arity_places[self.below(predicate_count as usize)] = self.outside(1, MAX_ARITY as u8),
            3 => task.object_count = self.outside(1, MAX_OBJECTS as u8),
            4 => task.schema_count = self.outside(0, MAX_SCHEMAS as u8),
            11 => task.fact_count = self.within(MAX_FACTS + 1, 0xFFFF) as u16,
            12 => {
                let place = self.index(task.fact_count as usize)?;
                self.damage_atom(&mut task.fact_places[place], predicate_count, object_count, &arity_places);
            }
            _ => {
                let schema = self.index(task.schema_count as usize)?;
                let schema = &mut task.schema_places[schema];
                let parameters = schema.parameters;
                let list = match self.below(3) {
                    0 => &mut schema.preconditions,
                    1 => &mut schema.deletes,
                    _ => &mut schema.adds,
                };
                match refusal {
                    5 => schema.parameters = self.outside(1, MAX_PARAMETERS as u8),
                    6 => list.count = self.outside(0, MAX_ATOMS as u8),
                    _ => {
                        let place = self.index(list.count as usize)?;
                        self.damage_atom(&mut list.places[place], predicate_count, parameters, &arity_places);
                    }
                }
            }
        }
        Some(task)
    }

    fn damage_atom(&mut self, atom: &mut Atom, predicates: u8, bound: u8, arities: &[u8]) {
        if self.once_in(2) {
            atom.predicate = self.outside(0, predicates - 1);
        } else {
            let arity = arities[atom.predicate as usize] as usize;
            atom.arguments[self.below(arity)] = self.outside(0, bound - 1);
        }
    }

    /// A task with a few small numbers or any bytes put in any place, its counts within their places.
    pub fn wild_task(&mut self) -> Task {
        let mut task = self.noisy_task();
        for _ in 0..self.within(1, 3) {
            let byte = if self.once_in(3) { self.byte() } else { self.below(8) as u8 };
            let schema = &mut task.schema_places[self.below(4)];
            match self.below(10) {
                0 => task.predicate_count = byte % (MAX_PREDICATES as u8 + 1),
                1 => task.arity_places[self.below(6)] = byte,
                2 => task.object_count = byte,
                3 => task.schema_count = byte % (MAX_SCHEMAS as u8 + 1),
                4 => schema.parameters = byte,
                5 => task.fact_count = byte.into(),
                6 => self.put(&mut task.fact_places[..20], byte),
                place => {
                    let list = match place {
                        7 => &mut schema.preconditions,
                        8 => &mut schema.deletes,
                        _ => &mut schema.adds,
                    };
                    if self.once_in(3) {
                        list.count = byte % (MAX_ATOMS as u8 + 1);
                    } else {
                        self.put(&mut list.places, byte);
                    }
                }
            }
        }
        for schema in &mut task.schema_places {
            for list in [&mut schema.preconditions, &mut schema.deletes, &mut schema.adds] {
                list.count %= MAX_ATOMS as u8 + 1;
            }
        }
        task
    }

    fn put(&mut self, atoms: &mut [Atom], byte: u8) {
        let atom = &mut atoms[self.below(atoms.len())];
        match self.below(1 + MAX_ARITY) {
            0 => atom.predicate = byte,
            place => atom.arguments[place - 1] = byte,
        }
    }
}

/// The task without what is no part of it: zeros past each count and arity. For tasks that a card carries.
pub fn trimmed(task: &Task) -> Task {
    let mut trimmed = Task::default();
    let trim = |atoms: &[Atom], places: &mut [Atom]| {
        for (atom, place) in atoms.iter().zip(places) {
            place.predicate = atom.predicate;
            let arity = task.arity(atom.predicate);
            place.arguments[..arity].copy_from_slice(&atom.arguments[..arity]);
        }
    };
    trimmed.predicate_count = task.predicate_count;
    trimmed.arity_places[..task.arities().len()].copy_from_slice(task.arities());
    trimmed.object_count = task.object_count;
    trimmed.schema_count = task.schema_count;
    for (schema, place) in task.schemas().iter().zip(&mut trimmed.schema_places) {
        place.parameters = schema.parameters;
        let lists = [&schema.preconditions, &schema.deletes, &schema.adds];
        for (list, place) in lists.into_iter().zip([&mut place.preconditions, &mut place.deletes, &mut place.adds]) {
            place.count = list.count;
            trim(list.as_slice(), &mut place.places);
        }
    }
    trimmed.fact_count = task.fact_count;
    trim(task.facts(), &mut trimmed.fact_places);
    trimmed
}

// States and presses.

impl Random {
    /// A press: most are allowed if the state allows any, some are refused by 16 to 19.
    pub fn press(&mut self, task: &Task, state: &[u8]) -> Press {
        let schemas = task.schema_count as usize;
        if schemas == 0 || self.once_in(20) {
            let any = self.below(64);
            let schema = *self.pick(&[schemas, schemas + 1, 255, 256, usize::MAX, any]).unwrap_or(&schemas);
            return Press { schema, objects: (0..self.below(8)).map(|_| self.byte()).collect() };
        }
        let schema = self.below(schemas);
        let mut objects = self.binding(task, &task.schemas()[schema], state);
        match self.below(24) {
            0 => objects.truncate(self.below(objects.len())),
            1 => objects.extend((0..self.within(1, 300)).map(|_| self.below(task.object_count as usize) as u8).collect::<Vec<_>>()),
            2 => {
                let at = self.below(objects.len());
                objects[at] = self.outside(0, task.object_count - 1);
            }
            3 => {
                let (from, to) = (self.below(objects.len()), self.below(objects.len()));
                objects[to] = objects[from];
            }
            4 => {
                let at = self.below(objects.len());
                objects[at] = self.below(task.object_count as usize) as u8;
            }
            _ => {}
        }
        Press { schema, objects }
    }

    /// Objects for a schema's parameters, made to meet the preconditions one after the other where that can be.
    fn binding(&mut self, task: &Task, schema: &Schema, state: &[u8]) -> Vec<u8> {
        let mut objects: Vec<Option<u8>> = vec![None; schema.parameters as usize];
        for atom in schema.preconditions.as_slice() {
            let arguments = task.arguments(atom);
            let fits = |fact: &&[u8]| {
                let mut bound = objects.clone();
                fact[0] == atom.predicate
                    && arguments.iter().zip(&fact[1..]).all(|(&parameter, &object)| {
                        let free = !bound.contains(&Some(object));
                        let place = &mut bound[parameter as usize];
                        let fits = *place == Some(object) || (place.is_none() && free);
                        *place = Some(object);
                        fits
                    })
            };
            let facts: Vec<&[u8]> = state.chunks_exact(FACT_LEN).filter(fits).collect();
            if let Some(fact) = self.pick(&facts) {
                for (&parameter, &object) in arguments.iter().zip(&fact[1..]) {
                    objects[parameter as usize] = Some(object);
                }
            }
        }
        for place in 0..objects.len() {
            if objects[place].is_none() {
                let free: Vec<u8> = (0..task.object_count).filter(|&object| !objects.contains(&Some(object))).collect();
                objects[place] = Some(*self.pick(&free).unwrap_or(&0));
            }
        }
        objects.into_iter().flatten().collect()
    }

    /// A fact of the card, in the state's form.
    pub fn fact(&mut self, task: &Task) -> Fact {
        let fact = self.atom(task, task.object_count);
        ground(task, &fact, |object| object)
    }

    /// A well-formed state of at most `count` facts, and its count.
    pub fn state(&mut self, task: &Task, count: usize) -> (Vec<u8>, usize) {
        self.state_with(task, Vec::new(), count)
    }

    /// The same, with facts among them that are made to meet preconditions.
    pub fn allowing_state(&mut self, task: &Task, count: usize) -> (Vec<u8>, usize) {
        let facts = self.facts(task, count / 2);
        self.state_with(task, facts, count)
    }

    /// These facts, and others up to `count`.
    fn state_with(&mut self, task: &Task, mut facts: Vec<Atom>, count: usize) -> (Vec<u8>, usize) {
        // Some rounds reach the wanted number where the card has as many facts.
        for _ in 0..20 {
            for _ in facts.len()..count {
                facts.push(self.atom(task, task.object_count));
            }
            sort(&mut facts);
        }
        let mut state: Vec<u8> = facts.iter().flat_map(|fact| ground(task, fact, |object| object)).collect();
        state.resize(STATE_LEN, 0);
        (state, facts.len())
    }

    /// The state, made such that no press of the card may be made on it (15).
    pub fn malformed_state(&mut self, task: &Task, state: &[u8], count: usize) -> Malformed {
        let mut bad = Malformed { state: state.to_vec(), count, part: MALFORMED_PARTS[0] };
        loop {
            bad.part = MALFORMED_PARTS[self.below(MALFORMED_PARTS.len())];
            if self.malform(task, &mut bad).is_some() {
                return bad;
            }
        }
    }

    /// Damages the part that is named; none if the state has no place for that.
    fn malform(&mut self, task: &Task, bad: &mut Malformed) -> Option<()> {
        let Malformed { state, count, part: (_, part) } = bad;
        match *part {
            SHORT => {
                let length = *self.pick(&[0, 1, STATE_LEN - 1, STATE_LEN / 2, *count * FACT_LEN / 2])?;
                state.truncate(length);
                return Some(());
            }
            OVER => {
                *count = *self.pick(&[MAX_STATE_FACTS + 1, 65_536, 1 << 30, usize::MAX / 4 + 2, usize::MAX])?;
                return Some(());
            }
            _ => {}
        }
        let at = self.index(*count)? * FACT_LEN;
        let arity = task.arity(state[at]);
        match *part {
            PREDICATE => state[at] = self.outside(0, task.predicate_count - 1),
            OBJECT => state[at + self.within(1, arity)] = self.outside(0, task.object_count - 1),
            FILLED if arity < MAX_ARITY => state[at + self.within(arity + 1, MAX_ARITY)] = self.outside(FILLER, FILLER),
            ORDER if *count > 1 => {
                let at = at.min((*count - 2) * FACT_LEN);
                let (one, next) = state[at..].split_at_mut(FACT_LEN);
                one.swap_with_slice(&mut next[..FACT_LEN]);
            }
            TWICE if *count < MAX_STATE_FACTS => {
                state.copy_within(at..*count * FACT_LEN, at + FACT_LEN);
                *count += 1;
            }
            _ => return None,
        }
        Some(())
    }
}

/// A state that is not well formed, the count handed in with it, and what is wrong.
pub struct Malformed {
    pub state: Vec<u8>,
    pub count: usize,
    pub part: Case,
}

/// The parts of 15.
pub const MALFORMED_PARTS: [Case; 7] =
    [("state", SHORT), ("state", OVER), ("state", PREDICATE), ("state", OBJECT), ("state", FILLED), ("state", ORDER), ("state", TWICE)];

const SHORT: &str = "buffer under 4,096 bytes";
const OVER: &str = "count over 1,024";
const PREDICATE: &str = "unknown predicate";
const OBJECT: &str = "unknown object";
const FILLED: &str = "wrong filler";
const ORDER: &str = "not ascending";
const TWICE: &str = "a fact twice";
