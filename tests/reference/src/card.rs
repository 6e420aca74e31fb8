//! The card: a task as bytes, read and written (document 01, "The card" and "Refusals in checking order").

use crate::refusal::*;

pub const MAX_PREDICATES: usize = 20;
pub const MAX_ARITY: usize = 3;
pub const MAX_OBJECTS: usize = 64;
pub const MAX_SCHEMAS: usize = 32;
pub const MAX_PARAMETERS: usize = 6;
pub const MAX_ATOMS: usize = 8;
pub const MAX_FACTS: usize = 512;

/// The least output buffer of the writer and of the listing.
pub const OUTPUT_LEN: usize = 65_536;

/// The longest card: 20 predicates of arity 3, 32 schemas with three full lists, 512 facts.
pub const LONGEST_CARD: usize = 1 + MAX_PREDICATES + 1 + 1 + MAX_SCHEMAS * (2 + 3 * (1 + MAX_ATOMS * 4)) + 2 + MAX_FACTS * 4;

/// A predicate with its arguments, which are parameters in a schema and objects in a fact.
/// Places past the arity are no part of it; `decode` leaves 0 there, so the derived order is the card's.
#[derive(Clone, Copy, Debug, Default, PartialEq, Eq, PartialOrd, Ord)]
pub struct Atom {
    pub predicate: u8,
    pub arguments: [u8; MAX_ARITY],
}

#[derive(Clone, Copy, Debug, Default, PartialEq, Eq)]
pub struct Atoms {
    pub count: u8,
    pub places: [Atom; MAX_ATOMS],
}

impl Atoms {
    pub fn as_slice(&self) -> &[Atom] {
        &self.places[..self.count as usize]
    }
}

#[derive(Clone, Copy, Debug, Default, PartialEq, Eq)]
pub struct Schema {
    pub parameters: u8,
    pub preconditions: Atoms,
    pub deletes: Atoms,
    pub adds: Atoms,
}

/// Document 01's table. Places past a count are no part of it; `decode` leaves zeros there.
#[derive(Clone, Copy, Debug, PartialEq, Eq)]
pub struct Task {
    pub predicate_count: u8,
    pub arity_places: [u8; MAX_PREDICATES],
    pub object_count: u8,
    pub schema_count: u8,
    pub schema_places: [Schema; MAX_SCHEMAS],
    pub fact_count: u16,
    pub fact_places: [Atom; MAX_FACTS],
}

impl Default for Task {
    fn default() -> Task {
        Task {
            predicate_count: 0,
            arity_places: [0; MAX_PREDICATES],
            object_count: 0,
            schema_count: 0,
            schema_places: [Schema::default(); MAX_SCHEMAS],
            fact_count: 0,
            fact_places: [Atom::default(); MAX_FACTS],
        }
    }
}

impl Task {
    pub fn arities(&self) -> &[u8] {
        &self.arity_places[..self.predicate_count as usize]
    }

    pub fn arity(&self, predicate: u8) -> usize {
        self.arities()[predicate as usize] as usize
    }

    pub fn schemas(&self) -> &[Schema] {
        &self.schema_places[..self.schema_count as usize]
    }

    pub fn facts(&self) -> &[Atom] {
        &self.fact_places[..self.fact_count as usize]
    }

    /// The arguments of an atom of this task, without the places past its arity.
    pub fn arguments<'a>(&self, atom: &'a Atom) -> &'a [u8] {
        &atom.arguments[..self.arity(atom.predicate)]
    }
}

/// Reads a card, or answers the refusal (1 to 14) that is met first.
pub fn decode(card: &[u8]) -> Result<Task, u8> {
    let mut reader = Reader { rest: card };
    let mut task = Task { predicate_count: reader.byte()?, ..Task::default() };
    if !in_range(task.predicate_count, 1, MAX_PREDICATES) {
        return Err(PREDICATES);
    }
    for place in 0..task.predicate_count as usize {
        let arity = reader.byte()?;
        if !in_range(arity, 1, MAX_ARITY) {
            return Err(PREDICATES);
        }
        task.arity_places[place] = arity;
    }

    task.object_count = reader.byte()?;
    if !in_range(task.object_count, 1, MAX_OBJECTS) {
        return Err(OBJECTS);
    }

    task.schema_count = reader.byte()?;
    if !in_range(task.schema_count, 0, MAX_SCHEMAS) {
        return Err(SCHEMAS);
    }
    for place in 0..task.schema_count as usize {
        task.schema_places[place] = reader.schema(&task.arity_places[..task.predicate_count as usize])?;
    }

    task.fact_count = u16::from_be_bytes([reader.byte()?, reader.byte()?]);
    if task.fact_count as usize > MAX_FACTS {
        return Err(FACTS);
    }
    for place in 0..task.fact_count as usize {
        let fact = reader.atom(task.arities(), task.object_count, FACT)?;
        if place > 0 && fact <= task.fact_places[place - 1] {
            return Err(FACT_ORDER);
        }
        task.fact_places[place] = fact;
    }

    if !reader.rest.is_empty() {
        return Err(TRAILING);
    }
    Ok(task)
}

fn in_range(byte: u8, least: usize, most: usize) -> bool {
    (least..=most).contains(&(byte as usize))
}

const HAS_PARAMETERS: u8 = 1;
const HAS_PRECONDITIONS: u8 = 2;
const HAS_DELETES: u8 = 4;
const HAS_ADDS: u8 = 8;
const HIGH_BITS: u8 = 0xF0;

struct Reader<'a> {
    rest: &'a [u8],
}

impl Reader<'_> {
    fn byte(&mut self) -> Result<u8, u8> {
        let (&byte, rest) = self.rest.split_first().ok_or(CARD_ENDS)?;
        self.rest = rest;
        Ok(byte)
    }

    fn schema(&mut self, arities: &[u8]) -> Result<Schema, u8> {
        let map = self.byte()?;
        if map & HIGH_BITS != 0 {
            return Err(PARAMETERS);
        }
        let mut schema = Schema { parameters: 1, ..Schema::default() };
        if map & HAS_PARAMETERS != 0 {
            schema.parameters = self.byte()?;
            if !in_range(schema.parameters, 2, MAX_PARAMETERS) {
                return Err(PARAMETERS);
            }
        }
        let parameters = schema.parameters;
        if map & HAS_PRECONDITIONS != 0 {
            schema.preconditions = self.atoms(arities, parameters, |_| Ok(()))?;
        }
        let preconditions = schema.preconditions.as_slice();
        if map & HAS_DELETES != 0 {
            schema.deletes = self.atoms(arities, parameters, |atom| deletable(preconditions, atom))?;
        }
        if map & HAS_ADDS != 0 {
            schema.adds = self.atoms(arities, parameters, |atom| addable(preconditions, atom))?;
        }
        Ok(schema)
    }

    /// A list with its count byte; `check` is made at each whole atom, after its order.
    fn atoms(&mut self, arities: &[u8], parameters: u8, check: impl Fn(&Atom) -> Result<(), u8>) -> Result<Atoms, u8> {
        let mut atoms = Atoms { count: self.byte()?, ..Atoms::default() };
        if !in_range(atoms.count, 1, MAX_ATOMS) {
            return Err(LIST);
        }
        for place in 0..atoms.count as usize {
            let atom = self.atom(arities, parameters, ATOM)?;
            if place > 0 && atom <= atoms.places[place - 1] {
                return Err(ATOM_ORDER);
            }
            check(&atom)?;
            atoms.places[place] = atom;
        }
        Ok(atoms)
    }

    /// An atom whose arguments are below `bound`; each byte is checked as it is read.
    fn atom(&mut self, arities: &[u8], bound: u8, refusal: u8) -> Result<Atom, u8> {
        let predicate = self.byte()?;
        let &arity = arities.get(predicate as usize).ok_or(refusal)?;
        let mut atom = Atom { predicate, ..Atom::default() };
        for argument in &mut atom.arguments[..arity as usize] {
            *argument = self.byte()?;
            if *argument >= bound {
                return Err(refusal);
            }
        }
        Ok(atom)
    }
}

fn deletable(preconditions: &[Atom], atom: &Atom) -> Result<(), u8> {
    if preconditions.contains(atom) {
        Ok(())
    } else {
        Err(DELETE)
    }
}

fn addable(preconditions: &[Atom], atom: &Atom) -> Result<(), u8> {
    if preconditions.contains(atom) {
        Err(ADD)
    } else {
        Ok(())
    }
}

/// Writes a task as a card from byte 0 of `out` and answers its length, or refuses a task that no card can carry
/// (2 to 13, in card order), and last a short buffer (21). The task may have any bytes in any place.
pub fn encode(task: &Task, out: &mut [u8]) -> Result<usize, u8> {
    let mut card = Vec::with_capacity(LONGEST_CARD);

    if !in_range(task.predicate_count, 1, MAX_PREDICATES) || task.arities().iter().any(|&arity| !in_range(arity, 1, MAX_ARITY)) {
        return Err(PREDICATES);
    }
    card.push(task.predicate_count);
    card.extend_from_slice(task.arities());

    if !in_range(task.object_count, 1, MAX_OBJECTS) {
        return Err(OBJECTS);
    }
    card.push(task.object_count);

    if !in_range(task.schema_count, 0, MAX_SCHEMAS) {
        return Err(SCHEMAS);
    }
    card.push(task.schema_count);
    for schema in task.schemas() {
        write_schema(task.arities(), schema, &mut card)?;
    }

    if task.fact_count as usize > MAX_FACTS {
        return Err(FACTS);
    }
    card.extend_from_slice(&task.fact_count.to_be_bytes());
    let mut before = None;
    for fact in task.facts() {
        let fact = trim(task.arities(), fact, task.object_count).ok_or(FACT)?;
        if before.is_some_and(|before| fact <= before) {
            return Err(FACT_ORDER);
        }
        write_atom(task.arities(), &fact, &mut card);
        before = Some(fact);
    }

    if out.len() < OUTPUT_LEN {
        return Err(OUTPUT);
    }
    out[..card.len()].copy_from_slice(&card);
    Ok(card.len())
}

fn write_schema(arities: &[u8], schema: &Schema, card: &mut Vec<u8>) -> Result<(), u8> {
    if !in_range(schema.parameters, 1, MAX_PARAMETERS) {
        return Err(PARAMETERS);
    }
    let bit = |stands: bool, value: u8| if stands { value } else { 0 };
    card.push(
        bit(schema.parameters > 1, HAS_PARAMETERS)
            | bit(schema.preconditions.count > 0, HAS_PRECONDITIONS)
            | bit(schema.deletes.count > 0, HAS_DELETES)
            | bit(schema.adds.count > 0, HAS_ADDS),
    );
    if schema.parameters > 1 {
        card.push(schema.parameters);
    }
    let preconditions = write_atoms(arities, schema.parameters, &schema.preconditions, card, |_| Ok(()))?;
    let preconditions = preconditions.as_slice();
    write_atoms(arities, schema.parameters, &schema.deletes, card, |atom| deletable(preconditions, atom))?;
    write_atoms(arities, schema.parameters, &schema.adds, card, |atom| addable(preconditions, atom))?;
    Ok(())
}

/// Writes a list, checked as the reader checks it, and answers it without what is no part of it.
fn write_atoms(
    arities: &[u8],
    parameters: u8,
    atoms: &Atoms,
    card: &mut Vec<u8>,
    check: impl Fn(&Atom) -> Result<(), u8>,
) -> Result<Atoms, u8> {
    if !in_range(atoms.count, 0, MAX_ATOMS) {
        return Err(LIST);
    }
    if atoms.count > 0 {
        card.push(atoms.count);
    }
    let mut trimmed = Atoms { count: atoms.count, ..Atoms::default() };
    for (place, atom) in atoms.as_slice().iter().enumerate() {
        let atom = trim(arities, atom, parameters).ok_or(ATOM)?;
        if place > 0 && atom <= trimmed.places[place - 1] {
            return Err(ATOM_ORDER);
        }
        check(&atom)?;
        write_atom(arities, &atom, card);
        trimmed.places[place] = atom;
    }
    Ok(trimmed)
}

/// The atom with 0 past its arity, if its predicate and its arguments are known.
fn trim(arities: &[u8], atom: &Atom, bound: u8) -> Option<Atom> {
    let arity = *arities.get(atom.predicate as usize)? as usize;
    let mut trimmed = Atom { predicate: atom.predicate, ..Atom::default() };
    trimmed.arguments[..arity].copy_from_slice(&atom.arguments[..arity]);
    trimmed.arguments[..arity].iter().all(|&argument| argument < bound).then_some(trimmed)
}

fn write_atom(arities: &[u8], atom: &Atom, card: &mut Vec<u8>) {
    card.push(atom.predicate);
    card.extend_from_slice(&atom.arguments[..arities[atom.predicate as usize] as usize]);
}
