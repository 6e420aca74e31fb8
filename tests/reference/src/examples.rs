//! Tasks with names: the plain descriptions of crates/examples/data, read into cards.
//!
//! A description has lines of these kinds, names before they are used; `#` opens a comment.
//! ```text
//! predicates at/2 fuelled/1          each with its arity
//! objects    rocket london
//! schema     fly x y                 a name and its parameters; then a line each for pre, del and add, with atoms
//! pre        at(x,y) fuelled(x)
//! facts      at(rocket,london)
//! ```
//! Predicates, objects and facts may take several lines. Predicates and objects are numbered as they are named; atoms of a list, and
//! facts, may be written in any order. What a card cannot carry is refused with the number of its line.

use crate::card::*;
use std::fmt;

/// What is wrong with a description, and in which line, counted from 1.
#[derive(Clone, Debug, PartialEq, Eq)]
pub struct Fault {
    pub line: usize,
    pub words: String,
}

impl fmt::Display for Fault {
    fn fmt(&self, f: &mut fmt::Formatter) -> fmt::Result {
        write!(f, "line {}: {}", self.line, self.words)
    }
}

/// The card of a description, or what is wrong with it.
pub fn card(description: &str) -> Result<Vec<u8>, Fault> {
    let mut out = vec![0; OUTPUT_LEN];
    let length = encode(&task(description)?, &mut out).expect("each line was held to the limits of a card");
    out.truncate(length);
    Ok(out)
}

/// The task of a description, which a card can carry, or what is wrong with it.
pub fn task(description: &str) -> Result<Task, Fault> {
    let mut draft = Draft::default();
    let mut end = 0;
    for (place, line) in description.lines().enumerate() {
        end = place + 1;
        draft.read(line).map_err(|words| Fault { line: end, words })?;
    }
    draft.finish().map_err(|words| Fault { line: end + 1, words })
}

/// A task as far as it has been read.
#[derive(Default)]
struct Draft {
    predicates: Vec<Predicate>,
    objects: Vec<String>,
    schemas: Vec<NamedSchema>,
    facts: Vec<Atom>,
}

struct Predicate {
    name: String,
    arity: u8,
}

#[derive(Default)]
struct NamedSchema {
    name: String,
    parameters: Vec<String>,
    preconditions: Option<Vec<Atom>>,
    deletes: Option<Vec<Atom>>,
    adds: Option<Vec<Atom>>,
}

impl Draft {
    fn read(&mut self, line: &str) -> Result<(), String> {
        let mut words = line.split('#').next().unwrap_or("").split_whitespace();
        let Some(keyword) = words.next() else { return Ok(()) };
        let words: Vec<&str> = words.collect();
        match keyword {
            "predicates" => self.read_predicates(&words),
            "objects" => self.read_objects(&words),
            "schema" => self.read_schema(&words),
            "pre" | "del" | "add" => self.read_list(keyword, &words),
            "facts" => self.read_facts(&words),
            _ => Err(format!("`{keyword}` opens no line")),
        }
    }

    fn read_predicates(&mut self, words: &[&str]) -> Result<(), String> {
        for word in words {
            let (name, arity) = word.split_once('/').ok_or(format!("`{word}` has no arity"))?;
            let arity: usize = arity.parse().map_err(|_| format!("`{word}` has no arity"))?;
            if !(1..=MAX_ARITY).contains(&arity) {
                return Err(format!("`{word}` has an arity outside 1 to {MAX_ARITY}"));
            }
            new_name(name, self.predicates.iter().map(|predicate| &predicate.name))?;
            self.predicates.push(Predicate { name: name.to_string(), arity: arity as u8 });
        }
        between("predicates", self.predicates.len(), 1, MAX_PREDICATES)
    }

    fn read_objects(&mut self, words: &[&str]) -> Result<(), String> {
        add_names(&mut self.objects, words)?;
        between("objects", self.objects.len(), 1, MAX_OBJECTS)
    }

    fn read_schema(&mut self, words: &[&str]) -> Result<(), String> {
        let (name, words) = words.split_first().ok_or("a schema has a name")?;
        new_name(name, self.schemas.iter().map(|schema| &schema.name))?;
        let mut parameters = Vec::new();
        add_names(&mut parameters, words)?;
        between("parameters", parameters.len(), 1, MAX_PARAMETERS)?;
        self.schemas.push(NamedSchema { name: name.to_string(), parameters, ..NamedSchema::default() });
        between("schemas", self.schemas.len(), 0, MAX_SCHEMAS)
    }

    /// A list of the last schema. The preconditions come first, since the other lists are held to them.
    fn read_list(&mut self, keyword: &str, words: &[&str]) -> Result<(), String> {
        let schema = self.schemas.last_mut().ok_or(format!("`{keyword}` comes before any schema"))?;
        let atoms = atoms(&self.predicates, &schema.parameters, words)?;
        between("atoms", atoms.len(), 0, MAX_ATOMS)?;
        different(&atoms, words)?;
        let needed = schema.preconditions.as_deref().unwrap_or_default();
        let list = match keyword {
            "pre" if schema.deletes.is_some() || schema.adds.is_some() => return Err("`pre` comes before `del` and `add`".to_string()),
            "pre" => &mut schema.preconditions,
            "del" => {
                all(&atoms, words, |atom| needed.contains(atom), "is deleted and no precondition")?;
                &mut schema.deletes
            }
            _ => {
                all(&atoms, words, |atom| !needed.contains(atom), "is added and a precondition")?;
                &mut schema.adds
            }
        };
        if list.is_some() {
            return Err(format!("`{}` has a line `{keyword}` already", schema.name));
        }
        *list = Some(atoms);
        Ok(())
    }

    fn read_facts(&mut self, words: &[&str]) -> Result<(), String> {
        let facts = atoms(&self.predicates, &self.objects, words)?;
        different(&facts, words)?;
        all(&facts, words, |fact| !self.facts.contains(fact), "is a fact already")?;
        self.facts.extend(facts);
        between("facts", self.facts.len(), 0, MAX_FACTS)
    }

    fn finish(mut self) -> Result<Task, String> {
        between("predicates", self.predicates.len(), 1, MAX_PREDICATES)?;
        between("objects", self.objects.len(), 1, MAX_OBJECTS)?;
        self.facts.sort();

        // Every count is within the card's limits, so that it fits its byte and its places.
        let mut task = Task {
            predicate_count: self.predicates.len() as u8,
            object_count: self.objects.len() as u8,
            schema_count: self.schemas.len() as u8,
            fact_count: self.facts.len() as u16,
            ..Task::default()
        };
        for (place, predicate) in task.arity_places.iter_mut().zip(&self.predicates) {
            *place = predicate.arity;
        }
        for (place, schema) in task.schema_places.iter_mut().zip(&self.schemas) {
            *place = Schema {
                parameters: schema.parameters.len() as u8,
                preconditions: ascending(&schema.preconditions),
                deletes: ascending(&schema.deletes),
                adds: ascending(&schema.adds),
            };
        }
        task.fact_places[..self.facts.len()].copy_from_slice(&self.facts);
        Ok(task)
    }
}

/// The atoms of some words, in their order.
fn atoms(predicates: &[Predicate], arguments: &[String], words: &[&str]) -> Result<Vec<Atom>, String> {
    words.iter().map(|word| atom(predicates, arguments, word)).collect()
}

fn atom(predicates: &[Predicate], arguments: &[String], word: &str) -> Result<Atom, String> {
    let (name, inside) = word.strip_suffix(')').and_then(|word| word.split_once('(')).ok_or(format!("`{word}` is no atom"))?;
    let number = predicates.iter().position(|known| known.name == name).ok_or(format!("`{word}` has an unknown predicate"))?;
    let named: Vec<&str> = inside.split(',').collect();
    if named.len() != predicates[number].arity as usize {
        return Err(format!("`{word}` has {} arguments, and `{name}` has {}", named.len(), predicates[number].arity));
    }
    let mut atom = Atom { predicate: number as u8, ..Atom::default() };
    for (place, argument) in atom.arguments.iter_mut().zip(named) {
        let number = arguments.iter().position(|known| known == argument);
        *place = number.ok_or(format!("`{word}` has the unknown argument `{argument}`"))? as u8;
    }
    Ok(atom)
}

fn between(what: &str, number: usize, least: usize, most: usize) -> Result<(), String> {
    if (least..=most).contains(&number) {
        Ok(())
    } else {
        Err(format!("{number} {what}, and a card has {least} to {most}"))
    }
}

fn add_names(names: &mut Vec<String>, words: &[&str]) -> Result<(), String> {
    for word in words {
        new_name(word, names.iter())?;
        names.push(word.to_string());
    }
    Ok(())
}

/// A name is not there yet, and can stand in an atom.
fn new_name<'a>(name: &str, mut known: impl Iterator<Item = &'a String>) -> Result<(), String> {
    if name.is_empty() || name.contains(['(', ')', ',', '/']) {
        return Err(format!("`{name}` is no name"));
    }
    if known.any(|known| known == name) {
        return Err(format!("`{name}` is named twice"));
    }
    Ok(())
}

fn different(atoms: &[Atom], words: &[&str]) -> Result<(), String> {
    for (place, atom) in atoms.iter().enumerate() {
        if atoms[..place].contains(atom) {
            return Err(format!("`{}` is there twice", words[place]));
        }
    }
    Ok(())
}

/// Whether a test holds of each atom; else what is said of the first of which it does not.
fn all(atoms: &[Atom], words: &[&str], test: impl Fn(&Atom) -> bool, said: &str) -> Result<(), String> {
    match atoms.iter().position(|atom| !test(atom)) {
        Some(place) => Err(format!("`{}` {said}", words[place])),
        None => Ok(()),
    }
}

/// A list of at most eight atoms as a card has it.
fn ascending(atoms: &Option<Vec<Atom>>) -> Atoms {
    let mut atoms = atoms.clone().unwrap_or_default();
    atoms.sort();
    let mut list = Atoms { count: atoms.len() as u8, ..Atoms::default() };
    list.places[..atoms.len()].copy_from_slice(&atoms);
    list
}
