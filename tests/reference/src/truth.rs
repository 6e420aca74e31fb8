//! Whether a listing is true of a state (document 01, "True of a state", and the owner's demand 3; of what a rescue lists too: document
//! 02, request 5), and whether its `E` lines, which say nothing of states, follow from its `T` lines (document 02, request 2).
//! It works from the listing's text, parsed back line by line, and from the card; it shares nothing with the analysis.

use crate::card::{Schema, Task};
use crate::strips::FACT_LEN;

/// A listing, parsed back from its lines.
#[derive(Debug, Default)]
pub struct Listing {
    /// The spaces by number; after a mixed one that is rescued comes what is left of it, with the same number and kind H.
    pub spaces: Vec<SpaceLines>,
    /// `F` and `C` lines: predicate and number.
    pub totals: Vec<(usize, usize)>,
    pub ceilings: Vec<(usize, usize)>,
    /// `R` lines: schema, parameter, objects.
    pub types: Vec<(usize, usize, Vec<usize>)>,
}

/// An `S` line and the lines that belong to it.
#[derive(Debug, Default)]
pub struct SpaceLines {
    pub number: usize,
    pub kind: String,
    pub properties: Vec<usize>,
    pub members: Vec<usize>,
    /// `T` lines.
    pub bags: Vec<Vec<usize>>,
    /// `M` lines: property and most.
    pub limits: Vec<(usize, usize)>,
    /// `D` lines.
    pub least: Vec<usize>,
    /// `X` lines.
    pub exclusions: Vec<(usize, usize)>,
    /// `E` lines: the index of a condition, and that of one which it is within.
    pub nestings: Vec<(usize, usize)>,
}

impl SpaceLines {
    /// Whether conditions are listed: P, and H for what is left of a mixed space.
    fn gives_conditions(&self) -> bool {
        self.kind == "P" || self.kind == "H"
    }

    /// The words by which a fault names the space.
    fn name(&self) -> String {
        format!("space {}{}", self.number, if self.kind == "H" { ", rescued" } else { "" })
    }
}

/// The letters of lines in the order in which they come: those of a space, and those of the closing section.
const LETTERS: &str = "STMDXEFCR";
const KINDS: [&str; 6] = ["S", "A", "P", "M", "W", "H"];

impl Listing {
    /// The listing of this text; none if a line is not of its form or comes after a line that it should come before.
    pub fn parse(text: &str) -> Option<Listing> {
        let mut listing = Listing::default();
        let mut before = "S";
        for line in text.lines() {
            let mut parts = line.split(':');
            let (letter, head) = parts.next()?.trim().split_once(' ').unwrap_or((line.get(..1)?, ""));
            let another_space = letter == "S" && LETTERS.find(before) < LETTERS.find('F');
            if LETTERS.find(before) > LETTERS.find(letter) && !another_space {
                return None;
            }
            before = letter;
            let lists: Vec<Vec<usize>> = parts.map(numbers).collect::<Option<_>>()?;
            if letter == "S" {
                let (number, kind) = head.split_once(' ')?;
                let number = number.parse().ok()?;
                if !KINDS.contains(&kind) || !listing.takes_space(number, kind) {
                    return None;
                }
                let [properties, members] = <[Vec<usize>; 2]>::try_from(lists).ok()?;
                listing.spaces.push(SpaceLines { number, kind: kind.to_string(), properties, members, ..SpaceLines::default() });
                continue;
            }
            if "TMDXE".contains(letter) && !listing.spaces.last()?.gives_conditions() {
                return None;
            }
            let head = numbers(head)?;
            match (letter, head.as_slice(), lists.as_slice()) {
                ("T", [], [counts]) => listing.spaces.last_mut()?.bags.push(counts.clone()),
                ("M", &[property, most], []) => listing.spaces.last_mut()?.limits.push((property, most)),
                ("D", &[bag], []) => listing.spaces.last_mut()?.least.push(bag),
                ("X", &[one, other], []) => listing.spaces.last_mut()?.exclusions.push((one, other)),
                ("E", &[inner, outer], []) => listing.spaces.last_mut()?.nestings.push((inner, outer)),
                ("F", &[predicate, total], []) => listing.totals.push((predicate, total)),
                ("C", &[predicate, number], []) => listing.ceilings.push((predicate, number)),
                ("R", &[schema, parameter], [objects]) => listing.types.push((schema, parameter, objects.clone())),
                _ => return None,
            }
        }
        Some(listing)
    }

    /// Whether an `S` line with this number and kind may come next. One of kind H comes directly after that of a mixed space, with its
    /// number; any other has the next number.
    fn takes_space(&self, number: usize, kind: &str) -> bool {
        match self.spaces.last() {
            Some(last) if kind == "H" => last.kind == "M" && last.number == number,
            Some(last) => number == last.number + 1,
            None => number == 0 && kind != "H",
        }
    }
}

fn numbers(text: &str) -> Option<Vec<usize>> {
    text.split_whitespace().map(|word| word.parse().ok()).collect()
}

/// A state as facts of predicate and objects.
struct State {
    facts: Vec<(usize, Vec<usize>)>,
}

impl State {
    fn new(task: &Task, bytes: &[u8]) -> State {
        let fact = |bytes: &[u8]| {
            let arity = task.arity(bytes[0]);
            (bytes[0] as usize, bytes[1..=arity].iter().map(|&object| object as usize).collect())
        };
        State { facts: bytes.chunks_exact(FACT_LEN).map(fact).collect() }
    }

    fn facts_of(&self, predicate: usize) -> usize {
        self.facts.iter().filter(|fact| fact.0 == predicate).count()
    }

    /// For each property and object, the number of facts with that object at that position.
    fn counts(&self, properties: &[(usize, usize)], objects: usize) -> Vec<Vec<usize>> {
        let mut counts = vec![vec![0; objects]; properties.len()];
        for (predicate, arguments) in &self.facts {
            for (property, &(of, position)) in properties.iter().enumerate() {
                if of == *predicate {
                    counts[property][arguments[position]] += 1;
                }
            }
        }
        counts
    }
}

/// Checks every line of a card's listing, and the rest of demand 3, against the facts of a state. Says what is false.
pub fn check(task: &Task, listing: &Listing, facts: &[u8]) -> Result<(), String> {
    let state = State::new(task, facts);
    let arities = task.arities().iter().map(|&arity| arity as usize).enumerate();
    let properties: Vec<(usize, usize)> =
        arities.flat_map(|(predicate, arity)| (0..arity).map(move |position| (predicate, position))).collect();
    let objects = task.object_count as usize;
    let counts = state.counts(&properties, objects);

    for space in &listing.spaces {
        check_space(space, &counts, objects).map_err(|fault| format!("{}: {fault}", space.name()))?;
    }
    for &(predicate, total) in &listing.totals {
        if state.facts_of(predicate) != total {
            return Err(format!("F {predicate} {total}, but there are {}", state.facts_of(predicate)));
        }
    }
    for &(predicate, number) in &listing.ceilings {
        if state.facts_of(predicate) > number {
            return Err(format!("C {predicate} {number}, but there are {}", state.facts_of(predicate)));
        }
    }
    for (number, schema) in task.schemas().iter().enumerate() {
        check_types(task, listing, &state, number, schema)?;
    }
    Ok(())
}

/// Checks the `E` lines of each space: they are the pairs of its conditions of which the first is strictly within the second, each once,
/// ascending. Says what is wrong.
pub fn check_nestings(listing: &Listing) -> Result<(), String> {
    for space in &listing.spaces {
        check_nestings_of(space).map_err(|fault| format!("{}: {fault}", space.name()))?;
    }
    Ok(())
}

/// Checks what is left of each mixed space that is rescued: some of its properties and some of its members, both in their order. Says
/// what is wrong.
pub fn check_rescues(listing: &Listing) -> Result<(), String> {
    let pairs = listing.spaces.iter().zip(listing.spaces.iter().skip(1));
    for (mixed, left) in pairs.filter(|(_, left)| left.kind == "H") {
        let some_of = |part: &[usize], whole: &[usize]| part.iter().all(|number| whole.contains(number)) && part.is_sorted();
        if left.properties.is_empty() || left.properties.len() == mixed.properties.len() || !some_of(&left.properties, &mixed.properties) {
            return Err(format!("{}: properties {:?} are left of {:?}", left.name(), left.properties, mixed.properties));
        }
        if !some_of(&left.members, &mixed.members) {
            return Err(format!("{}: members {:?} are left of {:?}", left.name(), left.members, mixed.members));
        }
    }
    Ok(())
}

fn check_nestings_of(SpaceLines { bags, nestings, .. }: &SpaceLines) -> Result<(), String> {
    let within = |inner: usize, outer: usize| bags[inner] != bags[outer] && contains(&bags[outer], &bags[inner]);
    for &(inner, outer) in nestings {
        if inner.max(outer) >= bags.len() {
            return Err(format!("E {inner} {outer}, but there are {} conditions", bags.len()));
        }
        if !within(inner, outer) {
            return Err(format!("E {inner} {outer}, but {:?} is not strictly within {:?}", bags[inner], bags[outer]));
        }
    }
    if let Some(two) = nestings.windows(2).find(|two| two[0] >= two[1]) {
        return Err(format!("E {} {} is not above the line before", two[1].0, two[1].1));
    }
    for inner in 0..bags.len() {
        for outer in 0..bags.len() {
            if within(inner, outer) && nestings.binary_search(&(inner, outer)).is_err() {
                return Err(format!("{:?} is strictly within {:?}, but there is no E {inner} {outer}", bags[inner], bags[outer]));
            }
        }
    }
    Ok(())
}

fn check_space(space: &SpaceLines, counts: &[Vec<usize>], objects: usize) -> Result<(), String> {
    let bag = |object: usize| -> Vec<usize> { space.properties.iter().map(|&property| counts[property][object]).collect() };
    for (object, bag) in (0..objects).map(|object| (object, bag(object))) {
        let member = space.members.contains(&object);
        if !member && bag.iter().any(|&count| count > 0) {
            return Err(format!("object {object} is outside and has {bag:?}"));
        }
        if member && space.gives_conditions() {
            if !space.bags.contains(&bag) {
                return Err(format!("object {object} has {bag:?}, which is not listed"));
            }
            if !space.least.iter().any(|&least| contains(&bag, &space.bags[least])) {
                return Err(format!("object {object} has {bag:?}, which contains no D"));
            }
            for &(one, other) in &space.exclusions {
                if contains(&bag, &space.bags[one]) && contains(&bag, &space.bags[other]) {
                    return Err(format!("object {object} has {bag:?}, which contains both of X {one} {other}"));
                }
            }
        }
        for &(property, most) in &space.limits {
            if counts[property][object] > most {
                return Err(format!("object {object} is above M {property} {most}"));
            }
        }
    }
    Ok(())
}

fn contains(bag: &[usize], other: &[usize]) -> bool {
    bag.iter().zip(other).all(|(count, least)| count >= least)
}

/// The most bindings that are looked at for one schema.
const MOST_BINDINGS: usize = 20_000;

/// Whether each press of a schema that the state allows has listed objects only.
fn check_types(task: &Task, listing: &Listing, state: &State, number: usize, schema: &Schema) -> Result<(), String> {
    let parameters = schema.parameters as usize;
    let lines: Vec<&Vec<usize>> = listing.types.iter().filter(|line| line.0 == number).map(|(_, _, objects)| objects).collect();
    if lines.len() != parameters {
        return Err(format!("schema {number} has {} R lines", lines.len()));
    }
    let mut bindings = vec![vec![None; parameters]];
    for atom in schema.preconditions.as_slice() {
        let facts = state.facts.iter().filter(|fact| fact.0 == atom.predicate as usize);
        let pairs = bindings.iter().flat_map(|binding| facts.clone().map(move |(_, objects)| (binding, objects)));
        bindings = pairs.filter_map(|(binding, objects)| bind(binding, task.arguments(atom), objects)).take(MOST_BINDINGS).collect();
    }
    for binding in bindings {
        let bound: Vec<usize> = binding.iter().flatten().copied().collect();
        // A parameter of no precondition may have any object that is left, if there are enough for all such parameters.
        if parameters - bound.len() > task.object_count as usize - bound.len() {
            continue;
        }
        for (parameter, object) in binding.iter().enumerate() {
            let listed = match object {
                Some(object) => lines[parameter].contains(object),
                None => (0..task.object_count as usize).all(|object| bound.contains(&object) || lines[parameter].contains(&object)),
            };
            if !listed {
                return Err(format!("schema {number} allows {binding:?}, but parameter {parameter} has {:?}", lines[parameter]));
            }
        }
    }
    Ok(())
}

/// The binding with an atom's parameters bound to a fact's objects, if that leaves the objects different.
fn bind(binding: &[Option<usize>], parameters: &[u8], objects: &[usize]) -> Option<Vec<Option<usize>>> {
    // Most facts of a large state do not fit what is bound already, and are not worth a copy.
    let fits = |(&parameter, object): (&u8, &usize)| match &binding[parameter as usize] {
        Some(bound) => bound == object,
        None => !binding.contains(&Some(*object)),
    };
    if !parameters.iter().zip(objects).all(fits) {
        return None;
    }
    let mut binding = binding.to_vec();
    for (&parameter, &object) in parameters.iter().zip(objects) {
        let taken = binding.contains(&Some(object));
        match &mut binding[parameter as usize] {
            Some(bound) if *bound == object => {}
            place @ None if !taken => *place = Some(object),
            _ => return None,
        }
    }
    Some(binding)
}
