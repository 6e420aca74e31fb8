//! The listing's text: one section per space, then a closing section (document 01, "Listing"; of document 02 request 2: `E` lines, and
//! request 5: what a rescue lists).

use crate::card::{decode, Task, OUTPUT_LEN};
use crate::refusal::*;
use crate::rescue::{rescue, End};
use crate::tim::{compare, contains, each, Analysis, Bags, Compared, Extension, Kind, Space};

/// Writes one section from byte 0 of `out` and answers its length. Refuses by 1 to 14, then 21, then 22.
pub fn section(card: &[u8], number: usize, out: &mut [u8]) -> Result<usize, u8> {
    let task = decode(card)?;
    if out.len() < OUTPUT_LEN {
        return Err(OUTPUT);
    }
    let analysis = Analysis::new(&task);
    let mut text = Text::default();
    if let Some(space) = analysis.spaces.get(number) {
        space_section(&analysis, number, extension(&analysis, space).as_ref(), &mut text);
    } else if number == analysis.spaces.len() {
        let extensions: Vec<_> = analysis.spaces.iter().map(|space| extension(&analysis, space)).collect();
        closing_section(&task, &analysis, &extensions, &mut text);
    } else {
        return Err(SECTION);
    }
    out[..text.bytes.len()].copy_from_slice(&text.bytes);
    Ok(text.bytes.len())
}

/// What the program prints for a card: all sections, or one line with the refusal.
pub fn listing(card: &[u8]) -> Vec<u8> {
    let mut text = Text::default();
    match decode(card) {
        Ok(task) => {
            let analysis = Analysis::new(&task);
            let extensions: Vec<_> = analysis.spaces.iter().map(|space| extension(&analysis, space)).collect();
            for (number, extension) in extensions.iter().enumerate() {
                space_section(&analysis, number, extension.as_ref(), &mut text);
            }
            closing_section(&task, &analysis, &extensions, &mut text);
        }
        Err(refusal) => {
            text.first("refused");
            text.number(refusal.into());
            text.end();
        }
    }
    text.bytes
}

/// The extension of a property space; other spaces have none.
fn extension(analysis: &Analysis, space: &Space) -> Option<Extension> {
    (space.kind == Kind::Property).then(|| analysis.extension(space))
}

fn space_section(analysis: &Analysis, number: usize, extension: Option<&Extension>, text: &mut Text) {
    let space = &analysis.spaces[number];
    let kind = match (space.kind, extension) {
        (Kind::Static, _) => "S",
        (Kind::Attribute, _) => "A",
        (_, Some(Extension::Mixed(_))) => "M",
        (_, Some(Extension::Wide)) => "W",
        _ => "P",
    };
    space_line(number, kind, space, text);
    match extension {
        Some(Extension::Bags(bags)) => bag_lines(analysis, space, bags, text),
        Some(Extension::Mixed(mixed)) => {
            if let End::Listed(left, bags) = rescue(analysis, space, mixed).end {
                space_line(number, "H", &left, text);
                bag_lines(analysis, &left, &bags, text);
            }
        }
        _ => {}
    }
}

fn space_line(number: usize, kind: &str, space: &Space, text: &mut Text) {
    text.first("S");
    text.number(number);
    text.item(kind);
    text.item(":");
    for &property in &space.properties {
        text.number(property);
    }
    text.item(":");
    for object in each(space.members) {
        text.number(object);
    }
    text.end();
}

/// What stands below the S line of a space that is listed with its bags; nothing where no object is a member.
fn bag_lines(analysis: &Analysis, space: &Space, bags: &Bags, text: &mut Text) {
    if bags.is_empty() {
        return;
    }
    for bag in bags.iter() {
        text.first("T");
        text.item(":");
        for &count in bag {
            text.number(count.into());
        }
        text.end();
    }
    for (place, &property) in space.properties.iter().enumerate() {
        let predicate = analysis.properties[property].predicate;
        if analysis.arity(predicate) >= 2 {
            let most = bags.iter().map(|bag| bag[place]).max().unwrap_or(0);
            text.pair("M", property, most.into());
        }
    }
    let least: Vec<usize> = (0..bags.len()).filter(|&index| is_least(bags, index)).collect();
    for &index in &least {
        text.first("D");
        text.number(index);
        text.end();
    }
    exclusion_lines(bags, &least, text);
    nesting_lines(bags, text);
}

/// Whether the bag strictly contains no other.
fn is_least(bags: &Bags, index: usize) -> bool {
    bags.iter().all(|other| compare(bags.row(index), other) != Compared::Around)
}

/// `X` lines: two least bags that no bag contains both of.
fn exclusion_lines(bags: &Bags, least: &[usize], text: &mut Text) {
    for (after, &one) in least.iter().enumerate() {
        for &other in &least[after + 1..] {
            let both = |bag: &[u16]| contains(bag, bags.row(one)) && contains(bag, bags.row(other));
            if !bags.iter().any(both) {
                text.pair("X", one, other);
            }
        }
    }
}

/// `E` lines: a bag that is strictly within another, and that other one; of all bags, least or not.
fn nesting_lines(bags: &Bags, text: &mut Text) {
    for inner in 0..bags.len() {
        for outer in 0..bags.len() {
            if compare(bags.row(inner), bags.row(outer)) == Compared::Within {
                text.pair("E", inner, outer);
            }
        }
    }
}

fn closing_section(task: &Task, analysis: &Analysis, extensions: &[Option<Extension>], text: &mut Text) {
    for predicate in 0..task.predicate_count {
        if let Some(total) = fixed_total(analysis, extensions, predicate) {
            text.pair("F", predicate.into(), total);
        }
    }
    for predicate in 0..task.predicate_count {
        if never_grows(task, predicate) {
            let facts = task.facts().iter().filter(|fact| fact.predicate == predicate).count();
            text.pair("C", predicate.into(), facts);
        }
    }
    for (schema, parameters) in analysis.required.iter().enumerate() {
        for (parameter, &required) in parameters.iter().enumerate() {
            text.first("R");
            text.number(schema);
            text.number(parameter);
            text.item(":");
            for object in each(analysis.in_spaces_of(required)) {
                text.number(object);
            }
            text.end();
        }
    }
}

/// The total by the lowest position at which all bags of a listed space have one count.
fn fixed_total(analysis: &Analysis, extensions: &[Option<Extension>], predicate: u8) -> Option<usize> {
    let of_predicate = (0..analysis.properties.len()).filter(|&property| analysis.properties[property].predicate == predicate);
    of_predicate.into_iter().find_map(|property| {
        let number = analysis.space_of[property];
        let space = &analysis.spaces[number];
        // Of a mixed space none, whatever its rescue lists.
        let Some(Extension::Bags(bags)) = &extensions[number] else { return None };
        let place = space.properties.iter().position(|&other| other == property)?;
        let mut counts = bags.iter().map(|bag| bag[place]);
        let count = counts.next()?;
        counts.all(|other| other == count).then(|| count as usize * space.members.count_ones() as usize)
    })
}

fn never_grows(task: &Task, predicate: u8) -> bool {
    task.schemas().iter().all(|schema| {
        let number = |atoms: &[crate::card::Atom]| atoms.iter().filter(|atom| atom.predicate == predicate).count();
        number(schema.adds.as_slice()) <= number(schema.deletes.as_slice())
    })
}

/// Lines of items with one blank between them.
#[derive(Default)]
struct Text {
    bytes: Vec<u8>,
}

impl Text {
    fn first(&mut self, item: &str) {
        self.bytes.extend_from_slice(item.as_bytes());
    }

    fn item(&mut self, item: &str) {
        self.bytes.push(b' ');
        self.first(item);
    }

    fn number(&mut self, number: usize) {
        self.bytes.push(b' ');
        self.decimal(number);
    }

    fn decimal(&mut self, number: usize) {
        if number >= 10 {
            self.decimal(number / 10);
        }
        self.bytes.push(b'0' + (number % 10) as u8);
    }

    fn end(&mut self) {
        self.bytes.push(b'\n');
    }

    /// A line of a letter and two numbers.
    fn pair(&mut self, letter: &str, one: usize, other: usize) {
        self.first(letter);
        self.number(one);
        self.number(other);
        self.end();
    }
}
