//! What an asking gave, damaged part by part.

use super::{Case, Random, FILLER};
use crate::card::{Task, MAX_ATOMS, MAX_OBJECTS, MAX_PARAMETERS};
use crate::preview::{ChangesBytes, CHANGES_LEN, COMING_AT, GOING_AT, LIST_LEN, OBJECTS_AT};
use crate::strips::{Press, FACT_LEN};

/// Bytes to commit that no asking gave, and what was done to them.
pub struct Damaged {
    pub changes: ChangesBytes,
    pub part: Case,
}

/// The press may be another one, or none.
pub const DAMAGED_PRESS: [Case; 6] = [
    ("carried press", SCHEMA),
    ("carried press", FEWER_OBJECTS),
    ("carried press", MORE_OBJECTS),
    ("carried press", OVER_6),
    ("carried press", OBJECT),
    ("carried press", ANOTHER),
];

/// In the state that was asked about, other facts go or come than these lists say.
pub const DAMAGED_LISTS: [Case; 16] = [
    ("going", FEWER_ROWS),
    ("going", MORE_ROWS),
    ("going", OVER_8),
    ("going", ORDER),
    ("going", TWICE),
    ("going", ROW),
    ("going", FILLED),
    ("coming", FEWER_ROWS),
    ("coming", MORE_ROWS),
    ("coming", OVER_8),
    ("coming", ORDER),
    ("coming", TWICE),
    ("coming", ROW),
    ("coming", FILLED),
    ("both lists", EXCHANGED),
    ("both lists", EMPTY),
];

/// What is past the numbers is no part of what was asked: nothing comes of damage there.
pub const UNUSED: Case = ("unused places", "not 0");

const SCHEMA: &str = "another schema";
const FEWER_OBJECTS: &str = "fewer objects";
const MORE_OBJECTS: &str = "more objects";
const OVER_6: &str = "over 6 objects";
const OBJECT: &str = "another object";
const ANOTHER: &str = "another press";
const FEWER_ROWS: &str = "fewer rows";
const MORE_ROWS: &str = "more rows";
const OVER_8: &str = "over 8 rows";
const ORDER: &str = "another order";
const TWICE: &str = "a row twice";
const ROW: &str = "another row";
const FILLED: &str = "wrong filler";
const EXCHANGED: &str = "exchanged";
const EMPTY: &str = "empty";

impl Random {
    /// What was asked in a state of these facts, damaged in some part.
    pub fn damaged(&mut self, task: &Task, facts: &[u8], asked: &ChangesBytes) -> Damaged {
        let parts = [&DAMAGED_PRESS[..], &DAMAGED_LISTS, &[UNUSED]].concat();
        loop {
            let part = parts[self.below(parts.len())];
            let mut changes = *asked;
            if self.damage_part(task, facts, &mut changes, part).is_some() {
                return Damaged { changes, part };
            }
        }
    }

    /// Damages the part that is named; none if there is no place for that.
    fn damage_part(&mut self, task: &Task, facts: &[u8], changes: &mut ChangesBytes, part: Case) -> Option<()> {
        match part {
            ("carried press", kind) => self.damage_press(task, facts, changes, kind),
            ("going", kind) => self.damage_list(task, &mut changes[GOING_AT..COMING_AT], kind),
            ("coming", kind) => self.damage_list(task, &mut changes[COMING_AT..], kind),
            (_, EXCHANGED) => {
                let (going, coming) = changes[GOING_AT..].split_at_mut(LIST_LEN);
                going.swap_with_slice(coming);
                (going != coming).then_some(())
            }
            (_, EMPTY) => {
                let empty = changes[GOING_AT] == 0 && changes[COMING_AT] == 0;
                changes[GOING_AT..].fill(0);
                (!empty).then_some(())
            }
            _ => self.fill_unused(changes),
        }
    }

    fn damage_press(&mut self, task: &Task, facts: &[u8], changes: &mut ChangesBytes, kind: &str) -> Option<()> {
        let objects = changes[1] as usize;
        match kind {
            SCHEMA => {
                let (schema, any) = (changes[0], self.byte());
                let another = *self.pick(&[0, 1, task.schema_count.saturating_sub(1), task.schema_count, any])?;
                changes[0] = another;
                return (another != schema).then_some(());
            }
            FEWER_OBJECTS => changes[1] = self.index(objects)? as u8,
            MORE_OBJECTS if objects < MAX_PARAMETERS => changes[1] = self.within(objects + 1, MAX_PARAMETERS) as u8,
            OVER_6 => changes[1] = self.outside(0, MAX_PARAMETERS as u8),
            OBJECT => {
                let at = OBJECTS_AT + self.index(objects)?;
                let (object, any) = (changes[at], self.below(MAX_OBJECTS) as u8);
                let unknown = self.outside(0, task.object_count - 1);
                let another = changes[OBJECTS_AT + self.below(objects)];
                changes[at] = *self.pick(&[any, any % task.object_count, unknown, another])?;
                return (changes[at] != object).then_some(());
            }
            ANOTHER => {
                let press = self.press(task, facts);
                put_press(changes, &press);
            }
            _ => return None,
        }
        Some(())
    }

    /// Damages a list, which is its number of rows and then their places.
    fn damage_list(&mut self, task: &Task, list: &mut [u8], kind: &str) -> Option<()> {
        let rows = list[0] as usize;
        let any = self.fact(task);
        let place = |row: usize| 1 + row * FACT_LEN;
        match kind {
            FEWER_ROWS => list[0] = self.index(rows)? as u8,
            MORE_ROWS if rows < MAX_ATOMS => {
                list[0] = self.within(rows + 1, MAX_ATOMS) as u8;
                if self.once_in(2) {
                    list[place(rows)..place(rows + 1)].copy_from_slice(&any);
                }
            }
            OVER_8 => list[0] = self.outside(0, MAX_ATOMS as u8),
            ORDER if rows > 1 => {
                let at = place(self.below(rows - 1));
                let (one, next) = list[at..].split_at_mut(FACT_LEN);
                one.swap_with_slice(&mut next[..FACT_LEN]);
            }
            TWICE => {
                let from = self.index(rows)?;
                let to = if rows < MAX_ATOMS { rows } else { (from + 1) % rows };
                list.copy_within(place(from)..place(from + 1), place(to));
                list[0] = rows.max(to + 1) as u8;
            }
            ROW => {
                let at = place(self.index(rows)?);
                if self.once_in(2) {
                    let row = &mut list[at..at + FACT_LEN];
                    let same = row == any;
                    row.copy_from_slice(&any);
                    return (!same).then_some(());
                }
                list[at + self.below(FACT_LEN)] ^= self.within(1, 255) as u8;
            }
            FILLED => {
                let at = place(self.index(rows)?);
                let filler: Vec<usize> = (at..at + FACT_LEN).filter(|&byte| list[byte] == FILLER).collect();
                list[*self.pick(&filler)?] = self.outside(FILLER, FILLER);
            }
            _ => return None,
        }
        Some(())
    }

    fn fill_unused(&mut self, changes: &mut ChangesBytes) -> Option<()> {
        let rows_end = |list: usize| list + 1 + changes[list] as usize * FACT_LEN;
        let unused = [OBJECTS_AT + changes[1] as usize..GOING_AT, rows_end(GOING_AT)..COMING_AT, rows_end(COMING_AT)..CHANGES_LEN];
        let places: Vec<usize> = unused.into_iter().flatten().collect();
        for &place in &places {
            changes[place] = self.byte();
        }
        (!places.is_empty()).then_some(())
    }
}

/// Puts another press in the place of the one that is carried, as far as the bytes have room for it.
fn put_press(changes: &mut ChangesBytes, Press { schema, objects }: &Press) {
    changes[0] = (*schema).min(255) as u8;
    changes[1] = objects.len().min(255) as u8;
    let room = objects.len().min(MAX_PARAMETERS);
    changes[OBJECTS_AT..GOING_AT].fill(0);
    changes[OBJECTS_AT..][..room].copy_from_slice(&objects[..room]);
}
