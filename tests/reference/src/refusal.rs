//! The refusals by number: document 01's, and 23 of document 02, request 4.

pub const CARD_ENDS: u8 = 1;
pub const PREDICATES: u8 = 2;
pub const OBJECTS: u8 = 3;
pub const SCHEMAS: u8 = 4;
pub const PARAMETERS: u8 = 5;
pub const LIST: u8 = 6;
pub const ATOM: u8 = 7;
pub const ATOM_ORDER: u8 = 8;
pub const DELETE: u8 = 9;
pub const ADD: u8 = 10;
pub const FACTS: u8 = 11;
pub const FACT: u8 = 12;
pub const FACT_ORDER: u8 = 13;
pub const TRAILING: u8 = 14;
pub const STATE: u8 = 15;
pub const UNKNOWN_SCHEMA: u8 = 16;
pub const BINDING: u8 = 17;
pub const SAME_OBJECT: u8 = 18;
pub const PRECONDITION: u8 = 19;
pub const FULL: u8 = 20;
pub const OUTPUT: u8 = 21;
pub const SECTION: u8 = 22;
pub const CHANGES_DIFFER: u8 = 23;
