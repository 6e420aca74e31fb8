//! The proved library, crates/capi/out/libcapi.a, by its C interface (include/stakestalk.h).

use crate::card::MAX_PARAMETERS;
use crate::open::Given;
use crate::preview::{Changes, ChangesBytes};
use crate::strips::Press;

/// Where a press that is found is written: its schema, its objects, and then 0.
pub type Found = [u8; 1 + MAX_PARAMETERS];

/// The press that was found, by the number of its objects; none if there are none.
pub fn found_press(found: &Found, objects: usize) -> Option<Press> {
    let objects = found[1..].get(..objects).filter(|objects| !objects.is_empty())?;
    Some(Press { schema: found[0].into(), objects: objects.to_vec() })
}

/// The calls that both implementations have.
pub trait Calls {
    /// Whether the card is accepted.
    fn check(&self, card: &[u8]) -> Result<(), u8>;
    /// The opening call: the count.
    fn initial(&self, card: &[u8], state: &mut [u8]) -> Result<usize, u8>;
    /// A press: the new count.
    fn press(&self, card: &[u8], state: &mut [u8], count: usize, schema: usize, objects: &[u8]) -> Result<usize, u8>;
    /// The next open press after the given one, or the first if none is given: the number of its objects, or 0 at the end.
    /// `found` is written only where a press is found.
    fn next_open(&self, card: &[u8], state: &[u8], count: usize, given: Given, found: &mut Found) -> Result<usize, u8>;
    /// What a press would do: the count that it would answer. `changes` is written only where it would be accepted.
    fn preview(
        &self,
        card: &[u8],
        state: &[u8],
        count: usize,
        schema: usize,
        objects: &[u8],
        changes: &mut ChangesBytes,
    ) -> Result<usize, u8>;
    /// The press that was asked about, if it would still change the same: the new count.
    fn commit(&self, card: &[u8], state: &mut [u8], count: usize, changes: &ChangesBytes) -> Result<usize, u8>;
    /// One section of the listing: its length.
    fn section(&self, card: &[u8], number: usize, out: &mut [u8]) -> Result<usize, u8>;
    /// The card read and written again: its length.
    fn rewrite(&self, card: &[u8], out: &mut [u8]) -> Result<usize, u8>;

    /// What the program prints, from the section calls.
    fn listing(&self, card: &[u8]) -> Vec<u8> {
        let mut text = Vec::new();
        let mut out = vec![0; crate::card::OUTPUT_LEN];
        for number in 0.. {
            match self.section(card, number, &mut out) {
                Ok(length) => text.extend_from_slice(&out[..length]),
                Err(crate::refusal::SECTION) => break,
                Err(refusal) => return format!("refused {refusal}\n").into_bytes(),
            }
        }
        text
    }
}

/// The implementation in this package.
pub struct Reference;

impl Calls for Reference {
    fn check(&self, card: &[u8]) -> Result<(), u8> {
        crate::decode(card).map(|_| ())
    }

    fn initial(&self, card: &[u8], state: &mut [u8]) -> Result<usize, u8> {
        crate::initial(card, state)
    }

    fn press(&self, card: &[u8], state: &mut [u8], count: usize, schema: usize, objects: &[u8]) -> Result<usize, u8> {
        crate::press(card, state, count, schema, objects)
    }

    fn next_open(&self, card: &[u8], state: &[u8], count: usize, given: Given, found: &mut Found) -> Result<usize, u8> {
        let Some(Press { schema, objects }) = crate::next_open(card, state, count, given)? else {
            return Ok(0);
        };
        *found = Found::default();
        found[0] = schema as u8;
        found[1..=objects.len()].copy_from_slice(&objects);
        Ok(objects.len())
    }

    fn preview(
        &self,
        card: &[u8],
        state: &[u8],
        count: usize,
        schema: usize,
        objects: &[u8],
        changes: &mut ChangesBytes,
    ) -> Result<usize, u8> {
        let (count, asked) = crate::preview(card, state, count, schema, objects)?;
        *changes = asked.to_bytes();
        Ok(count)
    }

    fn commit(&self, card: &[u8], state: &mut [u8], count: usize, changes: &ChangesBytes) -> Result<usize, u8> {
        crate::commit(card, state, count, &Changes::from_bytes(changes))
    }

    fn section(&self, card: &[u8], number: usize, out: &mut [u8]) -> Result<usize, u8> {
        crate::section(card, number, out)
    }

    fn rewrite(&self, card: &[u8], out: &mut [u8]) -> Result<usize, u8> {
        crate::encode(&crate::decode(card)?, out)
    }
}

/// The proved implementation.
#[cfg(feature = "proved")]
pub struct Proved;

#[cfg(feature = "proved")]
mod foreign {
    extern "C" {
        pub fn stakestalk_check(card: *const u8, card_len: usize) -> i32;
        pub fn stakestalk_initial(card: *const u8, card_len: usize, state: *mut u8, state_len: usize) -> i32;
        pub fn stakestalk_press(
            card: *const u8,
            card_len: usize,
            state: *mut u8,
            state_len: usize,
            count: usize,
            schema: usize,
            objects: *const u8,
            objects_len: usize,
        ) -> i32;
        pub fn stakestalk_next_open(
            card: *const u8,
            card_len: usize,
            state: *const u8,
            state_len: usize,
            count: usize,
            given: i32,
            schema: usize,
            objects: *const u8,
            objects_len: usize,
            found: *mut u8,
        ) -> i32;
        pub fn stakestalk_preview(
            card: *const u8,
            card_len: usize,
            state: *const u8,
            state_len: usize,
            count: usize,
            schema: usize,
            objects: *const u8,
            objects_len: usize,
            changes: *mut u8,
        ) -> i32;
        pub fn stakestalk_commit(
            card: *const u8,
            card_len: usize,
            state: *mut u8,
            state_len: usize,
            count: usize,
            changes: *const u8,
        ) -> i32;
        pub fn stakestalk_section(card: *const u8, card_len: usize, number: usize, out: *mut u8, out_len: usize) -> i32;
        pub fn stakestalk_rewrite(card: *const u8, card_len: usize, out: *mut u8, out_len: usize) -> i32;
    }
}

/// A refusal comes as minus its number. No refusal is above 23, so anything else below 0 is kept apart as 255.
#[cfg(feature = "proved")]
fn answer(number: i32) -> Result<usize, u8> {
    match usize::try_from(number) {
        Ok(value) => Ok(value),
        Err(_) => Err(u8::try_from(-i64::from(number)).unwrap_or(255)),
    }
}

// Each call passes slices that live until it returns, the changed one borrowed for it alone.
#[cfg(feature = "proved")]
impl Calls for Proved {
    fn check(&self, card: &[u8]) -> Result<(), u8> {
        match answer(unsafe { foreign::stakestalk_check(card.as_ptr(), card.len()) })? {
            0 => Ok(()),
            _ => Err(255),
        }
    }

    fn initial(&self, card: &[u8], state: &mut [u8]) -> Result<usize, u8> {
        answer(unsafe { foreign::stakestalk_initial(card.as_ptr(), card.len(), state.as_mut_ptr(), state.len()) })
    }

    fn press(&self, card: &[u8], state: &mut [u8], count: usize, schema: usize, objects: &[u8]) -> Result<usize, u8> {
        let (state, state_len) = (state.as_mut_ptr(), state.len());
        answer(unsafe {
            foreign::stakestalk_press(card.as_ptr(), card.len(), state, state_len, count, schema, objects.as_ptr(), objects.len())
        })
    }

    fn next_open(&self, card: &[u8], state: &[u8], count: usize, given: Given, found: &mut Found) -> Result<usize, u8> {
        // Any number but 0 says that a press is given. Beside 0 stands what would be refused if it were looked at.
        let (says, schema, objects) = match given {
            None => (0, usize::MAX, [0xFF].as_slice()),
            Some((schema, objects)) => (if objects.len() % 2 == 0 { 1 } else { i32::MIN }, schema, objects),
        };
        let (card, card_len, state, state_len) = (card.as_ptr(), card.len(), state.as_ptr(), state.len());
        let (objects, objects_len) = (objects.as_ptr(), objects.len());
        answer(unsafe {
            foreign::stakestalk_next_open(card, card_len, state, state_len, count, says, schema, objects, objects_len, found.as_mut_ptr())
        })
    }

    fn preview(
        &self,
        card: &[u8],
        state: &[u8],
        count: usize,
        schema: usize,
        objects: &[u8],
        changes: &mut ChangesBytes,
    ) -> Result<usize, u8> {
        let (card, card_len, state, state_len) = (card.as_ptr(), card.len(), state.as_ptr(), state.len());
        let (objects, objects_len) = (objects.as_ptr(), objects.len());
        answer(unsafe {
            foreign::stakestalk_preview(card, card_len, state, state_len, count, schema, objects, objects_len, changes.as_mut_ptr())
        })
    }

    fn commit(&self, card: &[u8], state: &mut [u8], count: usize, changes: &ChangesBytes) -> Result<usize, u8> {
        let (state, state_len) = (state.as_mut_ptr(), state.len());
        answer(unsafe { foreign::stakestalk_commit(card.as_ptr(), card.len(), state, state_len, count, changes.as_ptr()) })
    }

    fn section(&self, card: &[u8], number: usize, out: &mut [u8]) -> Result<usize, u8> {
        answer(unsafe { foreign::stakestalk_section(card.as_ptr(), card.len(), number, out.as_mut_ptr(), out.len()) })
    }

    fn rewrite(&self, card: &[u8], out: &mut [u8]) -> Result<usize, u8> {
        answer(unsafe { foreign::stakestalk_rewrite(card.as_ptr(), card.len(), out.as_mut_ptr(), out.len()) })
    }
}
