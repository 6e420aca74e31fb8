//! Another implementation of document 01, written from its words and apart from the proved one.
//! It is what the proved library is compared with, and the speed that it is measured against.

pub mod card;
pub mod comparison;
pub mod crowded;
pub mod examples;
pub mod hard;
pub mod histories;
pub mod listing;
pub mod met;
pub mod open;
pub mod preview;
pub mod proved;
pub mod random;
pub mod reachable;
pub mod refusal;
pub mod rescue;
pub mod settings;
pub mod strips;
pub mod tim;
pub mod truth;
pub mod vectors;

pub use card::{decode, encode, Task};
pub use listing::{listing, section};
pub use open::next_open;
pub use preview::{commit, preview};
pub use strips::{initial, press};
