//! The proved code behind its C face, and what it is compared with: random calls on both, held to each other whole.

pub mod agreement;
pub mod around;
pub mod behind;
pub mod broken;
pub mod call;
pub mod counting;
pub mod differences;
pub mod ends;
pub mod filling;
pub mod forged;
pub mod frames;
mod groups;
pub mod holding;
pub mod interface;
pub mod lengths;
pub mod lists;
pub mod options;
pub mod session;
pub mod sessions;
pub mod shrink;
pub mod singles;
pub mod summary;
pub mod talk;
pub mod tally;
pub mod typing;
pub mod values;

#[cfg(feature = "proved")]
pub mod ffi;

/// The reference: `compare::reference` over plain values (`ends`, `summary` and `around` translate).
#[derive(Clone, Copy, Debug)]
pub struct Reference;
