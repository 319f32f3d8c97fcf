//! Random run packs, to hold a player to the reference: made from a seed, played by both, and
//! shortened where the texts differ. Clean ones hold it to the clean figures, too.

pub mod case;
pub mod clean;
pub mod differences;
pub mod generate;
pub mod random;
pub mod shrink;
