//! Tests of the check of summaries (document 02, E6).

mod broken;
mod caught;
mod claims;
mod random;
