//! The words that the comparing programs are given.

use crate::broken::{mistakes, Mistake};

pub struct Options {
    pub count: u64,
    pub seed: u64,
    pub mistake: Option<Mistake>,
}

impl Options {
    /// `--count N`, `--seed S` and `--mistake NAME` in any order; none where there is anything else. Without a count it is
    /// this one.
    pub fn read(mut words: impl Iterator<Item = String>, count: u64) -> Option<Options> {
        let mut options = Options {
            count,
            seed: 1,
            mistake: None,
        };
        while let Some(name) = words.next() {
            let value = words.next()?;
            match name.as_str() {
                "--count" => options.count = value.parse().ok()?,
                "--seed" => options.seed = value.parse().ok()?,
                "--mistake" => {
                    let named = mistakes().into_iter().find(|(name, _)| *name == value);
                    options.mistake = Some(named?.1);
                }
                _ => return None,
            }
        }
        Some(options)
    }
}
