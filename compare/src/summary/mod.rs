//! Document 02, E6: random lists of calls at a sender with its summary, and what holds of the summary
//! after each call, judged by a history that the check keeps by itself. Any sender can be played that is
//! a `SummarySender`. The readings are in NOTES.md.

pub mod claims;
pub mod counts;
pub mod generate;
pub mod play;
pub mod run;

use crate::reference::frame::Frame;
use crate::reference::sender::{Answer, Sender};
use crate::reference::summary::{self, Most};
use crate::reference::Refused;

/// A sender's call with what it is given.
#[derive(Clone, Copy, Debug, PartialEq, Eq)]
pub enum Given<'a> {
    Begin(&'a [u8]),
    Tick(&'a [u8]),
    Hear(Frame),
    Post(&'a [u8]),
}

/// A sender whose calls are lent a summary.
pub trait SummarySender {
    fn call(&mut self, given: Given<'_>, summary: &mut [u8]) -> Result<Answer, Refused>;

    /// The number sent most often.
    fn most(&self, summary: &[u8]) -> Result<Most, Refused>;

    /// How often this number was sent.
    fn count(&self, summary: &[u8], number: u8) -> Result<u16, Refused>;
}

/// The reference.
impl SummarySender for Sender {
    fn call(&mut self, given: Given<'_>, lent: &mut [u8]) -> Result<Answer, Refused> {
        match given {
            Given::Begin(message) => summary::begin(self, message, lent),
            Given::Tick(message) => summary::tick(self, message, lent),
            Given::Hear(heard) => summary::hear(self, heard, lent),
            Given::Post(message) => summary::post(self, message, lent),
        }
    }

    fn most(&self, lent: &[u8]) -> Result<Most, Refused> {
        summary::most(lent)
    }

    fn count(&self, lent: &[u8], number: u8) -> Result<u16, Refused> {
        summary::count(lent, number)
    }
}

/// The same call without a summary.
pub fn plain_call(sender: &mut Sender, given: Given<'_>) -> Result<Answer, Refused> {
    match given {
        Given::Begin(message) => sender.begin(message),
        Given::Tick(message) => sender.tick(message),
        Given::Hear(heard) => sender.hear(heard),
        Given::Post(message) => sender.post(message),
    }
}
