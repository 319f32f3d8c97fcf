//! A run: a fresh sender, a summary of zeros, and a list of calls; an event for each call.

use std::fmt;

use super::{plain_call, Given, SummarySender};
use crate::reference::frame::Frame;
use crate::reference::sender::{Answer, Sender};
use crate::reference::summary::{Most, SUMMARY_LENGTH};
use crate::reference::Refused;

/// As many bytes a run has for its messages: more than any call takes.
pub const BYTES: usize = 1800;

/// What stands in bytes that are lent in place of the summary.
const OTHER: u8 = 0xA5;

#[derive(Clone, Copy, Debug, PartialEq, Eq)]
pub struct Settings {
    pub gap: u8,
    pub timeout: u16,
    pub sending_time: u16,
}

impl Settings {
    /// A fresh sender. The settings must be within their limits.
    pub fn sender(self) -> Sender {
        Sender::make(self.gap, self.timeout, self.sending_time).expect("settings of a run are good")
    }
}

/// A call; a length stands for so many of the run's bytes, from the first.
#[derive(Clone, Copy, Debug, PartialEq, Eq)]
pub enum Call {
    Begin(usize),
    Tick(usize),
    Hear(Frame),
    Post(usize),
}

impl Call {
    pub fn given(self, bytes: &[u8]) -> Given<'_> {
        match self {
            Call::Begin(length) => Given::Begin(&bytes[..length]),
            Call::Tick(length) => Given::Tick(&bytes[..length]),
            Call::Hear(heard) => Given::Hear(heard),
            Call::Post(length) => Given::Post(&bytes[..length]),
        }
    }
}

/// The same call so many times.
#[derive(Clone, Copy, Debug, PartialEq, Eq)]
pub struct Turn {
    pub call: Call,
    /// The summary is lent, or so many other bytes.
    pub lent: Option<usize>,
    pub times: u16,
}

/// All that makes a run.
#[derive(Clone, Debug, PartialEq, Eq)]
pub struct Run {
    pub settings: Settings,
    pub bytes: Vec<u8>,
    pub turns: Vec<Turn>,
}

impl Run {
    /// Each call in order, with what it is lent.
    pub fn calls(&self) -> impl Iterator<Item = (Call, Option<usize>)> + '_ {
        self.turns
            .iter()
            .flat_map(|turn| std::iter::repeat_n((turn.call, turn.lent), usize::from(turn.times)))
    }
}

impl fmt::Display for Run {
    fn fmt(&self, f: &mut fmt::Formatter<'_>) -> fmt::Result {
        writeln!(f, "{:?}", self.settings)?;
        for Turn { call, lent, times } in &self.turns {
            let lent = lent.map_or(String::new(), |length| format!(", lent {length}"));
            writeln!(f, "{call:?}{lent} x {times}")?;
        }
        Ok(())
    }
}

/// What was seen of one call, and of the summary after it.
#[derive(Clone, Debug, PartialEq, Eq)]
pub struct Event {
    pub call: Call,
    pub answer: Result<Answer, Refused>,
    /// What a sender without a summary answers; it is not called where other bytes are lent.
    pub plain: Result<Answer, Refused>,
    /// The lent bytes.
    pub before: Vec<u8>,
    pub after: Vec<u8>,
    /// What is named and read of the lent bytes after the call.
    pub most: Result<Most, Refused>,
    pub counts: Vec<Result<u16, Refused>>,
}

/// A sender under check, its summary, and a sender without one beside it.
pub struct Bench {
    checked: Box<dyn SummarySender>,
    plain: Sender,
    summary: Vec<u8>,
}

impl Bench {
    pub fn new(checked: Box<dyn SummarySender>, settings: Settings) -> Bench {
        Bench {
            checked,
            plain: settings.sender(),
            summary: vec![0; SUMMARY_LENGTH],
        }
    }

    pub fn call(&mut self, call: Call, bytes: &[u8], lent: Option<usize>) -> Event {
        let given = call.given(bytes);
        let mut after = match lent {
            None => self.summary.clone(),
            Some(length) => vec![OTHER; length],
        };
        let before = after.clone();
        let answer = self.checked.call(given, &mut after);
        let plain = match lent {
            None => plain_call(&mut self.plain, given),
            Some(_) => Err(Refused(5)),
        };
        if lent.is_none() {
            self.summary.clone_from(&after);
        }
        let most = self.checked.most(&after);
        let numbers = 0..=255;
        let counts = numbers
            .map(|number| self.checked.count(&after, number))
            .collect();
        Event {
            call,
            answer,
            plain,
            before,
            after,
            most,
            counts,
        }
    }
}
