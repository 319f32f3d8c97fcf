//! A run: two fresh talkers, an empty line, and a list of calls; an event for each call.

use std::fmt;

use super::line::Line;
use super::talker::{Call, Message, Report, VersionTalker};
use super::{far, Lists, Pair};
use crate::reference::version::{Side, Version};

/// A call of a run. Hear, lose and repeat are done to the first message on its way to the side that
/// the call names; without one they do nothing.
#[derive(Clone, Copy, Debug, PartialEq, Eq)]
pub enum Act {
    Connect,
    Tick,
    /// Takes the message away and gives it.
    Hear,
    /// Drops it.
    Lose,
    /// Gives it and keeps it.
    Repeat,
    Stop,
    Greeting,
    Functions,
}

/// The same call so many times.
#[derive(Clone, Copy, Debug, PartialEq, Eq)]
pub struct Turn {
    pub side: Side,
    pub act: Act,
    pub times: u16,
}

/// All that makes a run.
#[derive(Clone, Debug, PartialEq, Eq)]
pub struct Run {
    pub lists: Lists,
    /// The control-pilot bytes.
    pub pilots: Pair<u8>,
    pub turns: Vec<Turn>,
}

impl Run {
    /// Each call in order.
    pub fn calls(&self) -> impl Iterator<Item = (Side, Act)> + '_ {
        self.turns
            .iter()
            .flat_map(|turn| std::iter::repeat_n((turn.side, turn.act), usize::from(turn.times)))
    }
}

/// What was seen of one call.
#[derive(Clone, Copy, Debug, PartialEq, Eq)]
pub struct Event {
    pub side: Side,
    pub act: Act,
    /// What hear, lose or repeat found on the line.
    pub found: Option<Message>,
    pub emitted: Option<Message>,
    pub report: Report,
}

/// A talker that could not be made, and the number.
#[derive(Clone, Copy, Debug, PartialEq, Eq)]
pub struct Unmade {
    pub side: Side,
    pub number: u8,
}

/// Two talkers and their line.
#[derive(Clone, Debug)]
pub struct Bench<T> {
    pub talkers: Pair<T>,
    pub line: Line,
}

impl<T: VersionTalker> Bench<T> {
    /// Fresh talkers and an empty line.
    pub fn make(lists: &Lists, pilots: Pair<u8>) -> Result<Bench<T>, Unmade> {
        let made = |side| {
            let list = lists.of(side).concat();
            T::make(side, &list, *pilots.of(side)).map_err(|number| Unmade { side, number })
        };
        Ok(Bench {
            talkers: Pair {
                charger: made(Side::Charger)?,
                vehicle: made(Side::Vehicle)?,
            },
            line: Line::default(),
        })
    }

    pub fn call(&mut self, side: Side, act: Act) -> Event {
        let found = match act {
            Act::Hear | Act::Lose => self.line.take(side),
            Act::Repeat => self.line.first(side),
            _ => None,
        };
        let call = match act {
            Act::Connect => Some(Call::Connect),
            Act::Tick => Some(Call::Tick),
            Act::Hear | Act::Repeat => found.map(Call::Hear),
            Act::Lose => None,
            Act::Stop => Some(Call::Stop),
            Act::Greeting => Some(Call::Greeting),
            Act::Functions => Some(Call::Functions),
        };
        let talker = self.talkers.of_mut(side);
        let answer = call.map(|call| talker.call(call)).unwrap_or_default();
        if let Some(message) = answer.emitted {
            self.line.join(far(side), message);
        }
        Event {
            side,
            act,
            found,
            emitted: answer.emitted,
            report: answer.report,
        }
    }
}

impl fmt::Display for Run {
    fn fmt(&self, f: &mut fmt::Formatter<'_>) -> fmt::Result {
        writeln!(f, "charger {}", dotted(&self.lists.charger))?;
        writeln!(f, "vehicle {}", dotted(&self.lists.vehicle))?;
        for turn in &self.turns {
            writeln!(f, "{:?} {:?} x {}", turn.side, turn.act, turn.times)?;
        }
        Ok(())
    }
}

/// Versions as they are written.
fn dotted(list: &[Version]) -> String {
    let each = list.iter().map(|[a, b, c]| format!("{a}.{b}.{c}"));
    each.collect::<Vec<String>>().join(", ")
}
