//! The two claims of E5, judged by the two lists and by events alone.

use std::fmt;

use super::run::{Act, Event};
use super::talker::Report;
use super::{shared, Lists, Pair, SIDES};
use crate::reference::version::{Side, Version};

/// The 15 s limit in ticks.
const LIMIT: u32 = 15000;

/// What excuses a failure in claim 2. All three, but for looking what each is good for.
#[derive(Clone, Copy, Debug, PartialEq, Eq)]
pub struct Exceptions {
    pub limit: bool,
    pub stop: bool,
    pub greeting: bool,
}

impl Exceptions {
    pub const ALL: Exceptions = Exceptions {
        limit: true,
        stop: true,
        greeting: true,
    };
}

/// How a claim is broken.
#[derive(Clone, Copy, Debug, PartialEq, Eq)]
pub enum Broken {
    /// Claim 1: both report success with different versions.
    Differ { charger: Version, vehicle: Version },
    /// Claim 1: the version is not in the list of this side.
    Unlisted { side: Side, version: Version },
    /// Claim 1: both lists have a higher one.
    Higher { version: Version, higher: Version },
    /// Claim 2: this side failed, and both lists have this version.
    Failed { side: Side, both_have: Version },
}

impl Broken {
    /// The number of the claim.
    pub fn claim(self) -> u8 {
        match self {
            Broken::Failed { .. } => 2,
            _ => 1,
        }
    }
}

/// A broken claim, and the event that broke it; the first is 1.
#[derive(Clone, Copy, Debug, PartialEq, Eq)]
pub struct Violation {
    pub event: usize,
    pub broken: Broken,
}

impl fmt::Display for Violation {
    fn fmt(&self, f: &mut fmt::Formatter<'_>) -> fmt::Result {
        let claim = self.broken.claim();
        write!(
            f,
            "claim {claim} at event {}: {:?}",
            self.event, self.broken
        )
    }
}

/// What was seen of one side.
#[derive(Clone, Copy, Debug, Default)]
struct Seen {
    /// Its first message went out with the connection.
    connected: bool,
    /// Its ticks since then.
    ticks: u32,
    /// It settled, failed or stopped.
    ended: bool,
    settled: Option<Version>,
}

/// The claims along a run.
#[derive(Clone, Debug)]
pub struct Claims {
    lists: Lists,
    exceptions: Exceptions,
    sides: Pair<Seen>,
    /// An end met what excuses a failure.
    excused: bool,
    events: usize,
}

impl Claims {
    pub fn new(lists: &Lists) -> Claims {
        Claims::excepting(lists, Exceptions::ALL)
    }

    /// With these exceptions only.
    pub fn excepting(lists: &Lists, exceptions: Exceptions) -> Claims {
        Claims {
            lists: lists.clone(),
            exceptions,
            sides: Pair::default(),
            excused: false,
            events: 0,
        }
    }

    /// Takes the next event. An error if it breaks a claim.
    pub fn see(&mut self, event: &Event) -> Result<(), Violation> {
        self.events += 1;
        let seen = self.sides.of_mut(event.side);
        if event.act == Act::Tick && seen.connected && !matches!(event.report, Report::Refused(_)) {
            seen.ticks += 1;
        }
        let met = met(event, *seen, self.exceptions);
        self.excused = self.excused || met;
        if event.act == Act::Connect && event.emitted.is_some() {
            seen.connected = true;
        }
        let judged = match event.report {
            Report::Settled(version) => {
                seen.ended = true;
                seen.settled = Some(version);
                self.both_settled()
            }
            Report::Failed => {
                seen.ended = true;
                self.failed(event.side)
            }
            Report::Stopped => {
                seen.ended = true;
                Ok(())
            }
            Report::Nothing | Report::Refused(_) => Ok(()),
        };
        let event = self.events;
        judged.map_err(|broken| Violation { event, broken })
    }

    /// Claim 1, once both have reported success.
    fn both_settled(&self) -> Result<(), Broken> {
        let (Some(version), Some(vehicle)) =
            (self.sides.charger.settled, self.sides.vehicle.settled)
        else {
            return Ok(());
        };
        if version != vehicle {
            let charger = version;
            return Err(Broken::Differ { charger, vehicle });
        }
        if let Some(side) = SIDES
            .into_iter()
            .find(|&side| !self.lists.of(side).contains(&version))
        {
            return Err(Broken::Unlisted { side, version });
        }
        match shared(&self.lists).last() {
            Some(&higher) if higher > version => Err(Broken::Higher { version, higher }),
            _ => Ok(()),
        }
    }

    /// Claim 2, at a failure.
    fn failed(&self, side: Side) -> Result<(), Broken> {
        match shared(&self.lists).last() {
            Some(&both_have) if !self.excused => Err(Broken::Failed { side, both_have }),
            _ => Ok(()),
        }
    }
}

/// Whether an end meets with this event what excuses a failure. Only an end that has not ended can
/// meet anything: the limit and a stop once it talks, a greeting the vehicle alone, also before.
fn met(event: &Event, seen: Seen, exceptions: Exceptions) -> bool {
    if seen.ended {
        return false;
    }
    match event.act {
        Act::Tick => exceptions.limit && seen.ticks == LIMIT,
        Act::Stop => exceptions.stop && seen.connected,
        Act::Greeting => exceptions.greeting && event.side == Side::Vehicle,
        _ => false,
    }
}

/// The first violation in a whole list of events.
pub fn check(lists: &Lists, events: &[Event]) -> Result<(), Violation> {
    let mut claims = Claims::new(lists);
    events.iter().try_for_each(|event| claims.see(event))
}
