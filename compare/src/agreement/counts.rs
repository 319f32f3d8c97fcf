//! What the runs of a check reached. A check that never reaches one of these would be empty there.

use std::fmt;

use super::run::{Act, Event};
use super::talker::Report;
use super::{shared, Lists, Pair};
use crate::reference::version::{Outcome, Side, Version};

/// Versions at an edge of something: of the three bytes, of S2 and S3, and of FF FF FF, which stands
/// in a failure too.
pub const EDGES: [Version; 7] = [
    [0, 0, 0],
    [0, 0, 1],
    [1, 255, 255],
    [2, 0, 0],
    [2, 0, 1],
    [255, 255, 254],
    [255, 255, 255],
];

/// The edges that both sides must have settled on in some run.
const DEMANDED: [(Version, Reached); 5] = [
    ([0, 0, 0], Reached::SettledOn0),
    ([1, 255, 255], Reached::SettledOn1_255_255),
    ([2, 0, 0], Reached::SettledOn2),
    ([255, 255, 254], Reached::SettledOn255_255_254),
    ([255, 255, 255], Reached::SettledOn255_255_255),
];

/// What must come about.
#[derive(Clone, Copy, Debug, PartialEq, Eq)]
pub enum Reached {
    // The lists of a run.
    SharingNone,
    SharingOne,
    SharingSeveral,
    // Both sides reported success.
    BothInS2,
    BothInS3,
    /// The version is the highest of neither list.
    HighestOfNeither,
    BothAfterLoss,
    BothAfterRepeat,
    BothAfterLossAndRepeat,
    SettledOn0,
    SettledOn1_255_255,
    SettledOn2,
    SettledOn255_255_254,
    SettledOn255_255_255,
    /// The vehicle in S3 hears the charger's functions.
    FunctionsInS3,
    // A side failed or stopped.
    /// A heard continue leaves no version.
    NoneLower,
    /// The far side's failure is heard.
    FailureHeard,
    AtLimit,
    AtLimitThoughShared,
    /// One side settled, the other failed.
    OneSettledOneFailed,
    Stopped,
    GreetingInS0,
    GreetingInS1,
    GreetingThoughShared,
}

impl Reached {
    pub const ALL: [Reached; 24] = [
        Reached::SharingNone,
        Reached::SharingOne,
        Reached::SharingSeveral,
        Reached::BothInS2,
        Reached::BothInS3,
        Reached::HighestOfNeither,
        Reached::BothAfterLoss,
        Reached::BothAfterRepeat,
        Reached::BothAfterLossAndRepeat,
        Reached::SettledOn0,
        Reached::SettledOn1_255_255,
        Reached::SettledOn2,
        Reached::SettledOn255_255_254,
        Reached::SettledOn255_255_255,
        Reached::FunctionsInS3,
        Reached::NoneLower,
        Reached::FailureHeard,
        Reached::AtLimit,
        Reached::AtLimitThoughShared,
        Reached::OneSettledOneFailed,
        Reached::Stopped,
        Reached::GreetingInS0,
        Reached::GreetingInS1,
        Reached::GreetingThoughShared,
    ];
}

/// How often each was reached, over all runs so far.
#[derive(Clone, Debug, Default, PartialEq, Eq)]
pub struct Counts {
    pub runs: u64,
    pub calls: u64,
    reached: [u64; Reached::ALL.len()],
}

impl Counts {
    pub fn of(&self, reached: Reached) -> u64 {
        self.reached[reached as usize]
    }

    /// What was not reached once.
    pub fn missing(&self) -> Vec<Reached> {
        let all = Reached::ALL.into_iter();
        all.filter(|&reached| self.of(reached) == 0).collect()
    }

    fn add(&mut self, reached: Reached, when: bool) {
        self.reached[reached as usize] += u64::from(when);
    }
}

impl fmt::Display for Counts {
    fn fmt(&self, f: &mut fmt::Formatter<'_>) -> fmt::Result {
        writeln!(f, "runs {}, calls {}", self.runs, self.calls)?;
        for reached in Reached::ALL {
            writeln!(f, "{reached:?} {}", self.of(reached))?;
        }
        Ok(())
    }
}

/// Counts along one run, from its lists and events alone.
pub struct Counter<'a> {
    counts: &'a mut Counts,
    lists: &'a Lists,
    shared: Vec<Version>,
    connected: Pair<bool>,
    settled: Pair<Option<Version>>,
    failed: Pair<bool>,
    lost: bool,
    repeated: bool,
}

impl<'a> Counter<'a> {
    pub fn new(counts: &'a mut Counts, lists: &'a Lists) -> Counter<'a> {
        let shared = shared(lists);
        counts.runs += 1;
        counts.add(Reached::SharingNone, shared.is_empty());
        counts.add(Reached::SharingOne, shared.len() == 1);
        counts.add(Reached::SharingSeveral, shared.len() > 1);
        Counter {
            counts,
            lists,
            shared,
            connected: Pair::default(),
            settled: Pair::default(),
            failed: Pair::default(),
            lost: false,
            repeated: false,
        }
    }

    pub fn see(&mut self, event: &Event) {
        self.counts.calls += 1;
        self.lost |= event.act == Act::Lose && event.found.is_some();
        self.repeated |= event.act == Act::Repeat && event.found.is_some();
        if event.act == Act::Connect {
            *self.connected.of_mut(event.side) = true;
        }
        if event.act == Act::Functions && event.side == Side::Vehicle {
            let in_s3 = self.settled.vehicle.is_some_and(|v| v >= [2, 0, 0]);
            self.counts.add(Reached::FunctionsInS3, in_s3);
        }
        match event.report {
            Report::Settled(version) => {
                *self.settled.of_mut(event.side) = Some(version);
                self.both_settled(version);
                self.one_each();
            }
            Report::Failed => {
                *self.failed.of_mut(event.side) = true;
                self.failed(event);
                self.one_each();
            }
            Report::Stopped => self.counts.add(Reached::Stopped, true),
            Report::Nothing | Report::Refused(_) => {}
        }
    }

    fn both_settled(&mut self, version: Version) {
        if self.settled.charger != self.settled.vehicle {
            return;
        }
        let highest = |list: &Vec<Version>| list.last() == Some(&version);
        let neither = !highest(&self.lists.charger) && !highest(&self.lists.vehicle);
        let (lost, repeated) = (self.lost, self.repeated);
        for (reached, when) in [
            (Reached::BothInS2, version < [2, 0, 0]),
            (Reached::BothInS3, version >= [2, 0, 0]),
            (Reached::HighestOfNeither, neither),
            (Reached::BothAfterLoss, lost),
            (Reached::BothAfterRepeat, repeated),
            (Reached::BothAfterLossAndRepeat, lost && repeated),
        ] {
            self.counts.add(reached, when);
        }
        for (edge, reached) in DEMANDED {
            self.counts.add(reached, edge == version);
        }
    }

    fn failed(&mut self, event: &Event) {
        let connected = *self.connected.of(event.side);
        let sharing = !self.shared.is_empty();
        let heard = event.found.map(|message| message[1]);
        let failure = heard == Some(Outcome::Failure.number());
        let greeting = event.act == Act::Greeting;
        let limit = event.act == Act::Tick;
        for (reached, when) in [
            (Reached::NoneLower, heard.is_some() && !failure),
            (Reached::FailureHeard, failure),
            (Reached::AtLimit, limit),
            (Reached::AtLimitThoughShared, limit && sharing),
            (Reached::GreetingInS0, greeting && !connected),
            (Reached::GreetingInS1, greeting && connected),
            (Reached::GreetingThoughShared, greeting && sharing),
        ] {
            self.counts.add(reached, when);
        }
    }

    fn one_each(&mut self) {
        let one = |a: Option<Version>, b: bool| a.is_some() && b;
        let apart = one(self.settled.charger, self.failed.vehicle)
            || one(self.settled.vehicle, self.failed.charger);
        self.counts.add(Reached::OneSettledOneFailed, apart);
    }
}
