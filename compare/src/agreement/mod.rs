//! Document 02, E5: two version talkers over a line, what is seen of them, and the two claims about
//! the version that both settle on. Any talkers can be played that are a `VersionTalker`, alone or
//! beside others. The readings are in NOTES.md.

pub mod claims;
pub mod counts;
pub mod generate;
pub mod line;
pub mod play;
pub mod run;
pub mod shorten;
pub mod talker;

use crate::reference::version::{Side, Version};

/// One thing for each side.
#[derive(Clone, Copy, Debug, Default, PartialEq, Eq)]
pub struct Pair<T> {
    pub charger: T,
    pub vehicle: T,
}

impl<T> Pair<T> {
    pub fn of(&self, side: Side) -> &T {
        match side {
            Side::Charger => &self.charger,
            Side::Vehicle => &self.vehicle,
        }
    }

    pub fn of_mut(&mut self, side: Side) -> &mut T {
        match side {
            Side::Charger => &mut self.charger,
            Side::Vehicle => &mut self.vehicle,
        }
    }
}

pub const SIDES: [Side; 2] = [Side::Charger, Side::Vehicle];

pub fn far(side: Side) -> Side {
    match side {
        Side::Charger => Side::Vehicle,
        Side::Vehicle => Side::Charger,
    }
}

/// The two lists of versions, CvList and EvList, each rising.
pub type Lists = Pair<Vec<Version>>;

/// The versions in both lists, rising.
pub fn shared(lists: &Lists) -> Vec<Version> {
    let both = lists.charger.iter().copied();
    both.filter(|version| lists.vehicle.contains(version))
        .collect()
}
