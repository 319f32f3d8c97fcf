//! Tests of two version talkers over a line (document 02, E5).

mod broken;
mod by_hand;
mod caught;
mod claims;
mod conditions;
mod random;

pub mod help {
    use compare::agreement::talker::Message;
    use compare::agreement::{Lists, Pair};
    use compare::reference::version::{build, Message as Fields, Outcome, Side, Version};

    pub const C: Side = Side::Charger;
    pub const V: Side = Side::Vehicle;

    /// The control-pilot bytes, different ones to see whose message it is.
    pub const PILOTS: Pair<u8> = Pair {
        charger: 1,
        vehicle: 2,
    };

    pub fn lists(charger: &[Version], vehicle: &[Version]) -> Lists {
        Pair {
            charger: charger.to_vec(),
            vehicle: vehicle.to_vec(),
        }
    }

    fn said(side: Side, outcome: Outcome, version: Version) -> Message {
        build(Fields { outcome, version }, *PILOTS.of(side))
    }

    pub fn go_on(side: Side, version: Version) -> Message {
        said(side, Outcome::Continue, version)
    }

    pub fn success(side: Side, version: Version) -> Message {
        said(side, Outcome::Success, version)
    }

    pub fn failure(side: Side) -> Message {
        said(side, Outcome::Failure, [0xFF; 3])
    }
}
