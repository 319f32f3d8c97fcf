//! The reference: simple rather than fast.

pub mod clean;
pub mod frame;
pub mod groups;
pub mod identifier;
pub mod line;
pub mod player;
pub mod receiver;
pub mod sender;
pub mod summary;
pub mod summary_player;
pub mod version;

/// A refused call: its number is all that comes back.
#[derive(Clone, Copy, Debug, PartialEq, Eq)]
pub struct Refused(pub u8);

/// The numbers of the table "Refusals, by place", and those that document 02 adds.
pub mod refusal {
    use super::Refused;

    /// Making an end with a setting outside its limits; clean figures of a gap outside its own.
    pub const SETTING: Refused = Refused(1);
    /// Begin or post with no bytes, or with more than it takes: 1785, and 8 for post. Clean figures of
    /// a length that does not go long.
    pub const LENGTH: Refused = Refused(2);
    /// Begin while a transfer is under way.
    pub const NOT_IDLE: Refused = Refused(3);
    /// A sender's tick lent fewer or more bytes than the message has.
    pub const LENT_LENGTH: Refused = Refused(4);
    /// A receiver's hearing lent a buffer of another length; a call lent a summary of another length.
    pub const BUFFER: Refused = Refused(5);
    /// A frame of no known kind, or with something in place of filler.
    pub const FRAME: Refused = Refused(6);
    /// A frame that the far end should have heard.
    pub const OTHER_END: Refused = Refused(7);
    /// An identifier that is too large, has a part too large, or EDP or DP set.
    pub const IDENTIFIER: Refused = Refused(8);
    /// A group of no known code, in bytes that are not eight, or with something in place of filler.
    pub const GROUP: Refused = Refused(9);
    /// A group's field outside its range; a version message of another CAN type or result.
    pub const VALUE: Refused = Refused(10);
    /// A list of no versions, of more than eight, or with one that is not above the one before.
    pub const VERSIONS: Refused = Refused(11);
    /// A run pack that breaks a rule of its form.
    pub const PACK: Refused = Refused(12);
    /// Document 02, E2: a hold of nothing that can be held, or a resume of nothing that is.
    pub const HOLD: Refused = Refused(13);
    /// Document 02, E3: a last frame with something other than filler behind the message.
    pub const LAST_FILLER: Refused = Refused(14);
}
