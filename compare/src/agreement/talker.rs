//! What a run asks of a version talker, and the reference as one.

use crate::reference::refusal;
use crate::reference::version::{Side, State, Talker, Version};

/// The data of a message of table 6 or 7.
pub type Message = [u8; 8];

/// A call of one talker.
#[derive(Clone, Copy, Debug, PartialEq, Eq)]
pub enum Call {
    /// The connection is there.
    Connect,
    /// 1 ms is over.
    Tick,
    /// A message of the far side is heard.
    Hear(Message),
    /// A fault, or the far side's switch opened.
    Stop,
    /// CHM, the greeting of the old protocol.
    Greeting,
    /// The charger's functions are heard.
    Functions,
}

/// What a call reports.
#[derive(Clone, Copy, Debug, Default, PartialEq, Eq)]
pub enum Report {
    #[default]
    Nothing,
    /// S2 or S3 is entered, with this version.
    Settled(Version),
    /// S4 is entered.
    Failed,
    /// S5 is entered.
    Stopped,
    /// The call is refused with this number.
    Refused(u8),
}

/// All that a call answers.
#[derive(Clone, Copy, Debug, Default, PartialEq, Eq)]
pub struct Answer {
    pub emitted: Option<Message>,
    pub report: Report,
}

/// A talker that can be played.
pub trait VersionTalker: Sized {
    /// A fresh talker of this side. The list is three bytes for each version (main, minor,
    /// temporary), the lowest version first; `pilot` is the control-pilot byte of its messages. An
    /// error is the refusal's number.
    fn make(side: Side, list: &[u8], pilot: u8) -> Result<Self, u8>;

    /// One call of it.
    fn call(&mut self, call: Call) -> Answer;
}

/// The versions of a list lent as bytes; none where they are no whole number of versions.
pub fn versions(list: &[u8]) -> Option<Vec<Version>> {
    let whole = list.chunks_exact(3).remainder().is_empty();
    whole.then(|| list.chunks(3).map(|v| [v[0], v[1], v[2]]).collect())
}

impl VersionTalker for Talker {
    fn make(side: Side, list: &[u8], pilot: u8) -> Result<Talker, u8> {
        let versions = versions(list).ok_or(refusal::VERSIONS.0)?;
        Talker::make(side, &versions, pilot).map_err(|refused| refused.0)
    }

    fn call(&mut self, call: Call) -> Answer {
        let before = self.state;
        let answered = match call {
            Call::Connect => Ok(self.connect()),
            Call::Tick => Ok(self.tick()),
            Call::Hear(message) => self.hear(message),
            Call::Greeting => Ok(self.chm()),
            Call::Stop => {
                self.fault();
                Ok(None)
            }
            Call::Functions => {
                self.functions();
                Ok(None)
            }
        };
        match answered {
            Ok(emitted) => Answer {
                emitted,
                report: entered(before, self),
            },
            Err(refused) => Answer {
                emitted: None,
                report: Report::Refused(refused.0),
            },
        }
    }
}

/// A report is the end state that the call entered.
fn entered(before: State, talker: &Talker) -> Report {
    match talker.state {
        state if state == before => Report::Nothing,
        State::S0 | State::S1 => Report::Nothing,
        State::S2 | State::S3 => Report::Settled(talker.at_ns()),
        State::S4 => Report::Failed,
        State::S5 => Report::Stopped,
    }
}
