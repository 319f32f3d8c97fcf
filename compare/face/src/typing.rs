//! What a call meets of document 02's E4, to count how often each comes.

use crate::call::{Answer, Call};
use crate::values::*;

/// What may change the misses of an open connection, or must leave them.
#[derive(Clone, Copy, Debug, PartialEq, Eq)]
pub enum Typing {
    /// While no hold stands, and while one does.
    Timeout,
    HeldTimeout,
    /// A tick before T, held or not.
    Tick,
    Hold,
    Resume,
    /// A refused hold or resume.
    Refused13,
    /// The frame expected, inside a window, at its end, and the last of all.
    Inside,
    WindowEnd,
    Delivered,
    /// The announcement before frame 1, answered once more.
    AnnouncedAgain,
    /// An information frame that draws nothing and is not stored: not the one expected, or while held.
    Ignored,
    HeldIgnored,
    /// The last frame, expected, with dirt behind the message.
    Refused14,
    /// Any other refusal.
    Refused,
    Short,
}

/// The five numbers, and one for all others.
pub const NUMBERS: usize = 6;
const OTHER: usize = 5;

impl Typing {
    pub const ALL: [Typing; 15] = [
        Typing::Timeout,
        Typing::HeldTimeout,
        Typing::Tick,
        Typing::Hold,
        Typing::Resume,
        Typing::Refused13,
        Typing::Inside,
        Typing::WindowEnd,
        Typing::Delivered,
        Typing::AnnouncedAgain,
        Typing::Ignored,
        Typing::HeldIgnored,
        Typing::Refused14,
        Typing::Refused,
        Typing::Short,
    ];

    /// The numbers with which it can be met, by a caller's state too. `crate::forged` leaves out the wait after a frame while
    /// frame 1 is expected.
    pub fn numbers(self) -> Vec<usize> {
        let left_out = usize::from(misses::NONE_AFTER_FRAME);
        (0..NUMBERS)
            .filter(|&number| self != Typing::AnnouncedAgain || number != left_out)
            .collect()
    }

    /// Whether calls lead to it with this number. A held connection waits after an LM_ACK, one that expects frame 1 has had no
    /// timeout after a frame, and that timeout asks for a window of two frames or more (with windows of one it cannot come).
    pub fn comes_about(self, number: usize) -> bool {
        let [after_frame, one_after_frame] =
            [misses::NONE_AFTER_FRAME, misses::ONE_AFTER_FRAME].map(usize::from);
        match self {
            _ if number == OTHER => false,
            Typing::HeldTimeout | Typing::Resume | Typing::HeldIgnored => number != after_frame,
            Typing::AnnouncedAgain => number != after_frame && number != one_after_frame,
            Typing::WindowEnd => number != one_after_frame,
            _ => true,
        }
    }

    /// By a call on an open connection and its right answer, with the place of its misses' number.
    pub fn by(call: &Call, answer: &Answer) -> Option<(Typing, usize)> {
        let Answer::Receiver(answer) = answer else {
            return None;
        };
        let (end, met) = match call {
            Call::ReceiverTick(end) => (end, Some(tick(end, answer))),
            Call::ReceiverHold(end) => (end, Some(unless_refused(answer, Typing::Hold))),
            Call::ReceiverResume(end) => (end, Some(unless_refused(answer, Typing::Resume))),
            Call::ReceiverHear(end, frame, _) => (end, hearing(end, frame, answer)),
            _ => return None,
        };
        let open = end.phase == OPEN;
        open.then_some((met?, usize::from(end.misses).min(OTHER)))
    }
}

/// The receiver's phase.
const OPEN: u8 = 2;

/// A tick that emits a frame is a timeout.
fn tick(end: &FlatReceiver, answer: &FlatReceiverAnswer) -> Typing {
    match (answer.emits, end.held) {
        (false, _) => Typing::Tick,
        (true, false) => Typing::Timeout,
        (true, true) => Typing::HeldTimeout,
    }
}

fn unless_refused(answer: &FlatReceiverAnswer, taken: Typing) -> Typing {
    match answer.refusal {
        0 => taken,
        _ => Typing::Refused13,
    }
}

/// A hearing that leaves the connection open, or delivers.
fn hearing(end: &FlatReceiver, frame: &FlatFrame, answer: &FlatReceiverAnswer) -> Option<Typing> {
    let accepted = answer.next.expected != end.expected;
    match (answer.refusal, answer.outcome, frame.kind) {
        (14, ..) => Some(Typing::Refused14),
        (1.., ..) => Some(Typing::Refused),
        (0, 2, _) => Some(Typing::Delivered),
        (0, 3, _) => None,
        (0, 4, _) => Some(Typing::Short),
        _ if accepted && answer.emits => Some(Typing::WindowEnd),
        _ if accepted => Some(Typing::Inside),
        _ if answer.emits => Some(Typing::AnnouncedAgain),
        _ if end.held => Some(Typing::HeldIgnored),
        _ => Some(Typing::Ignored),
    }
}
