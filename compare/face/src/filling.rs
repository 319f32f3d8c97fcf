//! What a call meets of document 02's E3, to count how often each comes.

use std::ops::RangeInclusive;

use crate::call::{Answer, Call};
use crate::frames::behind;
use crate::values::*;

/// An information frame that a receiver hears: taken as the last one, refused 14, or dirty and not judged.
#[derive(Clone, Copy, Debug, PartialEq, Eq)]
pub enum Filling {
    /// The last frame, clean.
    Delivered,
    /// Refused 14, with dirt at the first place behind the message alone; at the last alone, where there are two or more;
    /// at one between them; at several.
    RefusedForFirst,
    RefusedForLast,
    RefusedForMiddle,
    RefusedForSeveral,
    /// Frame N while another is expected.
    DirtyTooSoon,
    /// Frame N where it is expected, but held.
    DirtyHeld,
    DirtyAfterDelivery,
    DirtyWithoutConnection,
    DirtyAboveN,
    /// Frame N where it is expected, with another buffer.
    DirtyInOtherBuffer,
    /// The frame expected, not the last, behind the end of the message: its N is not that of L, as only a caller makes it.
    DirtyBeforeLast,
}

/// So many places a frame has behind the message: 0 to 7.
pub const PLACES: usize = 8;

impl Filling {
    pub const ALL: [Filling; 12] = [
        Filling::Delivered,
        Filling::RefusedForFirst,
        Filling::RefusedForLast,
        Filling::RefusedForMiddle,
        Filling::RefusedForSeveral,
        Filling::DirtyTooSoon,
        Filling::DirtyHeld,
        Filling::DirtyAfterDelivery,
        Filling::DirtyWithoutConnection,
        Filling::DirtyAboveN,
        Filling::DirtyInOtherBuffer,
        Filling::DirtyBeforeLast,
    ];

    /// How many places there are behind the message where N is that of L, as after every opening: in a last frame one for
    /// each residue of seven. Without a connection there is no length, so all seven bytes count.
    pub fn places(self) -> RangeInclusive<usize> {
        match self {
            Filling::Delivered => 0..=6,
            Filling::RefusedForLast | Filling::RefusedForSeveral => 2..=6,
            Filling::RefusedForMiddle => 3..=6,
            Filling::DirtyWithoutConnection | Filling::DirtyAboveN => 7..=7,
            Filling::DirtyBeforeLast => 1..=7,
            _ => 1..=6,
        }
    }

    /// By a call and its right answer, with the number of places behind the message.
    pub fn by(call: &Call, answer: &Answer) -> Option<(Filling, usize)> {
        let (Call::ReceiverHear(end, frame, _), Answer::Receiver(answer)) = (call, answer) else {
            return None;
        };
        let length = match end.phase {
            DONE | OPEN => end.length,
            _ => 0,
        };
        let places = behind(frame, length);
        let dirty: Vec<usize> = places
            .clone()
            .filter(|&at| frame.bytes[at] != 0xFF)
            .collect();
        let met = match (answer.refusal, &dirty[..]) {
            (0, _) if answer.outcome == 2 => Filling::Delivered,
            (_, []) => return None,
            (14, [at]) if *at == places.start => Filling::RefusedForFirst,
            (14, [7]) => Filling::RefusedForLast,
            (14, [_]) => Filling::RefusedForMiddle,
            (14, _) => Filling::RefusedForSeveral,
            (5, _) if expects_last(end, frame) && !end.held => Filling::DirtyInOtherBuffer,
            (0, _) => unjudged(end, frame)?,
            _ => return None,
        };
        Some((met, places.len()))
    }
}

/// The receiver's phases.
const DONE: u8 = 1;
const OPEN: u8 = 2;

fn expects_last(end: &FlatReceiver, frame: &FlatFrame) -> bool {
    let number = frame.bytes[0];
    end.phase == OPEN && number == end.frames && number == end.expected
}

/// A dirty frame that was not refused.
fn unjudged(end: &FlatReceiver, frame: &FlatFrame) -> Option<Filling> {
    let number = frame.bytes[0];
    match (end.phase, end.held) {
        (OPEN, true) => expects_last(end, frame).then_some(Filling::DirtyHeld),
        (OPEN, false) if number > end.frames => Some(Filling::DirtyAboveN),
        (OPEN, false) if number == end.frames => Some(Filling::DirtyTooSoon),
        (OPEN, false) => (number == end.expected).then_some(Filling::DirtyBeforeLast),
        (DONE, _) => (number == end.frames).then_some(Filling::DirtyAfterDelivery),
        _ => Some(Filling::DirtyWithoutConnection),
    }
}
