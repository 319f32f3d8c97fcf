//! Every length: begun, in the clean figures, and announced. The number of frames shows where a message has 9 to 1785 bytes. The
//! other lengths have to be told from these: below 1800 with every number of frames, from there on with the low byte of their own.

use crate::call::{Call, Counts, Mismatch, Pair, Part};
use crate::interface::Face;
use crate::sessions::BUFFER;
use crate::values::*;

/// Lengths below this are begun, and announced with every number of frames: all of messages, and some more.
const BEGUN_BELOW: u16 = 1800;

fn idle_sender() -> FlatSender {
    FlatSender {
        gap: 1,
        timeout: 10,
        limit: 100,
        ..FlatSender::default()
    }
}

/// Hearing frame 0 with these N and L, in Idle and with the largest capacity.
fn announced(frames: u8, length: u16) -> Call {
    let receiver = FlatReceiver {
        timeout: 10,
        capacity: BUFFER as u16,
        window: 2,
        ..FlatReceiver::default()
    };
    let [low, high] = length.to_le_bytes();
    let frame = FlatFrame {
        kind: 1,
        bytes: [0, frames, low, high, 0xFF, 0xFF, 0xFF, 0xFF],
    };
    Call::ReceiverHear(receiver, frame, BUFFER)
}

/// The calls of one length. One that is not begun is announced with the low byte of its N alone.
fn calls_of(length: u16) -> Vec<Call> {
    let figures = Call::CleanFigures(length.into(), 10);
    if length >= BEGUN_BELOW {
        return vec![figures, announced(length.div_ceil(7) as u8, length)];
    }
    let message = Part {
        from: 0,
        length: length.into(),
    };
    let counts = Counts(vec![0; COUNTS]);
    let begun = [
        Call::SenderBegin(idle_sender(), message),
        Call::SummaryBegin(idle_sender(), message, counts),
        figures,
    ];
    let announced = (0..=u8::MAX).map(|frames| announced(frames, length));
    begun.into_iter().chain(announced).collect()
}

/// The first length at which two faces differ, of all that 16 bits hold, and the call; else how many calls were alike.
pub fn first_difference<L: Face, R: Face>(
    left: &L,
    right: &R,
) -> Result<u64, (u16, Box<Mismatch>)> {
    let mut pair = Pair::new(left, right);
    pair.fill_buffers();
    for length in 0..=u16::MAX {
        for call in calls_of(length) {
            pair.compare(call).map_err(|mismatch| (length, mismatch))?;
        }
    }
    Ok(pair.tally.total())
}
