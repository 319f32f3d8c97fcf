//! What a call meets of document 02's E2, to count how often each comes.

use crate::call::{Answer, Call};
use crate::values::*;

/// A hold or resume, a tick or a frame while held, or an LM_ACK below the sender's last start.
#[derive(Clone, Copy, Debug, PartialEq, Eq)]
pub enum Met {
    Hold,
    HoldWithoutConnection,
    HoldAtFrame1,
    HoldTwice,
    ResumeSameWindow,
    ResumeOtherWindow,
    ResumeWithoutConnection,
    ResumeUnheld,
    /// A tick before T.
    HeldTick,
    HeldTimeout,
    /// The 20th.
    LastHeldTimeout,
    /// The one after it.
    HeldFailure,
    HeldAnnouncement,
    /// A frame that the receiver has.
    HeldOld,
    HeldExpected,
    /// A later frame of the message.
    HeldLater,
    HeldAboveN,
    HeldNack,
    HeldSmRm,
    HeldSmUrm,
    HeldRefused,
    /// One below the last start, with count 1: in Sending, where a frame is on its way, and in Waiting.
    BeforeInSending,
    BeforeInWaiting,
    /// One below, with another count.
    BeforeOtherCount,
    /// Further below, with count 1.
    FurtherBelow,
}

impl Met {
    pub const ALL: [Met; 25] = [
        Met::Hold,
        Met::HoldWithoutConnection,
        Met::HoldAtFrame1,
        Met::HoldTwice,
        Met::ResumeSameWindow,
        Met::ResumeOtherWindow,
        Met::ResumeWithoutConnection,
        Met::ResumeUnheld,
        Met::HeldTick,
        Met::HeldTimeout,
        Met::LastHeldTimeout,
        Met::HeldFailure,
        Met::HeldAnnouncement,
        Met::HeldOld,
        Met::HeldExpected,
        Met::HeldLater,
        Met::HeldAboveN,
        Met::HeldNack,
        Met::HeldSmRm,
        Met::HeldSmUrm,
        Met::HeldRefused,
        Met::BeforeInSending,
        Met::BeforeInWaiting,
        Met::BeforeOtherCount,
        Met::FurtherBelow,
    ];

    /// By a call and its right answer.
    pub fn by(call: &Call, answer: &Answer) -> Option<Met> {
        match (call, answer) {
            (Call::ReceiverHold(end), _) => Some(hold(end)),
            (Call::ReceiverResume(end), Answer::Receiver(answer)) => Some(resume(end, answer)),
            (Call::ReceiverTick(end), Answer::Receiver(answer)) if held(end) => {
                Some(held_tick(end, answer))
            }
            (Call::ReceiverHear(end, frame, _), Answer::Receiver(answer)) if held(end) => {
                Some(held_hearing(end, frame, answer))
            }
            (Call::SenderHear(end, frame), Answer::Sender(answer)) => below(end, frame, answer),
            _ => None,
        }
    }
}

/// The receiver's phase.
const OPEN: u8 = 2;

fn held(end: &FlatReceiver) -> bool {
    end.phase == OPEN && end.held
}

fn hold(end: &FlatReceiver) -> Met {
    match (end.phase, end.held) {
        (OPEN, true) => Met::HoldTwice,
        (OPEN, false) if end.expected < 2 => Met::HoldAtFrame1,
        (OPEN, false) => Met::Hold,
        _ => Met::HoldWithoutConnection,
    }
}

fn resume(end: &FlatReceiver, answer: &FlatReceiverAnswer) -> Met {
    match (end.phase, end.held) {
        (OPEN, true) if answer.next.last == end.last => Met::ResumeSameWindow,
        (OPEN, true) => Met::ResumeOtherWindow,
        (OPEN, false) => Met::ResumeUnheld,
        _ => Met::ResumeWithoutConnection,
    }
}

fn held_tick(end: &FlatReceiver, answer: &FlatReceiverAnswer) -> Met {
    match (answer.emits, end.holds) {
        (false, _) => Met::HeldTick,
        (true, 0..=18) => Met::HeldTimeout,
        (true, 19) => Met::LastHeldTimeout,
        (true, _) => Met::HeldFailure,
    }
}

fn held_hearing(end: &FlatReceiver, frame: &FlatFrame, answer: &FlatReceiverAnswer) -> Met {
    let number = frame.bytes[0];
    match frame.kind {
        _ if answer.refusal != 0 => Met::HeldRefused,
        1 if number == 0 => Met::HeldAnnouncement,
        1 if number > end.frames => Met::HeldAboveN,
        1 if number < end.expected => Met::HeldOld,
        1 if number == end.expected => Met::HeldExpected,
        1 => Met::HeldLater,
        3 => Met::HeldNack,
        5 => Met::HeldSmRm,
        _ => Met::HeldSmUrm,
    }
}

/// An LM_ACK in Sending or Waiting that neither fails the transfer nor is refused.
fn below(end: &FlatSender, frame: &FlatFrame, answer: &FlatSenderAnswer) -> Option<Met> {
    let [start, count, ..] = frame.bytes;
    if !matches!(end.phase, 2 | 3) || frame.kind != 2 || answer.outcome != 0 || start == 0 {
        return None;
    }
    match (end.start.checked_sub(start)?, count) {
        (1, 1) if end.phase == 2 => Some(Met::BeforeInSending),
        (1, 1) => Some(Met::BeforeInWaiting),
        (1, _) => Some(Met::BeforeOtherCount),
        (2.., 1) => Some(Met::FurtherBelow),
        _ => None,
    }
}
