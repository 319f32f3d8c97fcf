//! The reference's ends over plain values.
//!
//! A flat state is read as the face says: an unknown phase is Idle, an unknown number of misses is none after an LM_ACK, and
//! fields that a phase has not are not read. The reference keeps a sender's N nowhere (it counts it from L), so a flat sender's
//! is not read, and it takes the gap and the window as bytes; `crate::forged` makes only states that both can hold.

use compare::reference::frame::{frames_for, Frame};
use compare::reference::receiver::{self, After, Connection, Delivered, Receiver, State};
use compare::reference::sender::{self, Phase, Sender};
use compare::reference::{refusal, Refused};

use crate::interface::Ends;
use crate::values::*;
use crate::Reference;

impl Ends for Reference {
    fn sender_make(&self, gap: u16, timeout: u16, limit: u16) -> FlatSenderMade {
        // A gap over 255 is over 10.
        let made = match u8::try_from(gap) {
            Ok(gap) => Sender::make(gap, timeout, limit),
            Err(_) => Err(refusal::SETTING),
        };
        match made {
            Ok(sender) => FlatSenderMade {
                refusal: 0,
                sender: flat_sender(&sender),
            },
            Err(Refused(refusal)) => FlatSenderMade {
                refusal,
                sender: FlatSender::default(),
            },
        }
    }

    fn sender_begin(&self, sender: FlatSender, message: &[u8]) -> FlatSenderAnswer {
        let mut end = sender_of(sender);
        let answer = end.begin(message);
        sender_answer(&end, answer)
    }

    fn sender_post(&self, sender: FlatSender, message: &[u8]) -> FlatSenderAnswer {
        let end = sender_of(sender);
        let answer = end.post(message);
        sender_answer(&end, answer)
    }

    fn sender_tick(&self, sender: FlatSender, message: &[u8]) -> FlatSenderAnswer {
        let mut end = sender_of(sender);
        let answer = end.tick(message);
        sender_answer(&end, answer)
    }

    fn sender_hear(&self, sender: FlatSender, frame: FlatFrame) -> FlatSenderAnswer {
        let mut end = sender_of(sender);
        let answer = end.hear(frame_of(frame));
        sender_answer(&end, answer)
    }

    fn receiver_make(&self, timeout: u16, window: u16, capacity: u16) -> FlatReceiverMade {
        // "window C 1 to 255"
        let made = match u8::try_from(window) {
            Ok(window) => Receiver::make(timeout, window, capacity),
            Err(_) => Err(refusal::SETTING),
        };
        match made {
            Ok(receiver) => FlatReceiverMade {
                refusal: 0,
                receiver: flat_receiver(&receiver),
            },
            Err(Refused(refusal)) => FlatReceiverMade {
                refusal,
                receiver: FlatReceiver::default(),
            },
        }
    }

    fn receiver_tick(&self, receiver: FlatReceiver) -> FlatReceiverAnswer {
        let mut end = receiver_of(receiver);
        let answer = end.tick();
        receiver_answer(&end, Ok(answer))
    }

    fn receiver_hold(&self, receiver: FlatReceiver) -> FlatReceiverAnswer {
        let mut end = receiver_of(receiver);
        let answer = end.hold();
        receiver_answer(&end, answer)
    }

    fn receiver_resume(&self, receiver: FlatReceiver) -> FlatReceiverAnswer {
        let mut end = receiver_of(receiver);
        let answer = end.resume();
        receiver_answer(&end, answer)
    }

    fn receiver_hear(
        &self,
        receiver: FlatReceiver,
        frame: FlatFrame,
        buffer: &mut [u8],
    ) -> FlatReceiverAnswer {
        let mut end = receiver_of(receiver);
        let answer = end.hear(frame_of(frame), buffer);
        receiver_answer(&end, answer)
    }
}

pub fn frame_of(flat: FlatFrame) -> Frame {
    Frame {
        kind: flat.kind,
        data: flat.bytes,
    }
}

/// Whether a frame goes out, and which; zeros where none does.
fn emitted(frame: Option<Frame>) -> (bool, FlatFrame) {
    match frame {
        Some(Frame { kind, data: bytes }) => (true, FlatFrame { kind, bytes }),
        None => (false, FlatFrame::default()),
    }
}

/// What one side holds as a byte and the other as two: the sender's gap, the receiver's held timeouts.
fn byte(number: u16) -> u8 {
    u8::try_from(number).expect("a gap and a count of held timeouts are at most 255")
}

pub fn sender_of(flat: FlatSender) -> Sender {
    let phase = match flat.phase {
        1 => Phase::Opening,
        2 => Phase::Sending {
            next: flat.due,
            last: flat.last,
        },
        3 => Phase::Waiting { last: flat.last },
        4 => Phase::Short,
        _ => Phase::Idle,
    };
    let windowed = matches!(phase, Phase::Sending { .. } | Phase::Waiting { .. });
    Sender {
        gap: byte(flat.gap),
        timeout: flat.timeout,
        sending_time: flat.limit,
        phase,
        length: flat.length,
        first: flat.first,
        age: flat.age,
        wait: flat.wait,
        misses: flat.misses,
        gap_count: flat.count,
        start: windowed.then_some(flat.start),
        frames: flat.emitted,
    }
}

/// What every phase has.
fn flat_settings(end: &Sender) -> FlatSender {
    FlatSender {
        gap: end.gap.into(),
        timeout: end.timeout,
        limit: end.sending_time,
        ..FlatSender::default()
    }
}

/// What every phase but Idle has; N in Short is 1, as one frame carries the message.
fn flat_transfer(end: &Sender, phase: u8) -> FlatSender {
    let frames = match end.phase {
        Phase::Short => 1,
        _ => frames_for(end.length) as u8,
    };
    FlatSender {
        phase,
        length: end.length,
        frames,
        first: end.first,
        age: end.age,
        emitted: end.frames,
        ..flat_settings(end)
    }
}

/// What the phase has, and 0 for the rest.
pub fn flat_sender(end: &Sender) -> FlatSender {
    let (wait, misses) = (end.wait, end.misses);
    let start = end.start.unwrap_or(0);
    match end.phase {
        Phase::Idle => flat_settings(end),
        Phase::Opening => FlatSender {
            wait,
            misses,
            ..flat_transfer(end, 1)
        },
        Phase::Sending { next, last } => FlatSender {
            misses,
            start,
            due: next,
            last,
            count: end.gap_count,
            ..flat_transfer(end, 2)
        },
        Phase::Waiting { last } => FlatSender {
            wait,
            misses,
            start,
            last,
            ..flat_transfer(end, 3)
        },
        Phase::Short => FlatSender {
            wait,
            ..flat_transfer(end, 4)
        },
    }
}

pub fn sender_answer(end: &Sender, answer: Result<sender::Answer, Refused>) -> FlatSenderAnswer {
    let (frame, (outcome, refusal, cause, ticks, frames)) = match answer {
        Err(Refused(number)) => (None, (1, number, 0, 0, 0)),
        Ok(sender::Answer { frame, report }) => {
            let numbers = match report {
                None => (0, 0, 0, 0, 0),
                Some(sender::Report::Sent { ticks, frames }) => (5, 0, 0, ticks, frames),
                Some(sender::Report::Failed {
                    cause,
                    ticks,
                    frames,
                }) => (3, 0, cause, ticks, frames),
            };
            (frame, numbers)
        }
    };
    let (emits, frame) = emitted(frame);
    FlatSenderAnswer {
        next: flat_sender(end),
        emits,
        frame,
        outcome,
        refusal,
        cause,
        ticks,
        frames,
    }
}

/// What a number of misses says: what the receiver waits after, how many timeouts it counts and of which type.
fn counted_of(number: u8) -> (After, u16, Option<After>) {
    match number {
        misses::ONE_AFTER_ACK => (After::Ack, 1, Some(After::Ack)),
        misses::TWO_AFTER_ACK => (After::Ack, 2, Some(After::Ack)),
        misses::NONE_AFTER_FRAME => (After::Frame, 0, None),
        misses::ONE_AFTER_FRAME => (After::Ack, 1, Some(After::Frame)),
        _ => (After::Ack, 0, None),
    }
}

/// The number of a connection's misses. The LM_ACK of a timeout is what is waited after next, so nothing else can come about.
fn number_of(open: &Connection) -> u8 {
    match (open.after, open.misses, open.counted) {
        (After::Ack, 0, None) => misses::NONE_AFTER_ACK,
        (After::Ack, 1, Some(After::Ack)) => misses::ONE_AFTER_ACK,
        (After::Ack, 2, Some(After::Ack)) => misses::TWO_AFTER_ACK,
        (After::Frame, 0, None) => misses::NONE_AFTER_FRAME,
        (After::Ack, 1, Some(After::Frame)) => misses::ONE_AFTER_FRAME,
        other => panic!("misses without a number: {other:?}"),
    }
}

pub fn receiver_of(flat: FlatReceiver) -> Receiver {
    let (n, l) = (flat.frames, flat.length);
    let (after, misses, counted) = counted_of(flat.misses);
    let state = match flat.phase {
        1 => State::Idle {
            delivered: Some(Delivered { n, l }),
        },
        2 => State::Open(Connection {
            n,
            l,
            e: flat.expected,
            w: flat.last,
            wait: flat.wait,
            misses,
            after,
            counted,
            held: flat.held,
            holds: flat.holds.into(),
        }),
        _ => State::Idle { delivered: None },
    };
    Receiver {
        timeout: flat.timeout,
        window: flat.window,
        capacity: flat.capacity,
        state,
    }
}

pub fn flat_receiver(end: &Receiver) -> FlatReceiver {
    let settings = FlatReceiver {
        timeout: end.timeout,
        window: end.window,
        capacity: end.capacity,
        ..FlatReceiver::default()
    };
    match end.state {
        State::Idle { delivered: None } => settings,
        State::Idle {
            delivered: Some(Delivered { n, l }),
        } => FlatReceiver {
            phase: 1,
            frames: n,
            length: l,
            ..settings
        },
        State::Open(open) => FlatReceiver {
            phase: 2,
            frames: open.n,
            length: open.l,
            expected: open.e,
            last: open.w,
            wait: open.wait,
            misses: number_of(&open),
            held: open.held,
            holds: byte(open.holds),
            ..settings
        },
    }
}

fn receiver_answer(
    end: &Receiver,
    answer: Result<receiver::Answer, Refused>,
) -> FlatReceiverAnswer {
    let (frame, (outcome, refusal, cause, length, bytes)) = match answer {
        Err(Refused(number)) => (None, (1, number, 0, 0, [0; 8])),
        Ok(receiver::Answer { frame, report }) => {
            let numbers = match report {
                None => (0, 0, 0, 0, [0; 8]),
                Some(receiver::Report::Delivered { l }) => (2, 0, 0, l, [0; 8]),
                Some(receiver::Report::Failed { cause }) => (3, 0, cause, 0, [0; 8]),
                Some(receiver::Report::Short(bytes)) => (4, 0, 0, 0, bytes),
            };
            (frame, numbers)
        }
    };
    let (emits, frame) = emitted(frame);
    FlatReceiverAnswer {
        next: flat_receiver(end),
        emits,
        frame,
        outcome,
        refusal,
        cause,
        length,
        bytes,
    }
}
