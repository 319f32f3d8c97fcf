//! Chapter "Edge cases", in its order.

use crate::help::*;
use compare::reference::frame::{self, Frame};
use compare::reference::identifier::{self, Parts};
use compare::reference::sender::{Phase, Sender};
use compare::reference::Refused;

fn begin(length: usize) -> (Phase, Frame) {
    let mut sender = Sender::make(1, 10, 100).unwrap();
    let answer = sender.begin(&message(length)).unwrap();
    assert_eq!(answer.report, None);
    (sender.phase, answer.frame.unwrap())
}

/// "L 8 short"
#[test]
fn length_8_is_short() {
    let expected = Frame {
        kind: 5,
        data: [1, 2, 3, 4, 5, 6, 7, 8],
    };
    assert_eq!(begin(8), (Phase::Short, expected));
    let expected = Frame {
        kind: 5,
        data: [1, 0xFF, 0xFF, 0xFF, 0xFF, 0xFF, 0xFF, 0xFF],
    };
    assert_eq!(begin(1), (Phase::Short, expected));
}

/// Lengths at which N changes, and the longest message's announcement.
#[test]
fn announced_numbers() {
    for (length, announced) in [
        (9, [0x00, 0x02, 0x09, 0x00]),
        (14, [0x00, 0x02, 0x0E, 0x00]),
        (15, [0x00, 0x03, 0x0F, 0x00]),
        (1785, [0x00, 0xFF, 0xF9, 0x06]),
    ] {
        let (phase, frame) = begin(length);
        assert_eq!(phase, Phase::Opening);
        assert_eq!(frame.kind, 1);
        assert_eq!(frame.data[..4], announced);
        assert_eq!(frame.data[4..], [0xFF; 4]);
    }
}

/// "0 and 1786 refused 2"
#[test]
fn lengths_0_and_1786() {
    let mut sender = Sender::make(1, 10, 100).unwrap();
    let before = sender.clone();
    assert_eq!(sender.begin(&[]), Err(Refused(2)));
    assert_eq!(sender.begin(&message(1786)), Err(Refused(2)));
    assert_eq!(sender, before);
}

/// An LM_ACK that starts behind the last frame.
#[test]
fn lm_ack_3_2_with_n_2() {
    let (mut sender, _) = begun(1, 10, 100, 9);
    let answer = sender.hear(frame::lm_ack(3, 2)).unwrap();
    assert_eq!(answer, s_failed(4, 0, 2, Some(frame::lm_nack(4))));
    assert_eq!(sender.phase, Phase::Idle);
}

/// Frames by tick of a sender in silence, begin being tick 0, until a report.
fn sender_silence(timeout: u16, sending_time: u16) -> Vec<(u16, Frame)> {
    let mut sender = Sender::make(1, timeout, sending_time).unwrap();
    let message = message(9);
    let begin = sender.begin(&message).unwrap();
    let mut frames = vec![(0, begin.frame.unwrap())];
    for tick in 1..=20 {
        let answer = sender.tick(&message).unwrap();
        frames.extend(answer.frame.map(|frame| (tick, frame)));
        assert_eq!(
            answer.report.is_some(),
            sender.phase == Phase::Idle && tick == 9
        );
    }
    frames
}

/// "Sender T 3, M 10, silence", and the same with M 9, where the time is over at the third timeout.
#[test]
fn sender_in_silence() {
    let zero = frame::announcement(2, 9);
    let two = vec![(0, zero), (3, zero), (6, zero), (9, frame::lm_nack(2))];
    assert_eq!(sender_silence(3, 10), two);
    let three = vec![(0, zero), (3, zero), (6, zero), (9, frame::lm_nack(3))];
    assert_eq!(sender_silence(3, 9), three);
}

/// "Receiver T 3, N 2, silence".
#[test]
fn receiver_in_silence() {
    let (mut receiver, _) = opened(3, 2, 9);
    for tick in 1..=20 {
        let expected = match tick {
            3 | 6 => r_frame(frame::lm_ack(1, 2)),
            9 => r_failed(2, Some(frame::lm_nack(2))),
            _ => r_nothing(),
        };
        assert_eq!(receiver.tick(), expected, "tick {tick}");
    }
}

/// The identifier of the charger's version message.
#[test]
fn identifier_of_the_charger() {
    let parts = Parts {
        p: 3,
        edp: 0,
        dp: 0,
        pf: 0x38,
        ps: 0xF4,
        sa: 0x56,
    };
    assert_eq!(identifier::build(parts), Ok(0x0C38F456));
    assert_eq!(identifier::read(0x0C38F456), Ok(parts));
}
