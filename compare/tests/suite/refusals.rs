//! "Refusals, by place": every number of the ends, and the order at each place. Those of the
//! identifier, groups, versions and packs stand in their own files.

use crate::help::*;
use compare::reference::frame::{self, Frame};
use compare::reference::receiver::{Delivered, Receiver, State};
use compare::reference::sender::Sender;
use compare::reference::Refused;

/// Refusal 1: each setting at its limits and just outside.
#[test]
fn making_a_sender() {
    for (gap, timeout, sending_time, good) in [
        (1, 1, 1, true),
        (10, 10000, 60000, true),
        (0, 1, 1, false),
        (11, 1, 1, false),
        (255, 1, 1, false),
        (1, 0, 1, false),
        (1, 10001, 1, false),
        (1, 65535, 1, false),
        (1, 1, 0, false),
        (1, 1, 60001, false),
        (1, 1, 65535, false),
    ] {
        let made = Sender::make(gap, timeout, sending_time);
        assert_eq!(made.is_ok(), good);
        assert!(good || made == Err(Refused(1)));
    }
}

/// Refusal 1: each setting at its limits and just outside.
#[test]
fn making_a_receiver() {
    for (timeout, window, capacity, good) in [
        (1, 1, 9, true),
        (10000, 255, 1785, true),
        (0, 1, 9, false),
        (10001, 1, 9, false),
        (1, 0, 9, false),
        (1, 1, 8, false),
        (1, 1, 0, false),
        (1, 1, 1786, false),
        (1, 1, 65535, false),
    ] {
        let made = Receiver::make(timeout, window, capacity);
        assert_eq!(made.is_ok(), good);
        assert!(good || made == Err(Refused(1)));
    }
}

/// Begin and post: 3, which begin alone has, before 2; and the lengths that each takes.
#[test]
fn begin_and_post() {
    for length in [3, 9] {
        let (mut sender, _) = begun(1, 10, 100, length);
        let before = sender.clone();
        // 3 goes before 2.
        for other in [0, 1, 9, 1785, 1786] {
            assert_eq!(sender.begin(&message(other)), Err(Refused(3)));
        }
        // Post has no 3.
        assert!(sender.post(&message(8)).is_ok());
        for other in [0, 9, 1785, 1786] {
            assert_eq!(sender.post(&message(other)), Err(Refused(2)));
        }
        assert_eq!(sender, before);
    }
    let mut sender = Sender::make(1, 10, 100).unwrap();
    for other in [0, 1786, 70000] {
        assert_eq!(sender.begin(&message(other)), Err(Refused(2)));
    }
    assert!(sender.begin(&message(1785)).is_ok());
}

/// Refusal 4: a tick of a transfer lent another length; Idle judges none.
#[test]
fn sender_tick() {
    for length in [3, 9, 1785] {
        let (mut sender, _) = begun(1, 1, 1, length);
        let before = sender.clone();
        for other in [0, 2, 4, 8, 10, 1784, 1786, length + 65536] {
            assert_eq!(sender.tick(&message(other)), Err(Refused(4)));
        }
        // A refused tick is no tick: age is still 0 and M = 1 still ahead.
        assert_eq!(sender, before);
        assert!(sender.tick(&message(length)).unwrap().report.is_some());
        // Idle again: nothing is judged.
        assert_eq!(sender.tick(&message(2)), Ok(s_nothing()));
    }
}

fn bad_frames() -> Vec<Frame> {
    let mut frames = Vec::new();
    for kind in [0, 8, 9, 0x80, 0xFF] {
        frames.push(Frame {
            kind,
            data: [0xFF; 8],
        });
    }
    let mut announcement = frame::announcement(2, 9);
    announcement.data[4] = 0;
    frames.push(announcement);
    for mut good in [
        frame::lm_ack(1, 1),
        frame::lm_nack(1),
        frame::endof_ack(2, 9),
        frame::sm_ack(1),
    ] {
        good.data[7] = 0xFE;
        frames.push(good);
    }
    frames
}

/// The sender's hearing: 6 before 7, in every phase.
#[test]
fn sender_hearing() {
    let idle = Sender::make(1, 10, 100).unwrap();
    let (opening, _) = begun(1, 10, 100, 9);
    let (short, _) = begun(1, 10, 100, 8);
    let mut sending = opening.clone();
    sending.hear(frame::lm_ack(1, 1)).unwrap();
    for sender in [idle, opening, short, sending] {
        let mut called = sender.clone();
        // 6 goes before 7: a bad announcement is 6, a good one 7.
        for frame in bad_frames() {
            assert_eq!(called.hear(frame), Err(Refused(6)));
        }
        for frame in [
            frame::announcement(2, 9),
            frame::information(1, &[1]),
            frame::sm_rm(&[1]),
            frame::sm_urm(&[1]),
            Frame {
                kind: 1,
                data: [1, 0, 0, 0, 0, 0, 0, 0],
            },
            Frame {
                kind: 5,
                data: [0; 8],
            },
            Frame {
                kind: 7,
                data: [0; 8],
            },
        ] {
            assert_eq!(called.hear(frame), Err(Refused(7)));
        }
        assert_eq!(called, sender);
    }
}

/// The receiver's hearing: 5 before 6 before 7, in every state.
#[test]
fn receiver_hearing() {
    let (open, _) = opened(10, 2, 9);
    let idle = Receiver::make(10, 2, 1785).unwrap();
    let mut after = idle.clone();
    after.state = State::Idle {
        delivered: Some(Delivered { n: 2, l: 9 }),
    };
    let other_end = [
        frame::lm_ack(1, 1),
        frame::endof_ack(2, 9),
        frame::sm_ack(1),
    ];
    let good = [
        frame::announcement(2, 9),
        frame::information(1, &[1]),
        frame::lm_nack(1),
        frame::sm_rm(&[1]),
        frame::sm_urm(&[1]),
    ];
    for receiver in [open, idle, after, held()] {
        let mut called = receiver.clone();
        // 5 goes before 6, 7 and everything else.
        for length in [0, 9, 1784, 1786] {
            let mut lent = vec![0xEE; length];
            for frame in bad_frames().into_iter().chain(other_end).chain(good) {
                assert_eq!(called.hear(frame, &mut lent), Err(Refused(5)));
            }
            assert!(lent.iter().all(|&byte| byte == 0xEE));
        }
        // 6 goes before 7.
        let mut lent = buffer();
        for frame in bad_frames() {
            assert_eq!(called.hear(frame, &mut lent), Err(Refused(6)));
        }
        for frame in other_end {
            assert_eq!(called.hear(frame, &mut lent), Err(Refused(7)));
        }
        assert_eq!(called, receiver);
        assert_eq!(lent, buffer());
    }
}

/// A held receiver.
fn held() -> Receiver {
    let (mut receiver, mut buffer) = opened(10, 2, 21);
    let first = frame::information(1, &message(21));
    receiver.hear(first, &mut buffer).unwrap();
    receiver.hold().unwrap();
    receiver
}

/// Refusal 13, document 02: which of hold and resume each state takes.
#[test]
fn hold_and_resume() {
    let idle = Receiver::make(10, 2, 1785).unwrap();
    let mut after = idle.clone();
    after.state = State::Idle {
        delivered: Some(Delivered { n: 3, l: 21 }),
    };
    let (first, _) = opened(10, 2, 21);
    let mut second = held();
    second.resume().unwrap();
    for (receiver, takes_hold, takes_resume) in [
        (idle, false, false),
        (after, false, false),
        (first, false, false),
        (second, true, false),
        (held(), false, true),
    ] {
        let (mut holding, mut resuming) = (receiver.clone(), receiver.clone());
        let (hold, resume) = (holding.hold(), resuming.resume());
        assert_eq!((hold.is_ok(), resume.is_ok()), (takes_hold, takes_resume));
        if !takes_hold {
            assert_eq!((hold, &holding), (Err(Refused(13)), &receiver));
        }
        if !takes_resume {
            assert_eq!((resume, &resuming), (Err(Refused(13)), &receiver));
        }
    }
}
