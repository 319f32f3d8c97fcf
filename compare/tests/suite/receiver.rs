//! Chapter "The receiver", rule by rule.

use crate::help::*;
use compare::reference::frame;
use compare::reference::receiver::{After, Answer, Connection, Delivered, Receiver, Report, State};

fn idle() -> State {
    State::Idle { delivered: None }
}

/// "Frame 0, Idle": NACK 5 where L or N is bad, else NACK 1 where there is no space, and the state
/// stays.
#[test]
fn bad_announcements() {
    let mut receiver = Receiver::make(10, 4, 14).unwrap();
    let mut buffer = buffer();
    for (n, l, cause) in [
        (0, 0, 5),
        (1, 1, 5),
        (2, 8, 5),
        (1, 9, 5),
        (3, 9, 5),
        (2, 15, 5), // N does not fit, L > K: NACK 5 goes first
        (3, 15, 1),
        (255, 1785, 1),
        (255, 1786, 5),
        (0, 1792, 5), // N would be 256
        (255, 65535, 5),
        (2, 256 + 9, 5),
    ] {
        let answer = receiver.hear(frame::announcement(n, l), &mut buffer);
        assert_eq!(answer, Ok(r_frame(frame::lm_nack(cause))), "{n} {l}");
        assert_eq!(receiver.state, idle());
    }
}

/// After either NACK the last delivery is still known.
#[test]
fn bad_announcements_keep_the_last_delivery() {
    let mut receiver = Receiver::make(10, 4, 14).unwrap();
    receiver.state = State::Idle {
        delivered: Some(Delivered { n: 2, l: 9 }),
    };
    let before = receiver.clone();
    let mut buffer = buffer();
    for (n, l) in [(1, 9), (3, 15)] {
        receiver
            .hear(frame::announcement(n, l), &mut buffer)
            .unwrap();
        assert_eq!(receiver, before);
    }
    let again = receiver.hear(frame::information(2, &message(9)), &mut buffer);
    assert_eq!(again, Ok(r_frame(frame::endof_ack(2, 9))));
}

/// "Frame 0, Idle": otherwise a fresh connection, which asks for its first window and forgets what
/// was delivered.
#[test]
fn opening() {
    for (window, n, l, w) in [
        (1, 2, 9, 1),
        (2, 2, 14, 2),
        (255, 2, 9, 2),
        (255, 255, 1785, 255),
        (7, 255, 1785, 7),
    ] {
        let mut receiver = Receiver::make(10, window, 1785).unwrap();
        receiver.state = State::Idle {
            delivered: Some(Delivered { n: 2, l: 9 }),
        };
        let mut buffer = buffer();
        let answer = receiver.hear(frame::announcement(n, l), &mut buffer);
        assert_eq!(answer, Ok(r_frame(frame::lm_ack(1, w))));
        let open = Connection {
            n,
            l,
            e: 1,
            w,
            wait: 0,
            misses: 0,
            after: After::Ack,
            counted: None,
            held: false,
            holds: 0,
        };
        assert_eq!(receiver.state, State::Open(open));
        // A failure leaves no last delivery behind.
        assert_eq!(
            receiver.hear(frame::lm_nack(3), &mut buffer),
            Ok(r_failed(1, None))
        );
        assert_eq!(receiver.state, idle());
        assert_eq!(
            receiver.hear(frame::information(2, &[]), &mut buffer),
            Ok(r_nothing())
        );
    }
    // L = K has room.
    let mut receiver = Receiver::make(10, 2, 9).unwrap();
    let answer = receiver.hear(frame::announcement(2, 9), &mut buffer());
    assert_eq!(answer, Ok(r_frame(frame::lm_ack(1, 2))));
}

/// A number above N closes the connection with NACK 4.
#[test]
fn number_above_n() {
    for i in [4, 255] {
        let (mut receiver, mut buffer) = opened(10, 2, 21);
        let kept = buffer.clone();
        let answer = receiver.hear(frame::information(i, &message(1785)), &mut buffer);
        assert_eq!(answer, Ok(r_failed(4, Some(frame::lm_nack(4)))));
        assert_eq!(receiver.state, idle());
        assert_eq!(buffer, kept);
    }
}

/// Only the expected frame is taken: its bytes go to their place in the buffer and nowhere else, and
/// wait and misses begin anew.
#[test]
fn one_frame() {
    let (mut receiver, mut buffer) = opened(2, 3, 30);
    receiver.tick();
    receiver.tick();
    receiver.tick();
    let State::Open(open) = receiver.state else {
        panic!()
    };
    assert_eq!((open.wait, open.misses), (1, 1));
    let message = message(30);
    for i in [2, 3, 5] {
        let before = (receiver.clone(), buffer.clone());
        assert_eq!(
            receiver.hear(frame::information(i, &message), &mut buffer),
            Ok(r_nothing())
        );
        assert_eq!((receiver.clone(), buffer.clone()), before);
    }
    assert_eq!(
        receiver.hear(frame::information(1, &message), &mut buffer),
        Ok(r_nothing())
    );
    let open = Connection {
        n: 5,
        l: 30,
        e: 2,
        w: 3,
        wait: 0,
        misses: 0,
        after: After::Frame,
        counted: None,
        held: false,
        holds: 0,
    };
    assert_eq!(receiver.state, State::Open(open));
    assert_eq!(buffer[..7], message[..7]);
    assert!(buffer[7..].iter().all(|&byte| byte == 0xEE));
}

/// At a window's end the next window is asked for, the last one as long as what is left.
#[test]
fn window_by_window() {
    let message = message(49);
    let (mut receiver, mut buffer) = opened(10, 3, 49);
    for i in 1..=7 {
        let expected = match i {
            3 => r_frame(frame::lm_ack(4, 3)),
            6 => r_frame(frame::lm_ack(7, 1)),
            7 => r_delivered(7, 49),
            _ => r_nothing(),
        };
        assert_eq!(
            receiver.hear(frame::information(i, &message), &mut buffer),
            Ok(expected)
        );
    }
    assert_eq!(
        receiver.state,
        State::Idle {
            delivered: Some(Delivered { n: 7, l: 49 })
        }
    );
    assert_eq!(buffer[..49], message[..]);
}

/// A timeout asks for a whole window from e on, so its end moves with e.
#[test]
fn timeout_moves_the_window() {
    let message = message(49);
    let (mut receiver, mut buffer) = opened(2, 3, 49);
    receiver
        .hear(frame::information(1, &message), &mut buffer)
        .unwrap();
    receiver.tick();
    assert_eq!(receiver.tick(), r_frame(frame::lm_ack(2, 3)));
    let open = Connection {
        n: 7,
        l: 49,
        e: 2,
        w: 4,
        wait: 0,
        misses: 1,
        after: After::Ack,
        counted: Some(After::Frame),
        held: false,
        holds: 0,
    };
    assert_eq!(receiver.state, State::Open(open));
    // 3 is no longer the window's end, 4 is.
    assert_eq!(
        receiver.hear(frame::information(2, &message), &mut buffer),
        Ok(r_nothing())
    );
    assert_eq!(
        receiver.hear(frame::information(3, &message), &mut buffer),
        Ok(r_nothing())
    );
    let answer = receiver.hear(frame::information(4, &message), &mut buffer);
    assert_eq!(answer, Ok(r_frame(frame::lm_ack(5, 3))));
}

/// A NACK closes an open connection and is nothing to an Idle receiver, as a tick is.
#[test]
fn lm_nack_and_tick() {
    let (mut receiver, mut buffer) = opened(10, 3, 49);
    assert_eq!(
        receiver.hear(frame::lm_nack(3), &mut buffer),
        Ok(r_failed(1, None))
    );
    assert_eq!(receiver.state, idle());
    receiver.state = State::Idle {
        delivered: Some(Delivered { n: 2, l: 9 }),
    };
    let before = receiver.clone();
    assert_eq!(
        receiver.hear(frame::lm_nack(3), &mut buffer),
        Ok(r_nothing())
    );
    for _ in 0..100 {
        assert_eq!(receiver.tick(), r_nothing());
    }
    assert_eq!(receiver, before);
}

/// Short messages: both kinds are delivered, SM_RM alone is acknowledged, and a connection goes on.
#[test]
fn short_messages_in_both_states() {
    let (mut open, mut buffer) = opened(10, 3, 49);
    open.tick();
    let mut closed = Receiver::make(10, 3, 1785).unwrap();
    closed.state = State::Idle {
        delivered: Some(Delivered { n: 2, l: 9 }),
    };
    for receiver in [&mut open, &mut closed] {
        let before = (receiver.clone(), buffer.clone());
        let bytes = [0x10, 2, 3, 0xFF, 0xFF, 0xFF, 0xFF, 0xFF];
        let report = Some(Report::Short(bytes));
        let reliable = receiver.hear(frame::sm_rm(&bytes[..3]), &mut buffer);
        assert_eq!(
            reliable,
            Ok(Answer {
                frame: Some(frame::sm_ack(0x10)),
                report
            })
        );
        let other = receiver.hear(frame::sm_urm(&bytes[..3]), &mut buffer);
        assert_eq!(
            other,
            Ok(Answer {
                frame: None,
                report
            })
        );
        assert_eq!((receiver.clone(), buffer.clone()), before);
    }
}

/// A second transfer of the same message after delivery opens again.
#[test]
fn announcement_after_delivery() {
    let message = message(9);
    let (mut receiver, mut buffer) = opened(10, 3, 9);
    for _ in 0..2 {
        receiver
            .hear(frame::information(1, &message), &mut buffer)
            .unwrap();
        let last = receiver.hear(frame::information(2, &message), &mut buffer);
        assert_eq!(last, Ok(r_delivered(2, 9)));
        let open = receiver.hear(frame::announcement(2, 9), &mut buffer);
        assert_eq!(open, Ok(r_frame(frame::lm_ack(1, 2))));
        // "the last delivery is forgotten": frame 2 is no EndofACK now.
        let early = receiver.hear(frame::information(2, &message), &mut buffer);
        assert_eq!(early, Ok(r_nothing()));
    }
}
