//! Chapter "The sender", rule by rule.

use crate::help::*;
use compare::reference::frame;
use compare::reference::sender::{Phase, Sender};

fn ready(sender: &mut Sender, message: &[u8], s: u8, c: u8) {
    sender.hear(frame::lm_ack(1, 1)).unwrap();
    if s > 1 {
        sender.hear(frame::lm_ack(s, c)).unwrap();
    }
    for _ in 0..sender.gap {
        sender.tick(message).unwrap();
    }
    assert!(matches!(sender.phase, Phase::Waiting { .. }));
}

/// "Tick (Idle: nothing)", whatever is lent.
#[test]
fn idle_ticks_do_nothing() {
    let mut sender = Sender::make(1, 1, 1).unwrap();
    let before = sender.clone();
    for length in [0, 9, 1785, 2000] {
        assert_eq!(sender.tick(&message(length)), Ok(s_nothing()));
    }
    assert_eq!(sender, before);
}

/// Age M: NACK 3 in every phase of a long transfer, before anything else of that tick.
#[test]
fn sending_time_over_in_every_phase() {
    // Opening
    let (mut sender, message) = begun(10, 10, 1, 21);
    assert_eq!(
        sender.tick(&message),
        Ok(s_failed(3, 1, 2, Some(frame::lm_nack(3))))
    );
    assert_eq!(sender.phase, Phase::Idle);
    // Sending, at the tick at which a frame would go: the time goes before it.
    let (mut sender, message) = begun(2, 10, 2, 21);
    sender.hear(frame::lm_ack(1, 3)).unwrap();
    assert_eq!(sender.tick(&message), Ok(s_nothing()));
    assert_eq!(
        sender.tick(&message),
        Ok(s_failed(3, 2, 2, Some(frame::lm_nack(3))))
    );
    // Waiting, at the tick of a timeout
    let (mut sender, message) = begun(1, 1, 2, 21);
    sender.hear(frame::lm_ack(1, 1)).unwrap();
    assert_eq!(
        sender.tick(&message),
        Ok(s_frame(frame::information(1, &message)))
    );
    assert_eq!(
        sender.tick(&message),
        Ok(s_failed(3, 2, 3, Some(frame::lm_nack(3))))
    );
}

/// Age M in a short transfer: failed 3, and no frame.
#[test]
fn sending_time_over_in_short() {
    let (mut sender, message) = begun(1, 2, 4, 3);
    assert_eq!(sender.tick(&message), Ok(s_nothing()));
    assert_eq!(sender.tick(&message), Ok(s_frame(frame::sm_rm(&message))));
    assert_eq!(sender.tick(&message), Ok(s_nothing()));
    assert_eq!(sender.tick(&message), Ok(s_failed(3, 4, 2, None)));
    assert_eq!(sender.phase, Phase::Idle);
}

/// SM_RM goes again at every timeout; Short has no third miss.
#[test]
fn short_goes_again_without_end() {
    let (mut sender, message) = begun(1, 3, 60000, 8);
    for tick in 1..=59999_u16 {
        let expected = if tick % 3 == 0 {
            s_frame(frame::sm_rm(&message))
        } else {
            s_nothing()
        };
        assert_eq!(sender.tick(&message), Ok(expected));
    }
    assert_eq!(sender.tick(&message), Ok(s_failed(3, 60000, 20000, None)));
}

/// Sending: a frame at every G-th tick, and Waiting with a fresh wait behind the window's last.
#[test]
fn sending_keeps_the_gap() {
    let (mut sender, message) = begun(3, 5, 1000, 30);
    for _ in 0..4 {
        sender.tick(&message).unwrap();
    }
    assert_eq!(sender.wait, 4);
    sender.hear(frame::lm_ack(1, 2)).unwrap();
    let mut frames = Vec::new();
    for tick in 1..=6 {
        let answer = sender.tick(&message).unwrap();
        frames.extend(answer.frame.map(|frame| (tick, frame)));
    }
    assert_eq!(
        frames,
        [
            (3, frame::information(1, &message)),
            (6, frame::information(2, &message))
        ]
    );
    assert_eq!((sender.phase, sender.wait), (Phase::Waiting { last: 2 }, 0));
    // A whole T passes before the window's last frame goes again.
    for _ in 0..4 {
        assert_eq!(sender.tick(&message), Ok(s_nothing()));
    }
    assert_eq!(
        sender.tick(&message),
        Ok(s_frame(frame::information(2, &message)))
    );
}

/// The window that an LM_ACK opens: c frames from s on, and none above N.
#[test]
fn lm_ack_sets_the_window() {
    for (s, c, last) in [
        (1, 1, 1),
        (1, 2, 2),
        (1, 5, 5),
        (1, 255, 5),
        (3, 2, 4),
        (5, 1, 5),
        (5, 255, 5),
    ] {
        let (mut sender, message) = begun(5, 10, 1000, 30);
        ready(&mut sender, &message, 1, 1);
        assert_eq!(sender.hear(frame::lm_ack(s, c)), Ok(s_nothing()));
        assert_eq!(sender.phase, Phase::Sending { next: s, last });
        assert_eq!((sender.gap_count, sender.start), (0, Some(s)));
    }
    // N = 255
    let (mut sender, message) = begun(5, 10, 1000, 1785);
    ready(&mut sender, &message, 255, 255);
    assert_eq!(sender.phase, Phase::Waiting { last: 255 });
}

/// The gap count restarts with the window.
#[test]
fn lm_ack_restarts_the_gap() {
    let (mut sender, message) = begun(3, 10, 1000, 30);
    sender.hear(frame::lm_ack(1, 3)).unwrap();
    sender.tick(&message).unwrap();
    sender.tick(&message).unwrap();
    sender.hear(frame::lm_ack(1, 3)).unwrap();
    assert_eq!(sender.tick(&message), Ok(s_nothing()));
    assert_eq!(sender.tick(&message), Ok(s_nothing()));
    assert_eq!(
        sender.tick(&message),
        Ok(s_frame(frame::information(1, &message)))
    );
}

/// LM_ACK, tests in document 01's order: a zero s or c is passed over first, s above N fails next, in
/// Opening too, and then Opening takes s = 1 alone.
#[test]
fn lm_ack_in_opening() {
    for (s, c) in [(0, 0), (0, 3), (1, 0), (6, 0), (255, 0), (2, 1), (5, 255)] {
        let (mut sender, _) = begun(1, 10, 1000, 30);
        let before = sender.clone();
        assert_eq!(sender.hear(frame::lm_ack(s, c)), Ok(s_nothing()), "{s} {c}");
        assert_eq!(sender, before);
    }
    for s in [6, 255] {
        let (mut sender, _) = begun(1, 10, 1000, 30);
        let answer = sender.hear(frame::lm_ack(s, 1));
        assert_eq!(answer, Ok(s_failed(4, 0, 2, Some(frame::lm_nack(4)))));
        assert_eq!(sender.phase, Phase::Idle);
    }
}

/// A start may not fall in Sending or Waiting (but for what `hold.rs` has); one above the window is
/// taken.
#[test]
fn lm_ack_below_the_last_start() {
    let (mut sender, message) = begun(1, 10, 1000, 30);
    ready(&mut sender, &message, 3, 1);
    let before = sender.clone();
    for s in [1, 2] {
        assert_eq!(sender.hear(frame::lm_ack(s, 5)), Ok(s_nothing()));
        assert_eq!(sender, before);
    }
    sender.hear(frame::lm_ack(5, 1)).unwrap();
    assert_eq!(sender.phase, Phase::Sending { next: 5, last: 5 });
    let before = sender.clone();
    assert_eq!(sender.hear(frame::lm_ack(4, 2)), Ok(s_nothing()));
    assert_eq!(sender, before);
    // s > N still fails: one tick; frame 0, frame 3 and the NACK.
    let answer = sender.hear(frame::lm_ack(6, 1));
    assert_eq!(answer, Ok(s_failed(4, 1, 3, Some(frame::lm_nack(4)))));
}

/// A NACK fails a long transfer with cause 1, whatever cause it names; Short and Idle ignore it.
#[test]
fn lm_nack() {
    for cause in [0, 1, 2, 5, 255] {
        let (mut opening, _) = begun(1, 10, 1000, 30);
        assert_eq!(
            opening.hear(frame::lm_nack(cause)),
            Ok(s_failed(1, 0, 1, None))
        );
        assert_eq!(opening.phase, Phase::Idle);
        assert_eq!(opening.hear(frame::lm_nack(cause)), Ok(s_nothing()));

        let (mut sending, message) = begun(1, 10, 1000, 30);
        sending.hear(frame::lm_ack(1, 3)).unwrap();
        sending.tick(&message).unwrap();
        assert_eq!(
            sending.hear(frame::lm_nack(cause)),
            Ok(s_failed(1, 1, 2, None))
        );

        let (mut waiting, message) = begun(1, 10, 1000, 30);
        ready(&mut waiting, &message, 1, 1);
        assert_eq!(
            waiting.hear(frame::lm_nack(cause)),
            Ok(s_failed(1, 1, 2, None))
        );

        let (mut short, _) = begun(1, 10, 1000, 8);
        let before = short.clone();
        assert_eq!(short.hear(frame::lm_nack(cause)), Ok(s_nothing()));
        assert_eq!(short, before);
    }
}

/// EndofACK: sent where it names this N and L, in Sending and Waiting alone.
#[test]
fn endof_ack() {
    let (mut sender, message) = begun(1, 10, 1000, 30);
    assert_eq!(sender.hear(frame::endof_ack(5, 30)), Ok(s_nothing()));
    assert_eq!(sender.phase, Phase::Opening);
    sender.hear(frame::lm_ack(1, 3)).unwrap();
    for (n, l) in [(4, 30), (5, 29), (5, 31), (0, 0), (5, 30 + 256)] {
        assert_eq!(sender.hear(frame::endof_ack(n, l)), Ok(s_nothing()));
    }
    let mut waiting = sender.clone();
    assert_eq!(sender.hear(frame::endof_ack(5, 30)), Ok(s_sent(0, 1)));
    assert_eq!(sender.phase, Phase::Idle);
    for _ in 0..3 {
        waiting.tick(&message).unwrap();
    }
    assert_eq!(waiting.phase, Phase::Waiting { last: 3 });
    assert_eq!(waiting.hear(frame::endof_ack(5, 30)), Ok(s_sent(3, 4)));
    assert_eq!(waiting.hear(frame::endof_ack(5, 30)), Ok(s_nothing()));
    // In Short: "All else is ignored."
    let (mut short, _) = begun(1, 10, 1000, 8);
    assert_eq!(short.hear(frame::endof_ack(2, 8)), Ok(s_nothing()));
    assert_eq!(short.hear(frame::lm_ack(1, 1)), Ok(s_nothing()));
    assert_eq!(short.hear(frame::lm_ack(200, 1)), Ok(s_nothing()));
    assert_eq!(short.phase, Phase::Short);
}

/// SM_ACK: sent where it names the message's first byte, in Short alone.
#[test]
fn sm_ack() {
    let (mut sender, message) = begun(1, 10, 1000, 8);
    assert_eq!(sender.hear(frame::sm_ack(2)), Ok(s_nothing()));
    sender.tick(&message).unwrap();
    assert_eq!(sender.hear(frame::sm_ack(1)), Ok(s_sent(1, 1)));
    assert_eq!(sender.phase, Phase::Idle);
    assert_eq!(sender.hear(frame::sm_ack(1)), Ok(s_nothing()));
    // A first byte of 0xFF is a first byte like any other.
    let mut sender = Sender::make(1, 10, 100).unwrap();
    sender.begin(&[0xFF]).unwrap();
    assert_eq!(sender.hear(frame::sm_ack(0)), Ok(s_nothing()));
    assert_eq!(sender.hear(frame::sm_ack(0xFF)), Ok(s_sent(0, 1)));
    // In a long transfer: ignored.
    let (mut sender, _) = begun(1, 10, 1000, 9);
    assert_eq!(sender.hear(frame::sm_ack(1)), Ok(s_nothing()));
}

/// Begin starts all counts anew, also the second time, and forgets the last start.
#[test]
fn begin_again_starts_from_nothing() {
    let (mut sender, message) = begun(1, 2, 1000, 30);
    for _ in 0..5 {
        sender.tick(&message).unwrap();
    }
    sender.hear(frame::lm_ack(1, 1)).unwrap();
    sender.hear(frame::lm_ack(3, 1)).unwrap();
    sender.hear(frame::lm_nack(1)).unwrap();
    sender.begin(&message).unwrap();
    assert_eq!((sender.age, sender.wait, sender.misses), (0, 0, 0));
    assert_eq!((sender.start, sender.frames), (None, 1));
    // s = 1 is below the start of the transfer before, and taken.
    sender.hear(frame::lm_ack(1, 1)).unwrap();
    assert_eq!(sender.phase, Phase::Sending { next: 1, last: 1 });
}

/// Post: one SM_URM in any phase, which no report counts; the sender stays as it was.
#[test]
fn post() {
    let idle = Sender::make(1, 10, 1000).unwrap();
    let before = idle.clone();
    assert_eq!(idle.post(&[1, 2]), Ok(s_frame(frame::sm_urm(&[1, 2]))));
    assert_eq!(idle, before);
    let (mut sender, message) = begun(1, 10, 1000, 9);
    let before = sender.clone();
    let eight = [1, 2, 3, 4, 5, 6, 7, 8];
    assert_eq!(sender.post(&eight), Ok(s_frame(frame::sm_urm(&eight))));
    assert_eq!(sender, before);
    sender.tick(&message).unwrap();
    assert_eq!(sender.hear(frame::lm_nack(1)), Ok(s_failed(1, 1, 1, None)));
}

/// A tick's frames carry what is lent at that tick; SM_ACK is held to the begun message.
#[test]
fn lent_content_is_not_kept() {
    let (mut sender, _) = begun(1, 1, 1000, 3);
    assert_eq!(
        sender.tick(&[9, 9, 9]),
        Ok(s_frame(frame::sm_rm(&[9, 9, 9])))
    );
    assert_eq!(sender.hear(frame::sm_ack(9)), Ok(s_nothing()));
    assert_eq!(sender.hear(frame::sm_ack(1)), Ok(s_sent(1, 2)));
}
