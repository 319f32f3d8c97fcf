//! "Mistakes to shut out", in order, and the ends that "Holding both ends to it" shuts out.

use crate::help::*;
use compare::reference::frame::{self, Frame};
use compare::reference::line::{Bench, Call, Outcome};
use compare::reference::receiver::{Receiver, State};
use compare::reference::sender::{Phase, Sender};

/// "clearing misses on a repeated LM_ACK"
#[test]
fn misses_stay_on_a_repeated_lm_ack() {
    let (mut sender, message) = begun(1, 2, 1000, 9);
    sender.hear(frame::lm_ack(1, 2)).unwrap();
    sender.tick(&message).unwrap();
    sender.tick(&message).unwrap();
    assert_eq!(sender.phase, Phase::Waiting { last: 2 });
    sender.tick(&message).unwrap();
    let last = frame::information(2, &message);
    assert_eq!(sender.tick(&message), Ok(s_frame(last)));
    assert_eq!(sender.misses, 1);
    // The same start, in Waiting and then in Sending.
    for _ in 0..2 {
        sender.hear(frame::lm_ack(1, 2)).unwrap();
        assert_eq!(
            (sender.misses, sender.phase),
            (1, Phase::Sending { next: 1, last: 2 })
        );
    }
    // Two more misses are the third.
    let mut answers = Vec::new();
    for _ in 0..6 {
        answers.push(sender.tick(&message).unwrap());
    }
    assert_eq!(sender.phase, Phase::Idle);
    assert_eq!(
        answers,
        [
            s_frame(frame::information(1, &message)),
            s_frame(last),
            s_nothing(),
            s_frame(last),
            s_nothing(),
            s_failed(2, 10, 8, Some(frame::lm_nack(2))),
        ]
    );
}

/// The other side of it: a higher start clears misses, and so does the first one taken.
#[test]
fn misses_become_0_on_a_new_start() {
    let (mut sender, message) = begun(1, 2, 1000, 21);
    for _ in 0..4 {
        sender.tick(&message).unwrap();
    }
    assert_eq!(sender.misses, 2);
    sender.hear(frame::lm_ack(1, 1)).unwrap();
    assert_eq!((sender.misses, sender.start), (0, Some(1)));
    for _ in 0..3 {
        sender.tick(&message).unwrap();
    }
    assert_eq!(
        (sender.misses, sender.phase),
        (1, Phase::Waiting { last: 1 })
    );
    sender.hear(frame::lm_ack(2, 1)).unwrap();
    assert_eq!((sender.misses, sender.start), (0, Some(2)));
}

/// "restarting wait on a frame that was ignored": the receiver.
#[test]
fn receiver_wait_goes_on_over_ignored_frames() {
    let (mut receiver, mut buffer) = opened(5, 2, 21);
    receiver
        .hear(frame::information(1, &message(21)), &mut buffer)
        .unwrap();
    let ignored = [
        frame::information(1, &message(21)),
        frame::information(3, &message(21)),
        frame::announcement(3, 21), // e is 2
        frame::announcement(2, 9),
    ];
    for frame in ignored {
        assert_eq!(receiver.tick(), r_nothing());
        assert_eq!(receiver.hear(frame, &mut buffer), Ok(r_nothing()));
    }
    assert_eq!(receiver.tick(), r_frame(frame::lm_ack(2, 2)));
}

/// A repeated announcement at e = 1 draws LM_ACK, "nothing else": no new wait, misses kept.
#[test]
fn receiver_wait_goes_on_over_a_repeated_announcement() {
    let (mut receiver, mut buffer) = opened(2, 2, 21);
    receiver.tick();
    assert_eq!(receiver.tick(), r_frame(frame::lm_ack(1, 2)));
    receiver.tick();
    let before = receiver.clone();
    let again = receiver.hear(frame::announcement(3, 21), &mut buffer);
    assert_eq!(again, Ok(r_frame(frame::lm_ack(1, 2))));
    assert_eq!(receiver, before);
    assert_eq!(receiver.tick(), r_frame(frame::lm_ack(1, 2)));
    receiver.tick();
    assert_eq!(receiver.tick(), r_failed(2, Some(frame::lm_nack(2))));
}

/// A tick before each frame; nothing comes of the frame.
fn ticks_over(sender: &mut Sender, message: &[u8], ignored: [Frame; 3]) {
    for frame in ignored {
        assert_eq!(sender.tick(message), Ok(s_nothing()));
        let before = sender.clone();
        assert_eq!(sender.hear(frame), Ok(s_nothing()));
        assert_eq!(*sender, before);
    }
}

/// "restarting wait on a frame that was ignored": the sender.
#[test]
fn sender_wait_goes_on_over_ignored_frames() {
    let (mut sender, message) = begun(1, 4, 1000, 21);
    let ignored = [
        frame::lm_ack(2, 1), // Opening ignores s other than 1
        frame::lm_ack(0, 1),
        frame::lm_ack(1, 0),
    ];
    ticks_over(&mut sender, &message, ignored);
    assert_eq!(
        sender.tick(&message),
        Ok(s_frame(frame::announcement(3, 21)))
    );

    sender.hear(frame::lm_ack(1, 1)).unwrap();
    sender.hear(frame::lm_ack(2, 2)).unwrap();
    sender.tick(&message).unwrap();
    sender.tick(&message).unwrap();
    assert_eq!(sender.phase, Phase::Waiting { last: 3 });
    let ignored = [
        frame::lm_ack(1, 3), // below the last start taken
        frame::endof_ack(3, 20),
        frame::sm_ack(1),
    ];
    ticks_over(&mut sender, &message, ignored);
    assert_eq!(
        sender.tick(&message),
        Ok(s_frame(frame::information(3, &message)))
    );
}

/// "copying filler past L"
#[test]
fn filler_is_not_copied() {
    for length in [9_usize, 13, 14, 15, 1784, 1785] {
        let message = message(length);
        let (mut receiver, mut buffer) = opened(10, 255, length as u16);
        let n = frame::frames_for(length as u16) as u8;
        for i in 1..=n {
            receiver
                .hear(frame::information(i, &message), &mut buffer)
                .unwrap();
        }
        assert_eq!(buffer[..length], message[..]);
        assert!(
            buffer[length..].iter().all(|&byte| byte == 0xEE),
            "length {length}"
        );
    }
}

/// Nor are bytes in the place of filler: in a state that no calls make, where L ends before frame N,
/// a frame that is not judged has none.
#[test]
fn bytes_past_l_are_not_copied() {
    let (mut receiver, mut buffer) = opened(10, 2, 21);
    let State::Open(open) = &mut receiver.state else {
        panic!()
    };
    open.l = 9;
    for i in [1, 2] {
        let frame = frame::information(i, &[i; 14]);
        receiver.hear(frame, &mut buffer).unwrap();
    }
    assert_eq!(buffer[..9], [1, 1, 1, 1, 1, 1, 1, 2, 2]);
    assert_eq!(buffer[9..21], [0xEE; 12]);
}

/// The last frame again after delivery draws EndofACK, and no silence.
#[test]
fn last_frame_again_draws_endof_ack() {
    let (mut receiver, mut buffer) = opened(10, 2, 9);
    let message = message(9);
    receiver
        .hear(frame::information(1, &message), &mut buffer)
        .unwrap();
    receiver
        .hear(frame::information(2, &message), &mut buffer)
        .unwrap();
    let delivered = receiver.clone();
    let kept = buffer.clone();
    for _ in 0..3 {
        let other = frame::information(2, &[0x77; 14]);
        let again = receiver.hear(other, &mut buffer);
        assert_eq!(again, Ok(r_frame(frame::endof_ack(2, 9))));
        // "else ignored"
        for i in [1, 3, 255] {
            let ignored = receiver.hear(frame::information(i, &message), &mut buffer);
            assert_eq!(ignored, Ok(r_nothing()));
        }
        receiver.tick();
    }
    assert_eq!(receiver, delivered);
    assert_eq!(buffer, kept);
}

/// "reopening on a second announcement"
#[test]
fn second_announcement_does_not_reopen() {
    let (mut receiver, mut buffer) = opened(10, 2, 21);
    receiver
        .hear(frame::information(1, &message(21)), &mut buffer)
        .unwrap();
    receiver
        .hear(frame::information(2, &message(21)), &mut buffer)
        .unwrap();
    let before = receiver.clone();
    // The same announcement at e > 1, another one, a bad one and one over K are all ignored.
    for (n, l) in [(3, 21), (2, 9), (3, 20), (9, 9), (255, 1785), (0, 0)] {
        assert_eq!(
            receiver.hear(frame::announcement(n, l), &mut buffer),
            Ok(r_nothing())
        );
        assert_eq!(receiver, before);
    }
}

/// The same over the line: the first transfer dies with its NACK lost, the second begin's frame 0
/// finds the receiver open at e = 2. (A player run has one begin, so it cannot show this.)
#[test]
fn second_begin_finds_the_receiver_open() {
    let sender = Sender::make(1, 50, 3).unwrap();
    let receiver = Receiver::make(2, 2, 1785).unwrap();
    let mut bench = Bench::new(sender, receiver);
    let message = message(21);
    let mut buffer = buffer();
    let mut go = |call| bench.call(call, &message, &mut buffer).unwrap();
    go(Call::Begin);
    go(Call::ForwardHear);
    go(Call::BackHear);
    go(Call::SenderTick);
    go(Call::ForwardHear);
    go(Call::SenderTick);
    go(Call::ForwardLose);
    let over = go(Call::SenderTick);
    assert_eq!(
        over,
        Outcome::Sender(s_failed(3, 3, 4, Some(frame::lm_nack(3))))
    );
    go(Call::ForwardLose);
    go(Call::Begin);
    assert_eq!(go(Call::ForwardRepeat), Outcome::Receiver(r_nothing()));
    assert_eq!(go(Call::ForwardHear), Outcome::Receiver(r_nothing()));
    go(Call::ReceiverTick);
    assert_eq!(
        go(Call::ReceiverTick),
        Outcome::Receiver(r_frame(frame::lm_ack(2, 2)))
    );
    // "Opening ignores s other than 1."
    assert_eq!(go(Call::BackHear), Outcome::Sender(s_nothing()));
    assert_eq!(bench.sender.phase, Phase::Opening);
}

/// "Holding both ends to it", senders: the first LM_ACK is not yet sent, a first tick not yet failed.
#[test]
fn sender_neither_sent_nor_failed_early() {
    let (mut sender, message) = begun(1, 10, 100, 9);
    assert_eq!(sender.tick(&message), Ok(s_nothing()));
    assert_eq!(sender.hear(frame::lm_ack(1, 2)), Ok(s_nothing()));
    assert_eq!(sender.phase, Phase::Sending { next: 1, last: 2 });
}

/// "Holding both ends to it", receivers: an announcement that fits draws LM_ACK, every frame is
/// answered as the rules say, and the buffer gets the bytes of all of them.
#[test]
fn receiver_opens_and_stores_all() {
    let message = message(1785);
    let (mut receiver, mut buffer) = opened(10, 255, 1785);
    assert!(matches!(receiver.state, State::Open(_)));
    for i in 1..255 {
        let answer = receiver.hear(frame::information(i, &message), &mut buffer);
        assert_eq!(answer, Ok(r_nothing()));
    }
    let answer = receiver.hear(frame::information(255, &message), &mut buffer);
    assert_eq!(answer, Ok(r_delivered(255, 1785)));
    assert_eq!(buffer, message);
}
