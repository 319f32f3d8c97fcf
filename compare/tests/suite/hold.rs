//! Document 02, E2: holding a transfer. States and frames are worked out by hand.

use crate::help::*;
use compare::packs::random::Random;
use compare::reference::frame::{self, Frame};
use compare::reference::line::{Bench, Call, Outcome};
use compare::reference::receiver::{self, After, Answer, Connection, Receiver, Report, State};
use compare::reference::sender::{self, Phase, Sender};
use compare::reference::Refused;

fn closed(receiver: &Receiver) -> bool {
    receiver.state == State::Idle { delivered: None }
}

/// LM_ACK s, c as the answer of a call that can be refused.
fn asks(s: u8, c: u8) -> Result<Answer, Refused> {
    Ok(r_frame(frame::lm_ack(s, c)))
}

/// So many timeouts of a held receiver with T 1, each with LM_ACK s, 1.
fn held_timeouts(receiver: &mut Receiver, count: u16, s: u8) {
    for _ in 0..count {
        assert_eq!(receiver.tick(), r_frame(frame::lm_ack(s, 1)));
    }
}

/// Hold: not while frame 1 is expected, from frame 2 on, and not twice.
#[test]
fn hold_from_the_second_frame_on() {
    let (mut receiver, mut buffer) = opened(5, 3, 30);
    let before = receiver.clone();
    assert_eq!(receiver.hold(), Err(Refused(13)));
    assert_eq!(receiver, before);
    let first = frame::information(1, &message(30));
    receiver.hear(first, &mut buffer).unwrap();
    for _ in 0..3 {
        receiver.tick();
    }
    assert_eq!(receiver.hold(), asks(1, 1));
    let held = Connection {
        n: 5,
        l: 30,
        e: 2,
        w: 3,
        wait: 3,
        misses: 0,
        after: After::Ack,
        counted: None,
        held: true,
        holds: 0,
    };
    assert_eq!(receiver.state, State::Open(held));
    assert_eq!(receiver.hold(), Err(Refused(13)));
    assert_eq!(receiver.state, State::Open(held));
}

/// The frame that hold names is the one taken last, whatever the window.
#[test]
fn hold_names_the_frame_before() {
    for (window, count) in [(1, 1), (1, 2), (3, 2), (3, 3), (3, 6), (255, 5)] {
        let (mut receiver, _) = taken(10, window, 49, count);
        assert_eq!(receiver.hold(), asks(count, 1), "{window} {count}");
    }
}

/// T 2, C 3, N 7: a timeout after frame 1, and one tick of the next wait.
fn missed_once() -> (Receiver, Connection) {
    let (mut receiver, _) = taken(2, 3, 49, 1);
    receiver.tick();
    assert_eq!(receiver.tick(), r_frame(frame::lm_ack(2, 3)));
    receiver.tick();
    let missed = Connection {
        n: 7,
        l: 49,
        e: 2,
        w: 4,
        wait: 1,
        misses: 1,
        after: After::Ack,
        counted: Some(After::Frame),
        held: false,
        holds: 0,
    };
    assert_eq!(open(&receiver), missed);
    (receiver, missed)
}

/// Neither call alters wait or misses, and a timeout while held is no miss.
#[test]
fn wait_and_misses_across_a_hold() {
    let (mut receiver, missed) = missed_once();
    assert_eq!(receiver.hold(), asks(1, 1));
    let held = Connection {
        held: true,
        ..missed
    };
    assert_eq!(open(&receiver), held);
    // The wait goes on from 1, so the next tick is a timeout.
    assert_eq!(receiver.tick(), r_frame(frame::lm_ack(1, 1)));
    let once = Connection {
        wait: 0,
        holds: 1,
        ..held
    };
    assert_eq!(open(&receiver), once);
    assert_eq!(receiver.tick(), r_nothing());
    assert_eq!(receiver.resume(), asks(2, 3));
    let resumed = Connection {
        wait: 1,
        held: false,
        ..once
    };
    assert_eq!(open(&receiver), resumed);
    // The miss that stands is one after frame 1, so the first after an LM_ACK begins the count (E4).
    // Then the second, and then the third.
    assert_eq!(receiver.tick(), r_frame(frame::lm_ack(2, 3)));
    let begun = Connection {
        wait: 0,
        counted: Some(After::Ack),
        ..resumed
    };
    assert_eq!(open(&receiver), begun);
    receiver.tick();
    assert_eq!(receiver.tick(), r_frame(frame::lm_ack(2, 3)));
    assert_eq!(open(&receiver).misses, 2);
    receiver.tick();
    assert_eq!(receiver.tick(), gives_up());
}

/// A hold keeps even a second miss from becoming the third. Before the two there is a timeout after
/// frame 1, which is of another type (E4).
#[test]
fn two_misses_and_a_hold() {
    let (mut receiver, _) = taken(1, 2, 21, 1);
    for _ in 0..3 {
        receiver.tick();
    }
    receiver.hold().unwrap();
    held_timeouts(&mut receiver, 20, 1);
    assert_eq!((open(&receiver).misses, open(&receiver).holds), (2, 20));
    receiver.resume().unwrap();
    assert_eq!(receiver.tick(), gives_up());
}

/// Twenty timeouts, three ticks apart, each with its LM_ACK; in place of one more the receiver fails.
#[test]
fn the_twenty_first_held_timeout_fails() {
    let (mut receiver, mut buffer) = taken(3, 2, 21, 1);
    assert_eq!(receiver.hold(), asks(1, 1));
    for holds in 1..=20 {
        assert_eq!(receiver.tick(), r_nothing());
        assert_eq!(receiver.tick(), r_nothing());
        assert_eq!(receiver.tick(), r_frame(frame::lm_ack(1, 1)));
        let now = open(&receiver);
        assert_eq!((now.holds, now.wait, now.misses), (holds, 0, 0));
        assert_eq!((now.e, now.w, now.held), (2, 2, true));
    }
    assert_eq!(receiver.tick(), r_nothing());
    assert_eq!(receiver.tick(), r_nothing());
    assert_eq!(receiver.tick(), gives_up());
    assert!(closed(&receiver));
    // Nothing is held any more, and nothing was delivered.
    assert_eq!(receiver.resume(), Err(Refused(13)));
    let last = frame::information(3, &message(21));
    assert_eq!(receiver.hear(last, &mut buffer), Ok(r_nothing()));
}

/// The count is the connection's: 12 timeouts in one hold leave 8 to the next.
#[test]
fn resume_keeps_the_count() {
    let (mut receiver, _) = taken(1, 1, 21, 1);
    receiver.hold().unwrap();
    held_timeouts(&mut receiver, 12, 1);
    assert_eq!(receiver.resume(), asks(2, 1));
    assert_eq!(open(&receiver).holds, 12);
    assert_eq!(receiver.hold(), asks(1, 1));
    assert_eq!(open(&receiver).holds, 12);
    held_timeouts(&mut receiver, 8, 1);
    assert_eq!(receiver.tick(), gives_up());
    assert!(closed(&receiver));
}

/// Neither a frame taken nor a miss between two holds gives timeouts back.
#[test]
fn progress_keeps_the_count() {
    let (mut receiver, mut buffer) = taken(1, 1, 28, 1);
    receiver.hold().unwrap();
    held_timeouts(&mut receiver, 19, 1);
    receiver.resume().unwrap();
    assert_eq!(receiver.tick(), r_frame(frame::lm_ack(2, 1)));
    let second = frame::information(2, &message(28));
    assert_eq!(receiver.hear(second, &mut buffer), asks(3, 1));
    assert_eq!((open(&receiver).misses, open(&receiver).holds), (0, 19));
    assert_eq!(receiver.hold(), asks(2, 1));
    held_timeouts(&mut receiver, 1, 2);
    assert_eq!(receiver.tick(), gives_up());
}

/// While held no frame of kind 1 is taken or answered, whatever its number: state and buffer stay.
#[test]
fn information_while_held() {
    let (mut receiver, mut buffer) = taken(10, 3, 30, 2);
    receiver.tick();
    receiver.hold().unwrap();
    let before = (receiver.clone(), buffer.clone());
    let announced = [(5, 30), (2, 9), (0, 0), (5, 31), (255, 1785), (255, 65535)];
    let numbered = [1, 2, 3, 4, 5, 6, 7, 254, 255];
    let frames = announced
        .map(|(n, l)| frame::announcement(n, l))
        .into_iter()
        .chain(numbered.map(|i| frame::information(i, &[0x77; 1785])));
    for frame in frames {
        let answer = receiver.hear(frame, &mut buffer);
        assert_eq!(answer, Ok(r_nothing()), "{frame:?}");
        assert_eq!((receiver.clone(), buffer.clone()), before, "{frame:?}");
    }
    // The wait has gone on: one tick before the hold and nine after it.
    for _ in 0..8 {
        assert_eq!(receiver.tick(), r_nothing());
    }
    assert_eq!(receiver.tick(), r_frame(frame::lm_ack(2, 1)));
    // After resume the frame expected is taken: 3 of 5, with w = 5.
    assert_eq!(receiver.resume(), asks(3, 3));
    let third = frame::information(3, &message(30));
    assert_eq!(receiver.hear(third, &mut buffer), Ok(r_nothing()));
    assert_eq!(buffer[14..21], message(30)[14..21]);
    assert_eq!((open(&receiver).e, open(&receiver).w), (4, 5));
}

/// Not even the announcement of this connection where e is 1, a state that no calls make.
#[test]
fn announcement_while_held_at_frame_1() {
    let (mut receiver, mut buffer) = opened(10, 3, 30);
    let State::Open(open) = &mut receiver.state else {
        panic!()
    };
    open.held = true;
    let before = receiver.clone();
    let answer = receiver.hear(frame::announcement(5, 30), &mut buffer);
    assert_eq!((answer, receiver), (Ok(r_nothing()), before));
}

/// The frame that would complete the message is ignored as well.
#[test]
fn last_frame_while_held() {
    let (mut receiver, mut buffer) = taken(10, 3, 21, 2);
    receiver.hold().unwrap();
    let last = frame::information(3, &message(21));
    assert_eq!(receiver.hear(last, &mut buffer), Ok(r_nothing()));
    assert_eq!(buffer[14..21], [0xEE; 7]);
    assert_eq!(receiver.resume(), asks(3, 1));
    assert_eq!(receiver.hear(last, &mut buffer), Ok(r_delivered(3, 21)));
    assert_eq!(buffer[..21], message(21)[..]);
}

/// Short messages are delivered beside a held transfer as beside any other.
#[test]
fn short_messages_while_held() {
    let (mut receiver, mut buffer) = taken(10, 3, 30, 2);
    receiver.hold().unwrap();
    let before = (receiver.clone(), buffer.clone());
    let bytes = [0x21, 0x22, 0xFF, 0xFF, 0xFF, 0xFF, 0xFF, 0xFF];
    for (heard, frame) in [
        (frame::sm_rm(&bytes[..2]), Some(frame::sm_ack(0x21))),
        (frame::sm_urm(&bytes[..2]), None),
    ] {
        let report = Some(Report::Short(bytes));
        let answer = receiver.hear(heard, &mut buffer);
        assert_eq!(answer, Ok(Answer { frame, report }));
        assert_eq!((receiver.clone(), buffer.clone()), before);
    }
}

/// LM_NACK closes a held connection, and the next one is not held.
#[test]
fn nack_while_held() {
    let (mut receiver, mut buffer) = taken(1, 3, 30, 2);
    receiver.hold().unwrap();
    held_timeouts(&mut receiver, 5, 2);
    let answer = receiver.hear(frame::lm_nack(3), &mut buffer);
    assert_eq!(answer, Ok(r_failed(1, None)));
    assert!(closed(&receiver));
    assert_eq!(receiver.hold(), Err(Refused(13)));
    assert_eq!(receiver.resume(), Err(Refused(13)));
    let announced = receiver.hear(frame::announcement(3, 21), &mut buffer);
    assert_eq!(announced, asks(1, 3));
    let fresh = Connection {
        n: 3,
        l: 21,
        e: 1,
        w: 3,
        wait: 0,
        misses: 0,
        after: After::Ack,
        counted: None,
        held: false,
        holds: 0,
    };
    assert_eq!(open(&receiver), fresh);
    let first = frame::information(1, &message(21));
    assert_eq!(receiver.hear(first, &mut buffer), Ok(r_nothing()));
    assert_eq!(open(&receiver).e, 2);
}

/// A connection after one that used up its held timeouts has 20 of its own.
#[test]
fn a_new_connection_counts_from_0() {
    let (mut receiver, mut buffer) = taken(1, 1, 21, 1);
    for _ in 0..2 {
        receiver.hold().unwrap();
        held_timeouts(&mut receiver, 20, 1);
        assert_eq!(receiver.tick(), gives_up());
        let announced = receiver.hear(frame::announcement(3, 21), &mut buffer);
        assert_eq!(announced, asks(1, 1));
        assert_eq!((open(&receiver).held, open(&receiver).holds), (false, 0));
        let first = frame::information(1, &message(21));
        assert_eq!(receiver.hear(first, &mut buffer), asks(2, 1));
    }
    // After a delivery too.
    receiver.hold().unwrap();
    held_timeouts(&mut receiver, 7, 1);
    receiver.resume().unwrap();
    for i in [2, 3] {
        let frame = frame::information(i, &message(21));
        receiver.hear(frame, &mut buffer).unwrap();
    }
    assert_eq!(receiver.hold(), Err(Refused(13)));
    receiver
        .hear(frame::announcement(3, 21), &mut buffer)
        .unwrap();
    assert_eq!((open(&receiver).held, open(&receiver).holds), (false, 0));
}

/// Resume asks for a whole window from e on, or what is left, and goes by that window afterwards.
#[test]
fn resume_moves_the_window() {
    for (count, old, new, c) in [(1, 3, 4, 3), (2, 3, 5, 3), (3, 6, 6, 3), (5, 6, 7, 2)] {
        let (mut receiver, _) = taken(10, 3, 49, count);
        assert_eq!(open(&receiver).w, old);
        receiver.hold().unwrap();
        assert_eq!(open(&receiver).w, old);
        assert_eq!(receiver.resume(), asks(count + 1, c));
        assert_eq!(open(&receiver).w, new);
        assert_eq!(receiver.resume(), Err(Refused(13)));
    }
    // e 3 and the window 3 to 5: frame 3, the old end, draws nothing, frame 5 the next window.
    let (mut receiver, mut buffer) = taken(10, 3, 49, 2);
    receiver.hold().unwrap();
    receiver.resume().unwrap();
    for (i, answer) in [(3, Ok(r_nothing())), (4, Ok(r_nothing())), (5, asks(6, 2))] {
        let frame = frame::information(i, &message(49));
        assert_eq!(receiver.hear(frame, &mut buffer), answer, "{i}");
    }
}

/// A sender of gap 2, T 3 and N 5 in Waiting: start 2 taken, frames 2 to 4 sent, one miss, one tick of
/// the next wait.
fn waiting() -> (Sender, Vec<u8>) {
    let (mut sender, message) = begun(2, 3, 1000, 30);
    sender.hear(frame::lm_ack(1, 1)).unwrap();
    ticks(&mut sender, &message, 2);
    sender.hear(frame::lm_ack(2, 3)).unwrap();
    ticks(&mut sender, &message, 6 + 3 + 1);
    assert_eq!(sender.phase, Phase::Waiting { last: 4 });
    assert_eq!(counts(&sender), (1, 1, Some(2)));
    (sender, message)
}

/// The same, asked for 2 to 4 again: in Sending, a tick before frame 2.
fn sending() -> (Sender, Vec<u8>) {
    let (mut sender, message) = waiting();
    sender.hear(frame::lm_ack(2, 3)).unwrap();
    ticks(&mut sender, &message, 1);
    assert_eq!(sender.phase, Phase::Sending { next: 2, last: 4 });
    assert_eq!((sender.gap_count, sender.misses), (1, 1));
    (sender, message)
}

fn ticks(sender: &mut Sender, message: &[u8], count: usize) {
    for _ in 0..count {
        sender.tick(message).unwrap();
    }
}

fn counts(sender: &Sender) -> (u16, u16, Option<u8>) {
    (sender.wait, sender.misses, sender.start)
}

/// LM_ACK one below the last start with count 1, in Waiting and in Sending: that frame goes out once,
/// G ticks later, and the sender waits; the last start stands and the misses are gone.
#[test]
fn the_frame_before_the_last_start() {
    for (mut sender, message) in [waiting(), sending()] {
        let before = sender.clone();
        assert_eq!(sender.hear(frame::lm_ack(1, 1)), Ok(s_nothing()));
        let asked = Sender {
            phase: Phase::Sending { next: 1, last: 1 },
            gap_count: 0,
            misses: 0,
            ..before
        };
        assert_eq!(sender, asked);
        let first = s_frame(frame::information(1, &message));
        assert_eq!(sender.tick(&message), Ok(s_nothing()));
        assert_eq!(sender.tick(&message), Ok(first));
        assert_eq!(sender.phase, Phase::Waiting { last: 1 });
        assert_eq!(counts(&sender), (0, 0, Some(2)));
        // Nothing more of the window; a timeout brings the same frame.
        assert_eq!(sender.tick(&message), Ok(s_nothing()));
        assert_eq!(sender.tick(&message), Ok(s_nothing()));
        assert_eq!(sender.tick(&message), Ok(first));
        // The kept start again is no new one: its miss stands.
        assert_eq!(sender.hear(frame::lm_ack(2, 3)), Ok(s_nothing()));
        assert_eq!(sender.phase, Phase::Sending { next: 2, last: 4 });
        assert_eq!((sender.misses, sender.start), (1, Some(2)));
    }
}

/// Asked for it again and again, in the Sending and the Waiting that come of it, the rule still holds.
#[test]
fn the_frame_before_again() {
    let (mut sender, message) = waiting();
    for _ in 0..20 {
        sender.hear(frame::lm_ack(1, 1)).unwrap();
        ticks(&mut sender, &message, 1);
        sender.hear(frame::lm_ack(1, 1)).unwrap();
        assert_eq!((sender.gap_count, sender.start), (0, Some(2)));
        // Frame 1 at the gap's end, and two misses.
        ticks(&mut sender, &message, 2 + 3 + 3);
        assert_eq!(sender.phase, Phase::Waiting { last: 1 });
        assert_eq!(counts(&sender), (0, 2, Some(2)));
    }
}

/// What the rule does not take is ignored as before: another count, start 0, two below and lower.
#[test]
fn other_starts_below_the_last() {
    let high = || {
        let (mut sender, message) = begun(2, 3, 1000, 30);
        sender.hear(frame::lm_ack(1, 1)).unwrap();
        sender.hear(frame::lm_ack(4, 2)).unwrap();
        ticks(&mut sender, &message, 1);
        sender
    };
    let mut sent = high();
    ticks(&mut sent, &message(30), 3 + 2);
    assert_eq!(sent.phase, Phase::Waiting { last: 5 });
    for sender in [high(), sent] {
        for (s, c) in [
            (3, 0),
            (3, 2),
            (3, 3),
            (3, 255),
            (2, 1),
            (1, 1),
            (2, 2),
            (0, 1),
        ] {
            let mut called = sender.clone();
            assert_eq!(called.hear(frame::lm_ack(s, c)), Ok(s_nothing()));
            assert_eq!(called, sender, "{s} {c}");
        }
        let mut called = sender.clone();
        called.hear(frame::lm_ack(3, 1)).unwrap();
        assert_eq!(called.phase, Phase::Sending { next: 3, last: 3 });
        // The last start is still 4: 2 is two below.
        let before = called.clone();
        assert_eq!(called.hear(frame::lm_ack(2, 1)), Ok(s_nothing()));
        assert_eq!(called, before);
    }
    // Start 1 has only 0 below it.
    let (mut sender, message) = begun(2, 3, 1000, 30);
    sender.hear(frame::lm_ack(1, 1)).unwrap();
    ticks(&mut sender, &message, 2 + 3);
    let before = sender.clone();
    assert_eq!(sender.hear(frame::lm_ack(0, 1)), Ok(s_nothing()));
    assert_eq!(sender, before);
}

/// No start has been taken in Opening, and Short and Idle take no LM_ACK.
#[test]
fn the_rule_in_no_other_phase() {
    let (opening, _) = begun(1, 10, 1000, 30);
    let (short, _) = begun(1, 10, 1000, 8);
    let (mut idle, _) = waiting();
    idle.hear(frame::lm_nack(1)).unwrap();
    for sender in [opening, short, idle] {
        for (s, c) in [(0, 1), (2, 1), (4, 1)] {
            let mut called = sender.clone();
            assert_eq!(called.hear(frame::lm_ack(s, c)), Ok(s_nothing()));
            assert_eq!(called, sender, "{s} {c}");
        }
    }
    // The number above N goes before the rule wherever both would stand.
    let (mut sender, _) = waiting();
    sender.start = Some(7);
    let failed = s_failed(4, 12, 7, Some(frame::lm_nack(4)));
    assert_eq!(sender.hear(frame::lm_ack(6, 1)), Ok(failed));
}

/// The frame sent again is one of the transfer's: all else is heard meanwhile as ever, and reports
/// count it.
#[test]
fn hearing_while_the_frame_before_goes() {
    let (mut sender, message) = waiting();
    sender.hear(frame::lm_ack(1, 1)).unwrap();
    // Begin, frames 1 to 4, and 4 again.
    let mut ended = sender.clone();
    assert_eq!(ended.hear(frame::endof_ack(5, 30)), Ok(s_sent(12, 6)));
    let mut ended = sender.clone();
    assert_eq!(ended.hear(frame::lm_nack(2)), Ok(s_failed(1, 12, 6, None)));
    ticks(&mut sender, &message, 2);
    assert_eq!(sender.hear(frame::endof_ack(5, 30)), Ok(s_sent(14, 7)));
}

/// What a list of calls emits and reports, call by call.
#[derive(Debug, PartialEq, Eq)]
enum Seen {
    Nothing,
    Frame(Frame),
    Delivered(Frame, u16),
    Sent(u16, u16),
    Refused(u8),
}

fn seen(outcome: Result<Outcome, Refused>) -> Seen {
    match outcome {
        Err(Refused(number)) => Seen::Refused(number),
        Ok(Outcome::Sender(sender::Answer { frame, report })) => match (frame, report) {
            (None, None) => Seen::Nothing,
            (Some(frame), None) => Seen::Frame(frame),
            (None, Some(sender::Report::Sent { ticks, frames })) => Seen::Sent(ticks, frames),
            other => panic!("{other:?}"),
        },
        Ok(Outcome::Receiver(receiver::Answer { frame, report })) => match (frame, report) {
            (None, None) => Seen::Nothing,
            (Some(frame), None) => Seen::Frame(frame),
            (Some(frame), Some(Report::Delivered { l })) => Seen::Delivered(frame, l),
            other => panic!("{other:?}"),
        },
        Ok(Outcome::Nothing) => Seen::Nothing,
    }
}

fn frame(kind: u8, data: [u8; 8]) -> Seen {
    Seen::Frame(Frame { kind, data })
}

fn lm_ack(s: u8, c: u8) -> Seen {
    frame(2, [s, c, 0xFF, 0xFF, 0xFF, 0xFF, 0xFF, 0xFF])
}

/// Plays the calls on 21 bytes 1 to 21, and holds each to what is to be seen.
fn follow(window: u8, calls: &[(Call, Seen)]) {
    let sender = Sender::make(1, 4, 100).unwrap();
    let receiver = Receiver::make(3, window, 1785).unwrap();
    let mut bench = Bench::new(sender, receiver);
    let mut buffer = buffer();
    for (place, (call, expected)) in calls.iter().enumerate() {
        let found = seen(bench.call(*call, &message(21), &mut buffer));
        assert_eq!(found, *expected, "call {place}, {call:?}");
    }
    assert_eq!(buffer[..21], message(21)[..]);
    assert!(buffer[21..].iter().all(|&byte| byte == 0xEE));
    assert!(bench.line_is_empty());
}

const F: u8 = 0xFF;
const ANNOUNCED: [u8; 8] = [0, 3, 21, 0, F, F, F, F];
const FIRST: [u8; 8] = [1, 1, 2, 3, 4, 5, 6, 7];
const SECOND: [u8; 8] = [2, 8, 9, 10, 11, 12, 13, 14];
const THIRD: [u8; 8] = [3, 15, 16, 17, 18, 19, 20, 21];
const END: Frame = Frame {
    kind: 4,
    data: [3, 21, 0, F, F, F, F, F],
};

/// A whole transfer with a hold, N 3 and C 1, G 1, sender's T 4, receiver's T 3.
#[test]
fn a_held_transfer_with_window_1() {
    follow(
        1,
        &[
            (Call::Hold, Seen::Refused(13)),
            (Call::Begin, frame(1, ANNOUNCED)),
            (Call::ForwardHear, lm_ack(1, 1)),
            // Open, but frame 1 is expected.
            (Call::Hold, Seen::Refused(13)),
            (Call::Resume, Seen::Refused(13)),
            (Call::BackHear, Seen::Nothing),
            (Call::SenderTick, frame(1, FIRST)),
            (Call::ForwardHear, lm_ack(2, 1)),
            (Call::BackHear, Seen::Nothing),
            (Call::Hold, lm_ack(1, 1)),
            (Call::Hold, Seen::Refused(13)),
            // Frame 2 is under way already: it meets the hold and is ignored.
            (Call::SenderTick, frame(1, SECOND)),
            (Call::ForwardHear, Seen::Nothing),
            // Last start 2: LM_ACK 1, 1 brings frame 1 once.
            (Call::BackHear, Seen::Nothing),
            (Call::SenderTick, frame(1, FIRST)),
            (Call::ForwardHear, Seen::Nothing),
            (Call::ReceiverTick, Seen::Nothing),
            (Call::ReceiverTick, Seen::Nothing),
            (Call::ReceiverTick, lm_ack(1, 1)),
            (Call::BackHear, Seen::Nothing),
            (Call::SenderTick, frame(1, FIRST)),
            (Call::ForwardHear, Seen::Nothing),
            (Call::Resume, lm_ack(2, 1)),
            (Call::Resume, Seen::Refused(13)),
            (Call::BackHear, Seen::Nothing),
            (Call::SenderTick, frame(1, SECOND)),
            (Call::ForwardHear, lm_ack(3, 1)),
            (Call::BackHear, Seen::Nothing),
            (Call::SenderTick, frame(1, THIRD)),
            (Call::ForwardHear, Seen::Delivered(END, 21)),
            // Ticks 6; frames 0, 1, 2, 1, 1, 2, 3.
            (Call::BackHear, Seen::Sent(6, 7)),
        ],
    );
}

/// The same with C 2: a hold inside the window, whose LM_ACK names the last start itself; and one at
/// the last frame, where the window is 3 alone. A refused call stands between.
#[test]
fn a_held_transfer_with_window_2() {
    follow(
        2,
        &[
            (Call::Begin, frame(1, ANNOUNCED)),
            (Call::ForwardHear, lm_ack(1, 2)),
            (Call::BackHear, Seen::Nothing),
            (Call::SenderTick, frame(1, FIRST)),
            (Call::ForwardHear, Seen::Nothing),
            // e 2, w 2, last start 1.
            (Call::Hold, lm_ack(1, 1)),
            (Call::BackHear, Seen::Nothing),
            (Call::SenderTick, frame(1, FIRST)),
            (Call::ForwardHear, Seen::Nothing),
            // w moves to 3.
            (Call::Resume, lm_ack(2, 2)),
            (Call::BackHear, Seen::Nothing),
            (Call::SenderTick, frame(1, SECOND)),
            (Call::ForwardHear, Seen::Nothing),
            // e 3, last start 2: LM_ACK 2, 1 is that start.
            (Call::Hold, lm_ack(2, 1)),
            (Call::Resume, lm_ack(3, 1)),
            (Call::BackHear, Seen::Nothing),
            (Call::BackHear, Seen::Nothing),
            // Last start 3 now, and LM_ACK 2, 1 is the frame before.
            (Call::Hold, lm_ack(2, 1)),
            (Call::BackHear, Seen::Nothing),
            (Call::SenderTick, frame(1, SECOND)),
            (Call::ForwardHear, Seen::Nothing),
            (Call::Begin, Seen::Refused(3)),
            (Call::Resume, lm_ack(3, 1)),
            (Call::BackHear, Seen::Nothing),
            (Call::SenderTick, frame(1, THIRD)),
            (Call::ForwardHear, Seen::Delivered(END, 21)),
            // Ticks 5; frames 0, 1, 1, 2, 2, 3.
            (Call::BackHear, Seen::Sent(5, 6)),
        ],
    );
}

/// A hold inside a window names the last start itself, so it clears no misses: a sender with T 2 and
/// start 1 gives up at its third, however often it is asked.
#[test]
fn a_hold_inside_a_window_clears_no_misses() {
    let (mut sender, message) = begun(1, 2, 1000, 21);
    sender.hear(frame::lm_ack(1, 2)).unwrap();
    for misses in 0..2 {
        assert_eq!(sender.hear(frame::lm_ack(1, 1)), Ok(s_nothing()));
        assert_eq!((sender.misses, sender.start), (misses, Some(1)));
        // Frame 1, and a whole wait.
        ticks(&mut sender, &message, 1 + 2);
    }
    sender.hear(frame::lm_ack(1, 1)).unwrap();
    ticks(&mut sender, &message, 1 + 1);
    // Nine ticks; frame 0, frame 1 three times, twice more at the misses, and the NACK.
    let failed = s_failed(2, 9, 7, Some(frame::lm_nack(2)));
    assert_eq!(sender.tick(&message), Ok(failed));
}

/// LM_ACKs of an earlier transfer can make a sender meet the rule with no hold: the old LM_ACK 1, 1 and
/// 2, 1, which it takes for its own, are followed by LM_ACK 1, 1 of its own connection. It then sends
/// frame 1, and the transfer goes on.
#[test]
fn old_lm_acks_meet_the_rule() {
    let message = message(9);
    let sender = Sender::make(1, 10, 2).unwrap();
    let mut bench = Bench::new(sender, Receiver::make(10, 1, 1785).unwrap());
    let mut buffer = buffer();
    for call in [
        Call::Begin,
        Call::ForwardHear,
        Call::BackRepeat,
        Call::SenderTick,
        Call::ForwardHear,
        // The sending time is over: NACK 3 closes the connection.
        Call::SenderTick,
        Call::ForwardHear,
        Call::Begin,
        Call::BackHear,
        Call::BackHear,
        Call::ForwardHear,
    ] {
        bench.call(call, &message, &mut buffer).unwrap();
    }
    assert_eq!(bench.sender.start, Some(2));
    assert_eq!(bench.back.repeat(), Some(frame::lm_ack(1, 1)));
    bench.call(Call::BackHear, &message, &mut buffer).unwrap();
    assert_eq!(bench.sender.phase, Phase::Sending { next: 1, last: 1 });
    assert_eq!(bench.sender.start, Some(2));
}

/// A run on which chance draws the calls, holds and resumes among them.
struct Run {
    bench: Bench,
    message: Vec<u8>,
    buffer: Vec<u8>,
    /// Receiver ticks of the connection that is open.
    ticks: usize,
    /// Held timeouts that the last connection had.
    holds: u16,
    deliveries: usize,
}

impl Run {
    fn begun(random: &mut Random) -> Run {
        let gap = random.between(1, 2) as u8;
        let timeout = random.between(1, 9) as u16;
        let sender = Sender::make(gap, timeout, 60000);
        let timeout = random.between(1, 5) as u16;
        let receiver = Receiver::make(timeout, random.between(1, 4) as u8, 1785);
        let length = random.between(9, 40);
        let mut run = Run {
            bench: Bench::new(sender.unwrap(), receiver.unwrap()),
            message: (0..length).map(|_| random.byte()).collect(),
            buffer: buffer(),
            ticks: 0,
            holds: 0,
            deliveries: 0,
        };
        run.call(Call::Begin);
        run
    }

    /// One call, and what E2 and E4 leave of demand 3 after it: a delivery is the very message, sent
    /// comes after one, and a connection is over by tick T x (4 x N + 19) - (N - 1), which is before
    /// 4 x T x N + 21 x T (`types.rs` has the working). Only holds and resumes are refused.
    fn call(&mut self, call: Call) -> Option<sender::Report> {
        let mut sent = None;
        match self.bench.call(call, &self.message, &mut self.buffer) {
            Err(refused) => assert_eq!(refused, Refused(13)),
            Ok(Outcome::Nothing) => {}
            Ok(Outcome::Sender(answer)) => {
                sent = answer.report;
                assert!(self.deliveries > 0 || !matches!(sent, Some(sender::Report::Sent { .. })));
            }
            Ok(Outcome::Receiver(answer)) => self.deliver(answer.report),
        }
        let timeout = usize::from(self.bench.receiver.timeout);
        match self.bench.receiver.state {
            State::Idle { .. } => self.ticks = 0,
            State::Open(open) => {
                self.holds = open.holds;
                self.ticks += usize::from(call == Call::ReceiverTick);
                let n = usize::from(open.n);
                assert!(self.ticks < timeout * (4 * n + 19) - (n - 1));
            }
        }
        sent
    }

    fn deliver(&mut self, report: Option<Report>) {
        if let Some(Report::Delivered { l }) = report {
            let (told, rest) = self.buffer.split_at(usize::from(l));
            assert_eq!(told, self.message);
            assert!(rest.iter().all(|&byte| byte == 0xEE));
            self.deliveries += 1;
        }
    }
}

/// Now and then a hold or a resume, now and then a loss or a repeat; else what brings the transfer
/// forward, or time.
fn drawn(random: &mut Random, bench: &Bench) -> Call {
    match random.weighted(&[4, 3, 2, 2, 2, 2, 25, 60]) {
        0 => Call::Hold,
        1 => Call::Resume,
        2 => Call::ForwardLose,
        3 => Call::ForwardRepeat,
        4 => Call::BackLose,
        5 => Call::BackRepeat,
        6 => Call::ReceiverTick,
        _ if !bench.back.is_empty() => Call::BackHear,
        _ if !bench.forward.is_empty() => Call::ForwardHear,
        _ => Call::SenderTick,
    }
}

/// Chance runs with holds. They are worth something only if transfers that were held are sent, and
/// some use up what they have.
#[test]
fn chance_runs_with_holds() {
    let mut random = Random::new(2027);
    let (mut sent_after_holds, mut most) = (0, 0);
    for _ in 0..3000 {
        let mut run = Run::begun(&mut random);
        for _ in 0..400 {
            let call = drawn(&mut random, &run.bench);
            let report = run.call(call);
            most = most.max(run.holds);
            if report.is_some() {
                let sent = matches!(report, Some(sender::Report::Sent { .. }));
                sent_after_holds += usize::from(sent && run.holds > 0);
                break;
            }
        }
    }
    assert!(sent_after_holds > 500, "{sent_after_holds}");
    assert_eq!(most, 20);
}
