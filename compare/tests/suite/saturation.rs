//! Counts at their ends: no call overflows, and a count that would pass 65535 stays there.

use crate::help::*;
use compare::reference::frame;
use compare::reference::receiver::{After, Connection, Receiver, State};
use compare::reference::sender::{Phase, Sender};
use compare::reference::Refused;

/// The most a reachable transfer counts: a frame at every tick up to M = 60000, and begin's.
#[test]
fn most_frames_of_a_transfer() {
    let (mut sender, message) = begun(1, 10000, 60000, 1785);
    let mut answer = s_nothing();
    for _ in 0..60000 {
        sender.hear(frame::lm_ack(1, 255)).unwrap();
        answer = sender.tick(&message).unwrap();
    }
    assert_eq!(answer, s_failed(3, 60000, 60001, Some(frame::lm_nack(3))));
}

#[test]
fn sender_counts_stay_at_65535() {
    let message = message(21);
    let phases = [
        Phase::Opening,
        Phase::Sending { next: 1, last: 3 },
        Phase::Sending {
            next: 255,
            last: 255,
        },
        Phase::Sending { next: 200, last: 3 },
        Phase::Waiting { last: 255 },
        Phase::Waiting { last: 0 },
        Phase::Short,
    ];
    for phase in phases {
        for count in [65534, 65535] {
            let mut sender = Sender::make(1, 1, 60000).unwrap();
            sender.phase = phase;
            sender.length = 21;
            sender.age = count;
            sender.frames = count;
            sender.misses = count;
            // A timeout or a frame at this very tick, and then every count at its end.
            for wait in [0, count] {
                let mut called = sender.clone();
                called.wait = wait;
                called.gap_count = wait;
                called.tick(&message).unwrap();
                assert_eq!(called.age, 65535);
                assert!(called.wait == 0 || called.wait >= wait);
                called.hear(frame::lm_ack(255, 255)).unwrap();
                assert!(called.frames >= count);
            }
        }
    }
    // A closing frame at the end of the count.
    let (mut sender, message) = begun(1, 1, 1, 9);
    sender.frames = 65535;
    assert_eq!(
        sender.tick(&message),
        Ok(s_failed(3, 1, 65535, Some(frame::lm_nack(3))))
    );
}

/// An open connection, at one end of its counts.
fn counted(n: u8, l: u16, e: u8, w: u8, count: u16) -> Connection {
    Connection {
        n,
        l,
        e,
        w,
        wait: count,
        misses: count,
        after: After::Ack,
        counted: (count > 0).then_some(After::Ack),
        held: false,
        holds: 0,
    }
}

#[test]
fn receiver_counts_stay_at_65535() {
    let mut buffer = buffer();
    for timeout in [1, 10000] {
        for window in [1, 255] {
            for (n, l) in [(2, 9), (255, 1785), (255, 65535), (255, 0), (0, 9)] {
                for e in [0, 1, 254, 255] {
                    for w in [0, 1, 255] {
                        for count in [0, 65535] {
                            let mut receiver = Receiver::make(timeout, window, 9).unwrap();
                            receiver.state = State::Open(counted(n, l, e, w, count));
                            for i in [1, e.max(1), 255] {
                                let frame = frame::information(i, &[1; 1785]);
                                let answer = receiver.clone().hear(frame, &mut buffer);
                                // Frame 255 of no bytes is all filler.
                                let dirty = (l, e, i) == (0, 255, 255);
                                assert_eq!(answer.err(), dirty.then_some(Refused(14)));
                            }
                            receiver
                                .clone()
                                .hear(frame::announcement(n, l), &mut buffer)
                                .unwrap();
                            receiver.tick();
                        }
                    }
                }
            }
        }
    }
}

/// Misses past the third, as no calls make them: one more of their type stays at 65535, one of the other
/// type begins at 1.
#[test]
fn misses_by_type_stay_at_65535() {
    let (receiver, _) = taken(1, 3, 49, 1);
    for after in [After::Ack, After::Frame] {
        for counted in [After::Ack, After::Frame] {
            for misses in [65534, 65535] {
                let mut called = receiver.clone();
                let mut built = open(&called);
                (built.misses, built.counted, built.after) = (misses, Some(counted), after);
                called.state = State::Open(built);
                assert_eq!(called.tick(), r_frame(frame::lm_ack(2, 3)));
                let expected = if counted == after { 65535 } else { 1 };
                assert_eq!(open(&called).misses, expected);
                assert_eq!(open(&called).counted, Some(after));
            }
        }
    }
}

/// No held connection overflows either, whatever a caller has built: e - 1 stays at 0, and a count past
/// the last held timeout stays at 65535.
#[test]
fn held_counts_stay_at_65535() {
    for (e, start) in [(0, 0), (1, 0), (2, 1), (255, 254)] {
        for holds in [21, 65534, 65535] {
            let mut receiver = Receiver::make(1, 255, 9).unwrap();
            let open = Connection {
                n: 255,
                l: 1785,
                e,
                w: 0,
                wait: 0,
                misses: 65535,
                after: After::Ack,
                counted: Some(After::Ack),
                held: true,
                holds,
            };
            receiver.state = State::Open(open);
            assert_eq!(receiver.tick(), r_frame(frame::lm_ack(start, 1)));
            let after = Connection {
                holds: holds.saturating_add(1),
                ..open
            };
            assert_eq!(receiver.state, State::Open(after));
            let resumed = receiver.resume().unwrap().frame.unwrap();
            assert_eq!(resumed.data[0], e);
        }
    }
}
