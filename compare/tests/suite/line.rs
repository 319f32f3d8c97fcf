//! Chapter "The line", and the claim of demand 3 in its plain consequences on chance runs.

use crate::help::*;
use compare::reference::frame;
use compare::reference::line::{Bench, Call, List, Outcome};
use compare::reference::receiver::{self, Receiver, State};
use compare::reference::sender::{self, Phase, Sender};
use compare::reference::Refused;

fn bench() -> Bench {
    Bench::new(
        Sender::make(1, 10, 100).unwrap(),
        Receiver::make(10, 2, 1785).unwrap(),
    )
}

/// What hear, lose and repeat do to a list, and that an empty one gives nothing.
#[test]
fn hear_lose_repeat() {
    let mut list = List::new();
    assert_eq!((list.hear(), list.repeat()), (None, None));
    list.lose();
    for s in 1..=4 {
        list.join(frame::lm_ack(s, 1));
    }
    assert_eq!(list.repeat(), Some(frame::lm_ack(1, 1)));
    assert_eq!(list.repeat(), Some(frame::lm_ack(1, 1)));
    assert_eq!(list.hear(), Some(frame::lm_ack(1, 1)));
    list.lose();
    assert_eq!(list.hear(), Some(frame::lm_ack(3, 1)));
    assert_eq!(list.hear(), Some(frame::lm_ack(4, 1)));
    assert!(list.is_empty());
}

/// The bare line has no limit.
#[test]
fn bare_line_keeps_all() {
    let mut list = List::new();
    for _ in 0..1000 {
        list.join(frame::lm_ack(1, 1));
    }
    assert_eq!(list.len(), 1000);
}

/// "On an empty list nothing happens."
#[test]
fn empty_line() {
    let mut bench = bench();
    let before = bench.clone();
    let mut lent = buffer();
    for call in [
        Call::ForwardHear,
        Call::ForwardLose,
        Call::ForwardRepeat,
        Call::BackHear,
        Call::BackLose,
        Call::BackRepeat,
    ] {
        assert_eq!(
            bench.call(call, &message(9), &mut lent),
            Ok(Outcome::Nothing)
        );
        // Nothing is given, so nothing is refused either.
        assert_eq!(bench.call(call, &message(9), &mut []), Ok(Outcome::Nothing));
    }
    assert_eq!(bench, before);
}

/// A refused call leaves the ends and the buffer. A hearing's frame is off the line where it was heard,
/// and still there where it was repeated.
#[test]
fn refused_calls_on_the_line() {
    let mut bench = bench();
    let message = message(9);
    bench.call(Call::Begin, &message, &mut buffer()).unwrap();
    let before = bench.clone();
    let mut lent = vec![0xEE; 9];
    assert_eq!(
        bench.call(Call::ForwardRepeat, &message, &mut lent),
        Err(Refused(5))
    );
    assert_eq!(bench, before);
    assert_eq!(
        bench.call(Call::Begin, &message, &mut lent),
        Err(Refused(3))
    );
    assert_eq!(
        bench.call(Call::SenderTick, &message[1..], &mut lent),
        Err(Refused(4))
    );
    for call in [Call::Hold, Call::Resume] {
        assert_eq!(bench.call(call, &message, &mut lent), Err(Refused(13)));
    }
    assert_eq!(bench, before);
    assert_eq!(
        bench.call(Call::ForwardHear, &message, &mut lent),
        Err(Refused(5))
    );
    assert!(bench.line_is_empty());
    assert_eq!(
        (&bench.sender, &bench.receiver),
        (&before.sender, &before.receiver)
    );
    assert_eq!(lent, [0xEE; 9]);
}

/// A small generator of chance numbers, the same at every run.
struct Chance(u64);

impl Chance {
    fn below(&mut self, limit: u64) -> u64 {
        self.0 = self
            .0
            .wrapping_mul(6364136223846793005)
            .wrapping_add(1442695040888963407);
        (self.0 >> 33) % limit
    }
}

/// Chance runs of one begin each: every delivery is the very message, with nothing written past it;
/// "sent" has a delivery before it; there is at most one report of the sender, with the ticks and
/// frames counted here; the receiver reports delivered L or failed only while open.
#[test]
fn chance_runs() {
    let mut chance = Chance(2026);
    let (mut sent, mut delivered) = (0, 0);
    for _ in 0..4000 {
        let sender = Sender::make(
            1 + chance.below(3) as u8,
            1 + chance.below(12) as u16,
            20 + chance.below(200) as u16,
        );
        let receiver = Receiver::make(
            1 + chance.below(12) as u16,
            1 + chance.below(5) as u8,
            9 + chance.below(40) as u16,
        );
        let mut bench = Bench::new(sender.unwrap(), receiver.unwrap());
        let mut lent = buffer();
        let length = 1 + chance.below(40) as usize;
        let message: Vec<u8> = (0..length).map(|_| chance.below(256) as u8).collect();
        bench.call(Call::Begin, &message, &mut lent).unwrap();
        let mut deliveries = 0;
        let mut report = None;
        let mut ticks = 0;
        let mut frames = 1;
        for _ in 0..chance.below(400) {
            let call = match chance.below(20) {
                0..=5 => Call::SenderTick,
                6 | 7 => Call::ReceiverTick,
                8..=11 => Call::ForwardHear,
                12 => Call::ForwardLose,
                13 => Call::ForwardRepeat,
                14..=17 => Call::BackHear,
                18 => Call::BackLose,
                _ => Call::BackRepeat,
            };
            let was_idle = bench.sender.phase == Phase::Idle;
            let was_open = matches!(bench.receiver.state, State::Open(_));
            match bench.call(call, &message, &mut lent).unwrap() {
                Outcome::Nothing => {}
                Outcome::Sender(answer) => {
                    ticks += u16::from(call == Call::SenderTick && !was_idle);
                    frames += u16::from(answer.frame.is_some());
                    if let Some(given) = answer.report {
                        assert!(report.is_none());
                        report = Some(given);
                        match given {
                            sender::Report::Sent {
                                ticks: t,
                                frames: f,
                            } => {
                                assert_eq!((t, f), (ticks, frames));
                                assert!(deliveries > 0);
                                sent += 1;
                            }
                            sender::Report::Failed {
                                ticks: t,
                                frames: f,
                                ..
                            } => {
                                assert_eq!((t, f), (ticks, frames));
                            }
                        }
                    }
                }
                Outcome::Receiver(answer) => match answer.report {
                    None => {}
                    Some(receiver::Report::Delivered { l }) => {
                        assert!(was_open);
                        assert_eq!(usize::from(l), length);
                        assert_eq!(lent[..length], message[..]);
                        assert!(lent[length..].iter().all(|&byte| byte == 0xEE));
                        deliveries += 1;
                        delivered += 1;
                    }
                    Some(receiver::Report::Failed { .. }) => assert!(was_open),
                    Some(receiver::Report::Short(bytes)) => {
                        assert_eq!(bytes[..length], message[..]);
                        deliveries += 1;
                        delivered += 1;
                    }
                },
            }
        }
    }
    // The runs are worth something only if both come about often.
    assert!(sent > 300 && delivered > 300, "{sent} {delivered}");
}
